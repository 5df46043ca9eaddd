//! Texts that are almost right.

use crate::shared::random::Random;

/// One spelling of each token, and of tokens that no rule has.
const TOKENS: [&str; 40] = [
    "events",
    "notes",
    "i",
    "abs",
    "x",
    "t",
    "in",
    "7",
    "0",
    "10000",
    "2147483648",
    "scale",
    "2.5",
    "0.000000",
    "0.0000000",
    "2147483.647",
    "2147483.648",
    ".",
    ";",
    "->",
    "||",
    "&&",
    "!",
    "{",
    "}",
    "=",
    "!=",
    "<",
    "<=",
    ">",
    ">=",
    "+",
    "-",
    "*",
    "(",
    ")",
    "[",
    "]",
    "|",
    "&",
];

/// Changes, drops, doubles or adds a byte, or cuts the end off.
pub fn damage_bytes(random: &mut Random, bytes: &mut Vec<u8>) {
    let place = random.below(bytes.len() + 1);
    let byte = match random.below(3) {
        0 => random.below(256) as u8,
        1 => random.pick(b"abcefilnst0129.;->|&!{}=<>+*()[] \n"),
        _ => random.pick(b"\0\t\r?#.,'Az@[`{/:\x7f\x80\xff"),
    };
    match random.below(6) {
        0 | 1 if place < bytes.len() => bytes[place] = byte,
        2 if place < bytes.len() => {
            bytes.remove(place);
        }
        3 if place < bytes.len() => bytes.insert(place, bytes[place]),
        4 if place < bytes.len() && random.once_in(4) => bytes.truncate(place),
        _ => bytes.insert(place, byte),
    }
}

/// Adds a point or a zero beside a digit, zeros behind a point, takes a point away, adds a blank or a point beside one, makes the
/// clause's number another, or writes the clause's word somewhere.
pub fn damage_points(random: &mut Random, bytes: &mut Vec<u8>) {
    let of = |test: fn(&u8) -> bool| -> Vec<usize> {
        let places = 0..bytes.len();
        places.filter(|place| test(&bytes[*place])).collect()
    };
    let (digits, points) = (of(u8::is_ascii_digit), of(|byte| *byte == b'.'));
    match random.below(7) {
        0 | 1 if !digits.is_empty() => {
            let place = random.pick(&digits) + random.below(2);
            bytes.insert(place, random.pick(b"..0"));
        }
        2 | 3 if !points.is_empty() => {
            let behind = random.pick(&points) + 1;
            let zeros = 1 + random.below(7);
            bytes.splice(behind..behind, vec![b'0'; zeros]);
        }
        4 if !points.is_empty() => {
            bytes.remove(random.pick(&points));
        }
        5 if !points.is_empty() => {
            let place = random.pick(&points) + random.below(2);
            bytes.insert(place, random.pick(b" ."));
        }
        2..=5 if !digits.is_empty() => bytes[digits[0]] = random.pick(b"0678"),
        _ => {
            let place = random.below(bytes.len() + 1);
            let words = [
                "scale",
                " scale 1;",
                "; scale 2;",
                "scale 7;",
                ".5",
                "1.",
                "scale ",
            ];
            bytes.splice(place..place, random.pick(&words).bytes());
        }
    }
}

/// Swaps, drops, doubles, changes or adds a token.
pub fn damage_tokens(random: &mut Random, tokens: &mut Vec<String>) {
    let place = random.below(tokens.len());
    match random.below(6) {
        0 => {
            let other = random.below(tokens.len());
            tokens.swap(place, other);
        }
        1 => {
            tokens.remove(place);
        }
        2 => tokens.insert(place, tokens[place].clone()),
        3 => tokens[place] = random.pick(&TOKENS).into(),
        4 => {
            let other = random.below(tokens.len());
            tokens[place] = tokens[other].clone();
        }
        _ => tokens.insert(place, random.pick(&TOKENS).into()),
    }
    if tokens.is_empty() {
        tokens.push("events".into());
    }
}
