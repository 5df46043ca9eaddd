//! Texts on both sides of every limit of reading.

use crate::pair::Pair;
use crate::shared::driven::Driven;
use dillplatter_second::Refusal;

const HEAD: &str = "events a b; notes t u;";

/// The number of frames of a text, or number and place of its refusal.
fn answer(text: &str) -> Result<usize, (u8, usize)> {
    Pair::frames_of(text.as_bytes())
        .map(|frames| frames.len() / 8)
        .map_err(|Refusal { number, place }| (number, place))
}

/// The same for a condition behind the head.
fn condition(text: &str) -> Result<usize, (u8, usize)> {
    answer(&format!("{HEAD}{text}"))
}

/// A rule of so many frames: read, up to 64.
fn few(frames: usize) -> Result<usize, (u8, usize)> {
    if frames <= 64 {
        Ok(frames)
    } else {
        Err((6, 0))
    }
}

/// The refusal at a place of such a condition.
fn behind_head(number: u8, place: usize) -> Result<usize, (u8, usize)> {
    Err((number, HEAD.len() + place))
}

#[test]
fn letters_of_a_name() {
    for letters in 1..=40 {
        let name = "x".repeat(letters);
        let events = answer(&format!("events {name}; notes t; t({name}[i]) = 1"));
        let notes = answer(&format!("events a; notes {name}; {name}(a[i]) = 1"));
        assert_eq!(events, if letters <= 12 { Ok(3) } else { Err((4, 7)) });
        assert_eq!(notes, if letters <= 12 { Ok(3) } else { Err((4, 16)) });
        // A name and the same with one letter more are two names.
        let longer = format!("{name}y");
        let both = answer(&format!(
            "events {name} {longer}; notes t; t({longer}[i]) = 1"
        ));
        assert_eq!(both.is_ok(), letters < 12);
    }
}

#[test]
fn events_and_notes() {
    let names: Vec<&str> = "a b c d e f g h j k l m".split(' ').collect();
    for count in 1..=names.len() {
        let list = names[..count].join(" ");
        let last = names[count - 1];
        let events = answer(&format!("events {list}; notes t; t({last}[i]) = 1"));
        assert_eq!(events, if count <= 8 { Ok(3) } else { Err((4, 7 + 16)) });
        let notes = answer(&format!("events e; notes {list}; {last}(e[i]) = 1"));
        assert_eq!(notes, if count <= 4 { Ok(3) } else { Err((4, 16 + 8)) });
    }
}

#[test]
fn factors_and_offsets() {
    for number in 0..=300_u64 {
        let expected = |fits, place| if fits { Ok(3) } else { behind_head(5, place) };
        let factor = condition(&format!("t(a[{number}*i]) = 1"));
        assert_eq!(factor, expected((1..=9).contains(&number), 4));
        let number = number + 9_850;
        for sign in ["+", "-"] {
            let offset = condition(&format!("t(a[i{sign}{number}]) = 1"));
            assert_eq!(offset, expected(number <= 9_999, 6));
        }
    }
}

#[test]
fn literals() {
    for limit in [
        (1 << 31) - 1,
        1 << 31,
        1 << 32,
        1 << 33,
        1 << 62,
        1 << 63,
        u128::from(u64::MAX),
        1 << 64,
        1 << 100,
    ] {
        for number in [limit - 1, limit, limit + 1] {
            for zeros in ["", "0", "000000000000000000000000"] {
                let literal = condition(&format!("t(a[i]) = {zeros}{number}"));
                let fits = number <= 2_147_483_647;
                assert_eq!(literal, if fits { Ok(3) } else { behind_head(5, 10) });
            }
        }
    }
    for digits in [9, 10, 11, 19, 20, 21, 39, 40, 900] {
        for digit in ["1", "9"] {
            let literal = condition(&format!("t(a[i]) = {}", digit.repeat(digits)));
            let fits = digits == 9 || digits == 10 && digit == "1";
            assert_eq!(literal, if fits { Ok(3) } else { behind_head(5, 10) });
        }
    }
}

#[test]
fn depth() {
    let relation = "t(a[i]) = 1";
    for depth in 0..=40 {
        let fits = depth <= 16;
        let groups = [
            format!("{}{relation}", "!".repeat(depth)),
            format!("{}{relation}{}", "{".repeat(depth), "}".repeat(depth)),
            format!("{}t(a[i]){} = 1", "(".repeat(depth), ")".repeat(depth)),
            format!("{}t(a[i]){} = 1", "abs(".repeat(depth), ")".repeat(depth)),
            format!("1 = {}t(a[i]){}", "(1+".repeat(depth), ")".repeat(depth)),
        ];
        for text in groups {
            let number = condition(&text).map_err(|(number, _)| number);
            assert_eq!(number.is_ok(), fits, "{text}");
            assert!(number.is_ok() || number == Err(6), "{text}");
        }
    }
}

#[test]
fn depth_of_mixed_groups() {
    for arrows in 0..=6 {
        for nots in 0..=6 {
            for braces in 0..=6 {
                for sizes in 0..=4 {
                    let text = format!(
                        "{}{}{}{}t(a[i]){} = 1{}",
                        "i=i->".repeat(arrows),
                        "!".repeat(nots),
                        "{".repeat(braces),
                        "abs((".repeat(sizes),
                        "))".repeat(sizes),
                        "}".repeat(braces)
                    );
                    let fits = arrows + nots + braces + 2 * sizes <= 16;
                    let frames = 4 * arrows + nots + sizes + 3;
                    assert_eq!(
                        condition(&text),
                        if fits { Ok(frames) } else { Err((6, 0)) }
                    );
                }
            }
        }
    }
}

#[test]
fn a_group_ends_its_depth() {
    let beside = |unit: &str, times: usize, between: &str| vec![unit; times].join(between);
    for times in 1..=21 {
        let units = beside("{!{!t(a[i]) = 1}}", times, "&&");
        let expected = 3 * times + 2 * times + times - 1;
        assert_eq!(condition(&units), few(expected));
        let groups = format!("{} = t(a[i])", beside("abs((i))", times, "-"));
        let expected = 3 * times - 1 + 2;
        assert_eq!(condition(&groups), few(expected));
    }
}

#[test]
fn depth_on_either_side_of_an_arrow() {
    for left in 0..=18 {
        for right in 0..=18 {
            let text = format!(
                "{}t(a[i]) = 1 -> {}i = 1",
                "!".repeat(left),
                "!".repeat(right)
            );
            let fits = left <= 16 && right < 16;
            assert_eq!(
                condition(&text),
                if fits {
                    Ok(7 + left + right)
                } else {
                    Err((6, 0))
                }
            );
        }
    }
}

#[test]
fn frames() {
    for operands in 1..=40 {
        for nots in 0..=2 {
            let sum = vec!["t(a[i])"; operands].join("+");
            let text = format!("{}{sum} = 1", "!".repeat(nots));
            let frames = 2 * operands + 1 + nots;
            assert_eq!(condition(&text), few(frames));
        }
    }
    for relations in 1..=20 {
        for operator in ["&&", "||"] {
            let text = vec!["t(a[i])=1"; relations].join(operator);
            let frames = 4 * relations - 1;
            assert_eq!(condition(&text), few(frames));
        }
    }
}

#[test]
fn magnitudes() {
    let largest = 2_147_483_647_u64;
    // (2^31 - 1)^2 + 2 * (2^31 - 1) + 1 = 2^62.
    let near = format!("{largest}*{largest}+{largest}+{largest}");
    for (sum, fits) in [
        (format!("{near}+1"), true),
        (format!("{near}+2"), false),
        (format!("1-({near})"), true),
        (format!("2-({near})"), false),
        (format!("abs({near}+1)"), true),
        (format!("abs({near}+1)*1"), true),
        (format!("abs({near}+1)*0"), true),
        (format!("({near}+2)*0"), false),
        ("i*i*i*4".into(), true),
        ("i*i*i*5".into(), false),
        ("i*i*i*4+0".into(), true),
        ("i*i*i*4+1".into(), false),
        ("i*i*i*3+i*i*i".into(), true),
        ("i*i*i*3+i*i*i+1-1".into(), false),
        ("t(a[i])*u(b[i])".into(), true),
        ("t(a[i])*u(b[i])-0".into(), true),
        ("t(a[i])*u(b[i])-1".into(), false),
        ("t(a[i])*i*2048".into(), true),
        ("t(a[i])*i*2049".into(), false),
        ("t(a[i])*t(a[i])*t(a[i])*t(a[i])*t(a[i])".into(), false),
    ] {
        for text in [
            format!("{sum} = t(a[i])"),
            format!("t(a[i]) < {sum} || i = 1"),
        ] {
            let answer = condition(&text);
            assert_eq!(answer.is_ok(), fits, "{text}");
            assert!(fits || answer == Err((8, 0)), "{text}");
        }
    }
}

#[test]
fn lengths_of_a_text() {
    let rule = format!("{HEAD}t(a[i]) = 1");
    for length in 1_000..=1_060_usize {
        let blanks = length - rule.len();
        let expected = if length <= 1_024 { Ok(3) } else { Err((2, 0)) };
        assert_eq!(answer(&format!("{rule}{}", " ".repeat(blanks))), expected);
        assert_eq!(answer(&format!("{}{rule}", "\n".repeat(blanks))), expected);
        let zeros = condition(&format!("t(a[i]) = {}1", "0".repeat(blanks)));
        assert_eq!(zeros, expected);
        // A long run of each sort of byte to the end of the text.
        for byte in ["x", "9", "!", "{", "(", "[", "-", "|", "?", "\t"] {
            let long = format!("{HEAD}{}", byte.repeat(length - HEAD.len()));
            let number = answer(&long).unwrap_err().0;
            assert_eq!(number, if length <= 1_024 { 3 } else { 2 });
        }
    }
}

#[test]
fn refusals_in_their_order() {
    let deep = "!".repeat(17);
    let cases = [
        (format!("{deep}2147483648 = c(a[i]) ?"), behind_head(3, 38)),
        (format!("{deep}2147483648 = c(a[i])"), behind_head(4, 30)),
        (format!("{deep}2147483648 = t(a[i])"), behind_head(5, 17)),
        (format!("{deep}i*i*i*i = t(a[i])"), Err((6, 0))),
        ("i*i*i*i = 1".into(), Err((7, 0))),
        ("i*i*i*i = t(a[i])".into(), Err((8, 0))),
    ];
    for (text, expected) in cases {
        assert_eq!(condition(&text), expected, "{text}");
    }
}
