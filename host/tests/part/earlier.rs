//! Lines of the earlier edition: every byte, length and note, random lines both ways, old logs through a checker.

use crate::pair::Pair;
use crate::quota::Quota;
use crate::shared::driven::Driven;
use crate::shared::log::{damage, events, line, mix_cases, old_line, old_note, random_old_line};
use crate::shared::random::{frames, Random};
use crate::shared::seen::Seen;
use dillplatter_host::part::{self, Converted, Lowered, Raised};
use dillplatter_second::{open, Fed, Line, Machine, OldLine, Refusal};
use std::panic::catch_unwind;

const DIGITS: &[u8; 22] = b"0123456789ABCDEFabcdef";

/// An old line that has both signs and letters, and its raised line.
const OLD: &OldLine = b"5A1234FFFE8000";
const NEW: &Line = b"5A00001234FFFFFFFEFFFF800000000000";

fn refused<T>(number: u8, place: usize) -> Result<T, Refusal> {
    Err(Refusal::at(number, place))
}

#[test]
fn every_value_of_every_byte() {
    let quota = Quota::begin("bytes of converted lines");
    assert_eq!(Pair::raise(OLD), Ok(*NEW));
    assert_eq!(Pair::lower(NEW), Ok(*OLD));
    for place in 0..OLD.len() {
        for value in 0..=255 {
            let mut bytes = *OLD;
            bytes[place] = value;
            let answer = Pair::raise(&bytes);
            if DIGITS.contains(&value) {
                assert!(answer.is_ok());
            } else {
                assert_eq!(answer, refused(23, place));
            }
        }
    }
    // Lowered, 24, 25.
    let mut answers = [0; 3];
    for place in 0..NEW.len() {
        for value in 0..=255 {
            let mut bytes = *NEW;
            bytes[place] = value;
            match Pair::lower(&bytes) {
                Ok(_) => answers[0] += 1,
                Err(refusal) if refusal.number == 15 => {
                    assert_eq!(refusal.place, place);
                    assert!(!DIGITS.contains(&value));
                }
                Err(refusal) => answers[usize::from(refusal.number) - 23] += 1,
            }
        }
    }
    // A note's upper half has one spelling of each digit if it is 0, two if it is F; of the next digit about half fit.
    let fits = [2 * 22, 4 + 8 + 3 * 22, 2 * (4 * 2 + 14 + 3 * 22), 8];
    let lowered = fits.into_iter().sum();
    assert_eq!(answers, [lowered, 8 * 21, 34 * 22 - lowered - 8 * 21]);
    quota.end();
}

#[test]
fn every_length() {
    let quota = Quota::begin("lengths of converted lines");
    for length in (0..=100).chain([255, 256, 270, 290, 65_550, 65_570, 1 << 20]) {
        for place in [0, 12, 13, 14, 15, 32, 33, 34, 35, 200, usize::MAX] {
            for byte in *b"G\r\n" {
                let mut bytes = vec![b'0'; length];
                if let Some(there) = bytes.get_mut(place) {
                    *there = byte;
                }
                let bad = place.min(length);
                let up = match length {
                    14 if place >= 14 => Ok([b'0'; 34]),
                    _ => refused(23, bad.min(14)),
                };
                let down = match length {
                    34 if place >= 34 => Ok([b'0'; 14]),
                    _ => refused(15, bad.min(34)),
                };
                assert_eq!(Pair::raise(&bytes), up, "{length} {place}");
                assert_eq!(Pair::lower(&bytes), down, "{length} {place}");
            }
        }
    }
    quota.end();
}

#[test]
fn one_byte_more() {
    for value in 0..=255 {
        let behind = |line: &[u8]| [line, &[value]].concat();
        assert_eq!(Pair::raise(&behind(OLD)), refused(23, 14), "{value}");
        assert_eq!(Pair::lower(&behind(NEW)), refused(15, 34), "{value}");
        // A digit before the line makes its last digit the one too many.
        let before = |line: &[u8]| [&[value], line].concat();
        let [up, down] = match DIGITS.contains(&value) {
            true => [14, 34],
            false => [0, 0],
        };
        assert_eq!(Pair::raise(&before(OLD)), refused(23, up), "{value}");
        assert_eq!(Pair::lower(&before(NEW)), refused(15, down), "{value}");
    }
}

#[test]
fn the_first_of_two_bytes_that_are_no_digits() {
    for second in 0..34 {
        for first in 0..second {
            let [mut old, mut new] = [OLD.to_vec(), NEW.to_vec()];
            for place in [first, second] {
                new[place] = b'/';
                if let Some(byte) = old.get_mut(place) {
                    *byte = b'g';
                }
            }
            assert_eq!(Pair::lower(&new), refused(15, first), "{second}");
            if first < 14 {
                assert_eq!(Pair::raise(&old), refused(23, first), "{second}");
            }
        }
    }
}

#[test]
fn an_empty_line() {
    let digits = [b'0'; 34];
    for empty in [&[][..], &Vec::new(), &digits[34..], &digits[..0]] {
        let number = 23;
        let (place, line) = (0, [0; 34]);
        let raised = Raised {
            number,
            place,
            line,
        };
        assert_eq!(Raised::of(empty), raised);
        assert_eq!(part::raise(empty), Err(part::Refusal { number, place }));
        let number = 15;
        let line = [0; 14];
        let lowered = Lowered {
            number,
            place,
            line,
        };
        assert_eq!(Lowered::of(empty), lowered);
        assert_eq!(part::lower(empty), Err(part::Refusal { number, place }));
    }
}

#[test]
fn a_part_of_a_larger_buffer() {
    let whole = [&NEW[..], OLD, NEW, OLD].concat();
    for at in 0..whole.len() {
        for length in 0..=whole.len() - at {
            let bytes = &whole[at..at + length];
            assert_eq!(part::raise(bytes).is_ok(), length == 14);
            assert_eq!(Pair::raise(bytes).is_ok(), length == 14);
            let lowered = part::lower(bytes);
            assert_eq!(lowered.is_ok(), Pair::lower(bytes).is_ok());
        }
    }
    assert_eq!(part::raise(&whole[34..48]), Ok(*NEW));
    assert_eq!(part::lower(&whole[48..82]), Ok(*OLD));
}

#[test]
fn a_wrong_answer_is_caught() {
    fn told<const N: usize>(
        number: u32,
        place: u32,
        line: [u8; N],
    ) -> Option<Result<[u8; N], part::Refusal>> {
        let converted = Converted {
            number,
            place,
            line,
        };
        catch_unwind(|| converted.answer()).ok()
    }
    let (number, place) = (23, 5);
    assert_eq!(told(0, 0, *NEW), Some(Ok(*NEW)));
    assert_eq!(told(0, 0, *OLD), Some(Ok(*OLD)));
    let refusal = part::Refusal { number, place };
    assert_eq!(told(number, place, [0; 34]), Some(Err(refusal)));
    // A line with a place.
    assert_eq!([told(0, 14, *NEW), told(0, 1, [0; 34])], [None; 2]);
    assert_eq!([told(0, 34, *OLD), told(0, 1, [0; 14])], [None; 2]);
    // A refusal with a line, or with digits.
    assert_eq!([told(23, 0, *NEW), told(23, 5, [b'0'; 34])], [None; 2]);
    assert_eq!([told(24, 0, *OLD), told(15, 0, [b'0'; 14])], [None; 2]);
    for place in 0..14 {
        let mut line = [0; 14];
        line[place] = 1;
        assert_eq!(told(25, 2, line), None);
    }
}

/// The signed value of a note in a raised line.
fn value_of(line: &Line, n: usize) -> i32 {
    let digits = std::str::from_utf8(&line[2 + 8 * n..10 + 8 * n]).expect("digits are text");
    u32::from_str_radix(digits, 16).expect("they are 8 digits") as i32
}

#[test]
fn every_value_of_each_note() {
    let quota = Quota::begin("every old note");
    let random = &mut Random::new(230_000_000);
    for value in i16::MIN..=i16::MAX {
        for n in 0..3 {
            let mut notes = [0; 3].map(|_: i16| old_note(random));
            notes[n] = value;
            let old = old_line(random.below(256) as u8, notes);
            let mut bytes = old.clone();
            mix_cases(random, &mut bytes);
            let line = Pair::raise(&bytes).expect("the line has 14 digits");
            assert_eq!(line[..2], old[..2]);
            assert_eq!([0, 1, 2].map(|n| value_of(&line, n)), notes.map(i32::from));
            assert_eq!(value_of(&line, 3), 0);
            assert_eq!(Pair::lower(&line).unwrap()[..], old);
        }
    }
    quota.end();
}

/// Notes around the ends of 16 bits, of 32 bits, and of the halves; each power of 2, and each with its sign spread.
fn limits() -> Vec<i32> {
    let near = [
        0,
        0x8000,
        0x1_0000,
        0x7FFF_8000,
        0x7FFF_0000,
        i32::MAX,
        i32::MIN,
    ];
    let near = near
        .into_iter()
        .flat_map(|value| [value, -(value.max(-i32::MAX))]);
    let near = near.flat_map(|value| (-2..=2).map(move |more| value.wrapping_add(more)));
    let bits = (0..32).flat_map(|bit| [1 << bit, !(1 << bit), i32::MIN >> bit]);
    near.chain(bits).collect()
}

/// What lowering tells of some notes, but for the line.
fn told(notes: [i32; 4]) -> Result<(), Refusal> {
    if notes[3] != 0 {
        return refused(24, 0);
    }
    let beyond = |note: &i32| !(-32_768..=32_767).contains(note);
    match notes.iter().position(beyond) {
        Some(n) => refused(25, 2 + 8 * n),
        None => Ok(()),
    }
}

#[test]
fn notes_that_16_bits_hold_or_not() {
    let quota = Quota::begin("notes of lowered lines");
    let random = &mut Random::new(240_000_000);
    let values = limits();
    let check = |notes| {
        let answer = Pair::lower(&line(0x3C, notes)).map(|_| ());
        assert_eq!(answer, told(notes), "{notes:?}");
    };
    for value in &values {
        for n in 0..4 {
            let mut notes = [0, -1, 32_767, 0];
            notes[n] = *value;
            check(notes);
        }
        // Two notes, the fourth among them.
        for other in &values {
            let [a, b, c, d] = [*value, *other, -32_768, 0];
            let places = [[a, b, c, d], [c, a, b, d], [a, c, b, d], [c, c, a, b]];
            check(random.pick(&places));
        }
    }
    for notes in (0..20_000).map(|_| [0; 3].map(|_: i32| random.pick(&values))) {
        check([notes[0], notes[1], notes[2], 0]);
    }
    quota.end();
}

/// A random note, mostly one that 16 bits hold.
fn new_note(random: &mut Random, limits: &[i32]) -> i32 {
    let any = random.below(1 << 16) as i16;
    match random.below(20) {
        0 => random.pick(limits),
        1 => i32::from(any) ^ 1 << (15 + random.below(17)),
        _ => i32::from(any),
    }
}

/// A random line, mostly one that can be lowered.
fn new_line(random: &mut Random, limits: &[i32]) -> Vec<u8> {
    let mut notes = [0; 4].map(|_: i32| new_note(random, limits));
    if !random.once_in(10) {
        notes[3] = 0;
    }
    line(random.below(256) as u8, notes)
}

#[test]
fn random_lines_both_ways() {
    let quota = Quota::begin("random conversions");
    let random = &mut Random::new(250_000_000);
    let limits = limits();
    let [mut up, mut down] = [0; 2];
    for _ in 0..100_000 {
        let mut old: Vec<u8> = (0..14).map(|_| random.pick(DIGITS)).collect();
        let mut new = new_line(random, &limits);
        mix_cases(random, &mut new);
        for bytes in [&mut old, &mut new] {
            if random.once_in(4) {
                damage(random, bytes);
            }
        }
        if let Ok(line) = Pair::raise(&old) {
            assert_eq!(Pair::lower(&line).unwrap()[..], old.to_ascii_uppercase());
            up += 1;
        }
        if let Ok(line) = Pair::lower(&new) {
            assert_eq!(Pair::raise(&line).unwrap()[..], new.to_ascii_uppercase());
            down += 1;
        }
        // No line goes both ways, unless damage gave it the other length.
        assert!(Pair::lower(&old).is_err() || old.len() == 34);
        assert!(Pair::raise(&new).is_err() || new.len() == 14);
    }
    assert!(up > 70_000 && down > 40_000, "{up} {down}");
    quota.end();
}

/// An old line, raised and fed to the part, beside a machine that is fed it as it is.
fn feed(pair: &mut Pair, machine: &mut Machine, old: &[u8]) -> Fed {
    let expected = machine.feed_old(old);
    match Pair::raise(old) {
        Ok(line) => assert_eq!(pair.feed(&line), expected),
        Err(refusal) => {
            assert_eq!(Fed::Refused(refusal), expected);
            let bad = Fed::Refused(Refusal::at(15, 0));
            assert_eq!([pair.feed(&[0; 34]), pair.feed(b"")], [bad; 2]);
        }
    }
    expected
}

/// One random call; its answer is counted.
fn call(random: &mut Random, pair: &mut Pair, machine: &mut Machine, seen: &mut Seen) {
    if random.once_in(2) {
        let old = random_old_line(random, &events(machine));
        seen.fed(feed(pair, machine, &old));
    } else {
        let length = random.pick(&[166, 166, 166, 166, 200, 165]);
        let mut report = vec![random.below(256) as u8; length];
        let mut expected = report.clone();
        let answer = pair.pull(&mut report);
        assert_eq!(answer, machine.pull(&mut expected));
        assert!(report == expected, "the reports differ");
        seen.pulled(answer);
    }
    assert_eq!(*pair.state(), machine.state(pair.window()));
}

#[test]
fn old_logs() {
    let quota = Quota::begin("old logs");
    let mut seen = Seen::default();
    for seed in 0..600 {
        let random = &mut Random::new(seed + 260_000_000);
        let frames = frames(random);
        let w = random.pick(&[1, 1, 2, 3, 5, 16, 64, 256]);
        let words = 32 * w as usize;
        let mut pair = Pair::open(&frames, w, &vec![-1; words]).unwrap();
        let mut machine = open(&frames, w, words).unwrap();
        for _ in 0..200 {
            call(random, &mut pair, &mut machine, &mut seen);
        }
        assert_eq!(pair.machine().reported(), machine.reported());
        assert!((0..8).all(|event| pair.machine().list(event) == machine.list(event)));
    }
    // Accepted, ignored, 17, 23; three verdicts, waiting, 14.
    seen.more_than(9, 500);
    quota.end();
}
