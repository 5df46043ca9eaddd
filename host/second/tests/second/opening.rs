//! Refusals 9, 10 and 11, by exhaustion where it is possible; random openings of both profiles.

use crate::shared::driven::Twin;
use crate::shared::opening;
use dillplatter_second::frames::check;
use dillplatter_second::{open, Refusal};
use std::collections::HashSet;

const LITERAL: [u8; 8] = [1, 0, 0, 0, 0, 0, 0, 5];
const INSTANCE: [u8; 8] = [2, 0, 0, 0, 0, 0, 0, 0];
const REFERENCE: [u8; 8] = [3, 0, 0, 1, 0, 0, 0, 0];

fn operator(kind: u8) -> [u8; 8] {
    [kind, 0, 0, 0, 0, 0, 0, 0]
}

/// Number and place, or nothing if the frames are accepted.
fn refusal(frames: &[[u8; 8]]) -> Option<(u8, usize)> {
    let refusal = check(&frames.concat()).err()?;
    Some((refusal.number, refusal.place))
}

/// What operators take and give, as operands on a stack: 's' a sum, 'c' a condition.
const STEPS: [(&str, &str, u8); 6] = [
    ("", "s", 3),
    ("ss", "s", 0x12),
    ("s", "s", 0x14),
    ("ss", "c", 0x24),
    ("c", "c", 0x31),
    ("cc", "c", 0x34),
];

fn step(stack: &str, number: usize) -> Option<String> {
    let (takes, gives, _) = STEPS[number];
    stack
        .strip_suffix(takes)
        .map(|rest| format!("{rest}{gives}"))
}

/// The stacks of at most 10 operands from which some frames lead to one condition, found by search.
fn viable() -> HashSet<String> {
    let mut stacks = vec![String::new()];
    for k in 0.. {
        if k == stacks.len() {
            break;
        }
        if stacks[k].len() < 10 {
            for more in ["s", "c"] {
                stacks.push(format!("{}{more}", stacks[k]));
            }
        }
    }
    let mut good: HashSet<String> = HashSet::from(["c".to_string()]);
    loop {
        let before = good.len();
        for stack in &stacks {
            let leads = (0..STEPS.len())
                .filter_map(|number| step(stack, number))
                .any(|next| good.contains(&next));
            if leads {
                good.insert(stack.clone());
            }
        }
        if good.len() == before {
            return good;
        }
    }
}

#[test]
fn every_list_of_up_to_6_frames_by_their_sorts() {
    let viable = viable();
    let (mut accepted, mut lists) = (0, 0);
    for length in 1..=6_u32 {
        for code in 0..6_usize.pow(length) {
            let numbers = (0..length).map(|k| code / 6_usize.pow(k) % 6);
            let numbers: Vec<usize> = numbers.collect();
            let mut stack = String::new();
            let mut place = None;
            for (k, number) in numbers.iter().enumerate() {
                match step(&stack, *number) {
                    Some(next) if viable.contains(&next) => stack = next,
                    _ => {
                        place = Some(k);
                        break;
                    }
                }
            }
            if place.is_none() && stack != "c" {
                place = Some(numbers.len());
            }
            let frames: Vec<[u8; 8]> = numbers
                .iter()
                .map(|number| match STEPS[*number].2 {
                    3 => REFERENCE,
                    kind => operator(kind),
                })
                .collect();
            let expected = place.map(|place| (10, place));
            assert_eq!(refusal(&frames), expected, "{numbers:?}");
            accepted += usize::from(place.is_none());
            lists += 1;
        }
    }
    assert_eq!(lists, 55_986);
    // By hand: 1 of 3 frames; of 4, abs left or right, not; and more.
    assert!(accepted > 4, "{accepted}");
}

#[test]
fn every_kind_byte() {
    // Behind one reference and one literal: both sums stand ready.
    for kind in 0..=255_u8 {
        let frames = [REFERENCE, LITERAL, operator(kind)];
        let expected = match kind {
            0x21..=0x26 => None,
            0x11..=0x14 | 0x01 | 0x02 => Some((10, 3)),
            _ => Some((10, 2)),
        };
        assert_eq!(refusal(&frames), expected, "kind {kind:02x}");
    }
    // Behind two conditions.
    for kind in 0..=255_u8 {
        let relation = [REFERENCE, LITERAL, operator(0x21)];
        let frames = [&relation[..], &relation, &[operator(kind)]].concat();
        let expected = match kind {
            0x32..=0x34 => None,
            0x31 | 0x01 | 0x02 => Some((10, 7)),
            _ => Some((10, 6)),
        };
        assert_eq!(refusal(&frames), expected, "kind {kind:02x}");
    }
}

#[test]
fn every_value_of_every_byte_of_a_frame() {
    // A rule with every kind of frame: abs(t(a[i])) + 5 - i * 5 = 5 and so on.
    let mut rule = vec![REFERENCE, operator(0x14), LITERAL, operator(0x11), INSTANCE];
    rule.extend([
        LITERAL,
        operator(0x13),
        operator(0x12),
        LITERAL,
        operator(0x21),
    ]);
    for kind in 0x22..=0x26 {
        rule.extend([INSTANCE, LITERAL, operator(kind)]);
    }
    rule.extend([0x31, 0x32, 0x33, 0x34, 0x32, 0x33].map(operator));
    assert_eq!(refusal(&rule), None);
    let longer = [&rule[..], &[operator(0x34)]].concat();
    assert_eq!(refusal(&longer), Some((10, rule.len())));
    for place in 0..rule.len() {
        for byte in 1..8 {
            for value in 0..=255_u8 {
                let mut changed = rule.clone();
                changed[place][byte] = value;
                let word = i32::from_be_bytes(changed[place][4..].try_into().unwrap());
                let fits = match (rule[place][0], byte) {
                    (3, 1) => value < 8,
                    (3, 2) => value < 4,
                    (3, 3) => value > 0 && value < 10,
                    (3, _) => word.unsigned_abs() < 10_000,
                    (1, 4..) => word >= 0,
                    _ => value == 0,
                };
                let expected = (!fits).then_some((10, place));
                assert_eq!(refusal(&changed), expected, "{place} {byte} {value}");
            }
        }
    }
}

#[test]
fn offsets_at_their_limits() {
    for (offset, fits) in [
        (9_999_i32, true),
        (10_000, false),
        (-9_999, true),
        (-10_000, false),
        (i32::MIN, false),
        (i32::MAX, false),
    ] {
        let mut reference = REFERENCE;
        reference[4..].copy_from_slice(&offset.to_be_bytes());
        let expected = (!fits).then_some((10, 1));
        assert_eq!(refusal(&[LITERAL, reference, operator(0x21)]), expected);
    }
}

#[test]
fn every_length_of_bytes() {
    let rule = [REFERENCE, LITERAL, operator(0x21)].concat();
    let nots = operator(0x31).repeat(70);
    let bytes = [rule, nots].concat();
    for length in 0..=bytes.len() {
        let number = check(&bytes[..length]).err().map(|refusal| refusal.number);
        let expected = match length {
            8..=512 if length % 8 == 0 && length >= 24 => None,
            8..=512 if length % 8 == 0 => Some(10),
            _ => Some(9),
        };
        assert_eq!(number, expected, "{length} bytes");
    }
}

#[test]
fn widths_and_windows() {
    let rule = [REFERENCE, LITERAL, operator(0x21)].concat();
    for w in 0..=300_u32 {
        for more in [-32, -1, 0, 1, 32_i64] {
            let words = i64::from(w) * 32 + more;
            let Ok(words) = usize::try_from(words) else {
                continue;
            };
            let fits = (1..=256).contains(&w) && more == 0;
            let answer = open(&rule, w, words).map(|_| ());
            let expected = if fits { Ok(()) } else { Err(Refusal::of(11)) };
            assert_eq!(answer, expected, "W {w}, {words} words");
        }
    }
    for w in [1 << 27, (1 << 27) + 1, u32::MAX] {
        let words = w.wrapping_mul(32) as usize;
        assert_eq!(open(&rule, w, words).err(), Some(Refusal::of(11)));
    }
}

#[test]
fn damaged_frames() {
    opening::damaged_frames::<Twin>();
}
