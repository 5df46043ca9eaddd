//! Opening: random and damaged frames, widths, windows.

use crate::pair::Pair;
use crate::quota::Quota;
use crate::shared::driven::Driven;
use crate::shared::opening;
use std::collections::BTreeMap;

const REFERENCE: [u8; 8] = [3, 0, 0, 1, 0, 0, 0, 0];
const LITERAL: [u8; 8] = [1, 0, 0, 0, 0, 0, 0, 5];
const INSTANCE: [u8; 8] = [2, 0, 0, 0, 0, 0, 0, 0];

fn operator(kind: u8) -> [u8; 8] {
    [kind, 0, 0, 0, 0, 0, 0, 0]
}

/// The number of the refusal for W 1; 0 if the frames open.
fn number(frames: &[u8]) -> u8 {
    Pair::open(frames, 1, &[7; 32])
        .err()
        .map_or(0, |refusal| refusal.number)
}

#[test]
fn every_value_of_every_byte() {
    let quota = Quota::begin("bytes of frames");
    // Every kind of frame is in it.
    let mut frames = vec![
        REFERENCE,
        operator(0x14),
        LITERAL,
        operator(0x11),
        INSTANCE,
        LITERAL,
    ];
    frames.extend([operator(0x13), operator(0x12), LITERAL, operator(0x21)]);
    for kind in 0x22..=0x26 {
        frames.extend([INSTANCE, LITERAL, operator(kind)]);
    }
    frames.extend([0x31, 0x32, 0x33, 0x34, 0x32, 0x33].map(operator));
    let frames = frames.concat();
    assert_eq!(number(&frames), 0);
    let (mut opened, mut refused) = (0, 0);
    for place in 0..frames.len() {
        for value in 0..=255 {
            let mut changed = frames.clone();
            changed[place] = value;
            match number(&changed) {
                0 => opened += 1,
                _ => refused += 1,
            }
        }
    }
    assert!(opened > 2_000 && refused > 50_000, "{opened} {refused}");
    quota.end();
}

#[test]
fn every_short_list_of_frames() {
    let quota = Quota::begin("short lists of frames");
    let large = [1, 0, 0, 0, 0x7f, 0xff, 0xff, 0xff];
    let decimals = [1, 2, 0, 0, 0, 0, 0, 125];
    let steps = [
        REFERENCE,
        [4, 3, 0, 0, 0, 0, 0, 0],
        decimals,
        large,
        operator(0x14),
        operator(0x11),
        operator(0x13),
        operator(0x21),
        operator(0x31),
        operator(0x32),
    ];
    let mut seen: BTreeMap<u8, usize> = BTreeMap::new();
    for length in 1..=5 {
        for list in 0..10_usize.pow(length) {
            let step = |k| steps[list / 10_usize.pow(k) % 10];
            let frames: Vec<u8> = (0..length).flat_map(step).collect();
            *seen.entry(number(&frames)).or_default() += 1;
        }
    }
    // Opened, a rule of no reference, and no rule.
    assert_eq!(seen.keys().copied().collect::<Vec<u8>>(), [0, 7, 10]);
    quota.end();
}

#[test]
fn magnitudes_at_opening() {
    let product = [REFERENCE, REFERENCE, operator(0x13)].concat();
    let literal = |value: u8| [1, 0, 0, 0, 0, 0, 0, value];
    let end = [LITERAL, operator(0x25)].concat();
    for kind in [0x11, 0x12, 0x13] {
        for value in 0..4 {
            let more = [literal(value), operator(kind)].concat();
            let over = if kind == 0x13 { value > 1 } else { value > 0 };
            let frames = [product.clone(), more, end.clone()].concat();
            assert_eq!(
                number(&frames),
                if over { 8 } else { 0 },
                "{kind:02x} {value}"
            );
        }
    }
    // 9 and 10 come before 7 and 8, these before 11.
    let none = [LITERAL, LITERAL, operator(0x21)].concat();
    assert_eq!(number(&none), 7);
    assert_eq!(number(&none[..16]), 10);
    assert_eq!(number(&none[..15]), 9);
    let refused = Pair::open(&none, 0, &[])
        .err()
        .map(|refusal| refusal.number);
    assert_eq!(refused, Some(7));
}

#[test]
fn damaged_frames() {
    let quota = Quota::begin("damaged frames");
    opening::damaged_frames::<Pair>();
    quota.end();
}

#[test]
fn every_length_of_bytes() {
    let rule = [REFERENCE, LITERAL, operator(0x21)].concat();
    let bytes = [rule, operator(0x31).repeat(75)].concat();
    for length in 0..=bytes.len() {
        let expected = match length {
            8..=512 if length % 8 == 0 && length >= 24 => 0,
            8..=512 if length % 8 == 0 => 10,
            _ => 9,
        };
        assert_eq!(number(&bytes[..length]), expected, "{length} bytes");
    }
}

#[test]
fn widths_and_windows() {
    let rule = [REFERENCE, LITERAL, operator(0x21)].concat();
    for w in 0..=300_u32 {
        for more in [-32, -1, 0, 1, 32_i64] {
            let Ok(words) = usize::try_from(i64::from(w) * 32 + more) else {
                continue;
            };
            let fits = (1..=256).contains(&w) && more == 0;
            let answer = Pair::open(&rule, w, &vec![-9; words]).map(|_| ());
            let number = answer.map_err(|refusal| (refusal.number, refusal.place));
            assert_eq!(number, if fits { Ok(()) } else { Err((11, 0)) });
        }
    }
    // 32 x W comes round to a small number of words.
    for w in [1 << 27, (1 << 27) + 1, (1 << 27) + 64, u32::MAX] {
        let window = vec![3; w.wrapping_mul(32) as usize % 10_000];
        let number = Pair::open(&rule, w, &window)
            .err()
            .map(|refusal| refusal.number);
        assert_eq!(number, Some(11));
    }
}
