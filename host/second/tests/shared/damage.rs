//! Frames that are almost right.

use super::random::Random;

/// Changes a byte, or drops, doubles or swaps frames, or cuts or adds bytes, or changes a frame of a scale or decimals.
pub fn damage_frames(random: &mut Random, frames: &mut Vec<u8>) {
    if random.once_in(4) {
        damage_decimals(random, frames);
        return;
    }
    let count = frames.len() / 8;
    if count == 0 {
        frames.push(random.below(256) as u8);
        return;
    }
    let (one, other) = (8 * random.below(count), 8 * random.below(count));
    let values = [
        0, 1, 2, 3, 4, 7, 8, 9, 10, 0x10, 0x11, 0x14, 0x15, 0x20, 0x21, 0x26, 0x27, 0x31, 0x34,
        0x35,
    ];
    match random.below(9) {
        0 => frames[one] = random.pick(&values),
        1 | 2 => frames[one + random.below(8)] = random.pick(&values),
        3 => frames[one + random.below(8)] = random.below(256) as u8,
        4 => {
            frames.drain(one..one + 8);
        }
        5 => {
            let copy = frames[one..one + 8].to_vec();
            frames.splice(other..other, copy);
        }
        6 => (0..8).for_each(|k| frames.swap(one + k, other + k)),
        7 if random.once_in(3) => frames.truncate(random.below(8 * count)),
        _ => frames[one + 4..one + 8].copy_from_slice(&edge_word(random).to_be_bytes()),
    }
}

/// Adds a frame of a scale, first or elsewhere, drops it, gives it other decimals or another byte, or gives a literal decimals.
pub fn damage_decimals(random: &mut Random, frames: &mut Vec<u8>) {
    let count = frames.len() / 8;
    let decimals = random.below(9) as u8;
    let scale = [4, decimals, 0, 0, 0, 0, 0, 0];
    let has_scale = count > 0 && frames[0] == 4;
    let literals: Vec<usize> = (0..count)
        .map(|k| 8 * k)
        .filter(|at| frames[*at] == 1)
        .collect();
    match random.below(6) {
        0 if has_scale => frames[1] = decimals,
        0 => drop(frames.splice(..0, scale)),
        1 => {
            let at = 8 * random.below(count + 1);
            frames.splice(at..at, scale);
        }
        2 if has_scale && random.once_in(2) => drop(frames.drain(..8)),
        2 if has_scale => frames[2 + random.below(6)] = random.pick(&[1, 4, 255]),
        _ if literals.is_empty() => drop(frames.splice(..0, scale)),
        _ => {
            let literal = random.pick(&literals);
            frames[literal + 1] = decimals;
        }
    }
}

/// A word at or next to a limit.
fn edge_word(random: &mut Random) -> i32 {
    random.pick(&[
        -1,
        0,
        1,
        9_998,
        9_999,
        10_000,
        10_001,
        -9_998,
        -9_999,
        -10_000,
        -10_001,
        i32::MAX,
        i32::MIN,
    ])
}
