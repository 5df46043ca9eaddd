//! Log lines of the earlier edition, and the converter between them and log lines.

use super::line::{read_line, DIGITS};
use super::Refusal;

/// Digits of an old line.
pub const OLD_DIGITS: usize = 14;

/// A log line by value.
pub type Line = [u8; DIGITS];

/// A line of the earlier edition by value.
pub type OldLine = [u8; OLD_DIGITS];

/// The event and the notes of an old line, unless 23 refuses.
pub fn read_old(old: &[u8]) -> Result<(u8, [i16; 3]), Refusal> {
    let within = old.iter().take(OLD_DIGITS);
    let digits = within.take_while(|byte| byte.is_ascii_hexdigit()).count();
    if digits != OLD_DIGITS || old.len() != OLD_DIGITS {
        return Err(Refusal::at(23, digits));
    }
    // The whole line is one number of 7 bytes.
    let text = std::str::from_utf8(old).expect("digits are text");
    let number = u64::from_str_radix(text, 16).expect("14 digits fit in 64 bits");
    let [_, event, a, b, c, d, e, f] = number.to_be_bytes();
    let notes = [[a, b], [c, d], [e, f]].map(i16::from_be_bytes);
    Ok((event, notes))
}

/// Brings an old line up: the same event, the same three notes, and 0; or 23.
pub fn raise(old: &[u8]) -> Result<Line, Refusal> {
    let (event, notes) = read_old(old)?;
    let [a, b, c] = notes.map(i32::from);
    let line = format!("{event:02X}{a:08X}{b:08X}{c:08X}{:08X}", 0);
    Ok(line.into_bytes().try_into().expect("a line has 34 digits"))
}

/// Brings a line down where its fourth note is 0 and 16 bits hold the others; or 15, 24, 25, in this order.
pub fn lower(line: &[u8]) -> Result<OldLine, Refusal> {
    let (event, [first, second, third, fourth]) =
        read_line(line).map_err(|place| Refusal::at(15, place))?;
    if fourth != 0 {
        return Err(Refusal::of(24));
    }
    // The place is that of the note's first digit.
    let short = |note: i32, place| i16::try_from(note).map_err(|_| Refusal::at(25, place));
    let (a, b, c) = (short(first, 2)?, short(second, 10)?, short(third, 18)?);
    let old = format!("{event:02X}{a:04X}{b:04X}{c:04X}");
    Ok(old.into_bytes().try_into().expect("14 digits"))
}
