//! Log lines.

/// Digits of a line.
pub const DIGITS: usize = 34;

/// An accepted line's notes, or any line's as read.
pub type Notes = [i32; 4];

/// The event and the notes of a line, or the place of refusal 15.
pub fn read_line(line: &[u8]) -> Result<(usize, Notes), usize> {
    let end = line.len().min(DIGITS);
    let first_bad = line.iter().position(|byte| digit(*byte).is_none());
    match first_bad {
        Some(place) => return Err(place.min(end)),
        None if line.len() != DIGITS => return Err(end),
        None => {}
    }
    let number = |digits: &[u8]| {
        digits
            .iter()
            .filter_map(|byte| digit(*byte))
            .fold(0, |value, digit| value << 4 | digit)
    };
    // The same bits, as a signed word.
    let note = |n: usize| number(&line[2 + 8 * n..10 + 8 * n]) as i32;
    Ok((
        number(&line[..2]) as usize,
        [note(0), note(1), note(2), note(3)],
    ))
}

/// The value of a digit: 0-9, A-F or a-f.
fn digit(byte: u8) -> Option<u32> {
    char::from(byte).to_digit(16)
}

/// The lines of a log: LF ends one, and the last may lack it.
pub fn lines(log: &[u8]) -> impl Iterator<Item = &[u8]> {
    log.split_inclusive(|byte| *byte == b'\n')
        .map(|line| line.strip_suffix(b"\n").unwrap_or(line))
}
