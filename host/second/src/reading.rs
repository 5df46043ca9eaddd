//! Reading a rule text: refusals 1 to 5, 18, 6 to 8, in order.

use super::frames::{rule, within_magnitude, Rule};
use super::grammar::misfit;
use super::names::{bad_name, sections};
use super::numbers::{bad_decimals, bad_number};
use super::postfix::postfix;
use super::text::tokens;
use super::Refusal;

/// Bytes of the lent frame buffer.
pub const BUFFER: usize = 512;
const LONGEST_TEXT: usize = 1_024;
const DEEPEST: usize = 16;
const MOST_FRAMES: usize = 64;

/// The frames of a rule text, 8 bytes each, or the refusal, for a frame buffer of some length.
pub fn read(text: &[u8], buffer_len: usize) -> Result<Vec<u8>, Refusal> {
    if buffer_len != BUFFER {
        return Err(Refusal::of(1));
    }
    if text.is_empty() || text.len() > LONGEST_TEXT {
        return Err(Refusal::of(2));
    }
    let tokens = tokens(text);
    if let Some(k) = misfit(&tokens) {
        let place = tokens.get(k).map_or(text.len(), |token| token.place);
        return Err(Refusal::at(3, place));
    }
    let parts = sections(&tokens);
    if let Some(place) = bad_name(&parts) {
        return Err(Refusal::at(4, place));
    }
    if let Some(place) = bad_number(parts.condition) {
        return Err(Refusal::at(5, place));
    }
    if let Some(place) = bad_decimals(&parts) {
        return Err(Refusal::at(18, place));
    }
    let read = postfix(&parts);
    if read.depth > DEEPEST || read.frames.len() > MOST_FRAMES {
        return Err(Refusal::of(6));
    }
    let rule: Rule = rule(&read.frames).expect("frames of a rule text are a rule");
    if rule.references.is_empty() {
        return Err(Refusal::of(7));
    }
    if !within_magnitude(&rule) {
        return Err(Refusal::of(8));
    }
    Ok(read.frames.concat())
}

/// Reads into a lent buffer: zero after the last frame, the answer is the number of frames. A refusal changes
/// nothing.
pub fn read_into(text: &[u8], buffer: &mut [u8]) -> Result<usize, Refusal> {
    let frames = read(text, buffer.len())?;
    buffer.fill(0);
    buffer[..frames.len()].copy_from_slice(&frames);
    Ok(frames.len() / 8)
}
