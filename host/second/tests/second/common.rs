//! Reading, and short calls of the plain machine.

use crate::shared::log::line;
use dillplatter_second::{open, read, Fed, Machine, Pulled};

/// Reading with a buffer of the right length: the frames, or number and place.
pub fn reads(text: &str) -> Result<Vec<u8>, (u8, usize)> {
    read(text.as_bytes(), 512).map_err(|refusal| (refusal.number, refusal.place))
}

/// The refusal of a text, as number and place.
pub fn refused(text: &str) -> (u8, usize) {
    reads(text).expect_err("the text is refused")
}

/// A fresh machine for a text.
pub fn machine(text: &str, w: u32) -> Machine {
    open(&reads(text).expect("the text is read"), w, 32 * w as usize).expect("the frames open")
}

/// Feeds a line whose first note is given and whose others are 0.
pub fn feed(machine: &mut Machine, event: u8, note: i32) -> Fed {
    machine.feed(&line(event, [note, 0, 0, 0]))
}

/// Feeds lines of one event, all of which must be accepted.
pub fn feed_all(machine: &mut Machine, event: u8, notes: &[i32]) {
    for note in notes {
        assert_eq!(feed(machine, event, *note), Fed::Accepted);
    }
}

/// Pulls with a buffer of the least length.
pub fn pull(machine: &mut Machine) -> Pulled {
    machine.pull(&mut [0; 166])
}
