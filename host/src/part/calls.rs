//! The C interface: its structs, its functions, and the numbers of its answers. All that is unsafe stands here.

use super::{Charged, Lowered, Raised, Refusal, State, Tariff, Viewed};
use std::mem::offset_of;

/// What reading gives back.
#[repr(C)]
struct Reading {
    answer: u32,
    number: u32,
    place: u32,
    frames: u32,
}

/// What opening, feeding and pulling give back.
#[repr(C)]
pub struct Result {
    pub state: State,
    answer: u32,
    number: u32,
    place: u32,
}

/// A report buffer before the call of the view, its view after it.
#[repr(C)]
struct Part {
    bytes: *const u8,
    len: usize,
}

const _: () = assert!(size_of::<Reading>() == 16 && size_of::<Result>() == 588);
const _: () = assert!(offset_of!(Result, answer) == 576 && offset_of!(Result, place) == 584);
const _: () = assert!(size_of::<Part>() == 16);
const _: () = assert!(size_of::<Raised>() == 44 && size_of::<Lowered>() == 24);
const _: () = assert!(size_of::<Tariff>() == 44 && size_of::<Charged>() == 16);

unsafe extern "C" {
    fn dillplatter_read(
        text: *const u8,
        text_len: usize,
        frames: *mut u8,
        frames_len: usize,
    ) -> Reading;
    fn dillplatter_open(
        frames: *const u8,
        frames_len: usize,
        width: u32,
        window: *mut i32,
        window_len: usize,
    ) -> Result;
    fn dillplatter_open_board(
        frames: *const u8,
        frames_len: usize,
        width: u32,
        window: *mut i32,
        window_len: usize,
    ) -> Result;
    fn dillplatter_feed(
        state: State,
        window: *mut i32,
        window_len: usize,
        line: *const u8,
        line_len: usize,
    ) -> Result;
    fn dillplatter_pull(
        state: State,
        window: *const i32,
        window_len: usize,
        report: *mut u8,
        report_len: usize,
    ) -> Result;
    fn dillplatter_view(part: *mut Part) -> u32;
    fn dillplatter_raise(old_line: *const u8, old_len: usize) -> Raised;
    fn dillplatter_lower(line: *const u8, line_len: usize) -> Lowered;
    fn dillplatter_charge(state: State, tariff: Tariff) -> Charged;
}

/// The answers, one enumeration for all calls.
#[derive(Debug)]
pub enum Told {
    Refused(Refusal),
    Read,
    Opened,
    Accepted,
    Ignored,
    Waiting,
    True,
    False,
    Unknown,
}

/// The answer of a result.
pub fn told(result: &Result) -> Told {
    answer_of(result.answer, result.number, result.place)
}

/// The answer by its number; an answer that is no refusal has number and place 0.
fn answer_of(answer: u32, number: u32, place: u32) -> Told {
    if answer == 0 {
        return Told::Refused(Refusal { number, place });
    }
    assert!(
        (number, place) == (0, 0),
        "answer {answer} has number {number} and place {place}"
    );
    match answer {
        1 => Told::Read,
        2 => Told::Opened,
        3 => Told::Accepted,
        4 => Told::Ignored,
        5 => Told::Waiting,
        6 => Told::True,
        7 => Told::False,
        8 => Told::Unknown,
        other => panic!("the interface has no answer {other}"),
    }
}

/// Reads a text: the answer and the number of frames.
pub fn read(text: &[u8], frames: &mut [u8]) -> (Told, u32) {
    // SAFETY: each pointer comes with its slice's length, and the slices do not overlap.
    let reading =
        unsafe { dillplatter_read(text.as_ptr(), text.len(), frames.as_mut_ptr(), frames.len()) };
    let answer = answer_of(reading.answer, reading.number, reading.place);
    (answer, reading.frames)
}

/// Opens at a desk.
pub fn open(frames: &[u8], width: u32, window: &mut [i32]) -> Result {
    opened_by(dillplatter_open, frames, width, window)
}

/// Opens on a board.
pub fn open_board(frames: &[u8], width: u32, window: &mut [i32]) -> Result {
    opened_by(dillplatter_open_board, frames, width, window)
}

/// One of the two openings.
type Opening = unsafe extern "C" fn(*const u8, usize, u32, *mut i32, usize) -> Result;

fn opened_by(opening: Opening, frames: &[u8], width: u32, window: &mut [i32]) -> Result {
    // SAFETY: as in `read`.
    unsafe {
        opening(
            frames.as_ptr(),
            frames.len(),
            width,
            window.as_mut_ptr(),
            window.len(),
        )
    }
}

/// Feeds.
pub fn feed(state: &State, window: &mut [i32], line: &[u8]) -> Result {
    // SAFETY: as in `read`; the state goes by value, and each of its values is taken.
    unsafe {
        dillplatter_feed(
            *state,
            window.as_mut_ptr(),
            window.len(),
            line.as_ptr(),
            line.len(),
        )
    }
}

/// Pulls.
pub fn pull(state: &State, window: &[i32], report: &mut [u8]) -> Result {
    // SAFETY: as in `feed`.
    unsafe {
        dillplatter_pull(
            *state,
            window.as_ptr(),
            window.len(),
            report.as_mut_ptr(),
            report.len(),
        )
    }
}

/// Views: the part that comes back is not looked at here.
pub fn view(report: &[u8]) -> Viewed {
    let mut part = Part {
        bytes: report.as_ptr(),
        len: report.len(),
    };
    // SAFETY: the pointer comes with its slice's length, and the call writes only to `part`.
    let number = unsafe { dillplatter_view(&mut part) };
    Viewed {
        number,
        begin: part.bytes,
        len: part.len,
    }
}

/// Raises: the line that comes back is not looked at here.
pub fn raise(old: &[u8]) -> Raised {
    // SAFETY: the pointer comes with its slice's length, and the call only reads there.
    unsafe { dillplatter_raise(old.as_ptr(), old.len()) }
}

/// Lowers: the line that comes back is not looked at here.
pub fn lower(line: &[u8]) -> Lowered {
    // SAFETY: as in `raise`.
    unsafe { dillplatter_lower(line.as_ptr(), line.len()) }
}

/// Charges: what comes back is not looked at here.
pub fn charge(state: &State, tariff: &Tariff) -> Charged {
    // SAFETY: both go by value, and each of their values is taken.
    unsafe { dillplatter_charge(*state, *tariff) }
}
