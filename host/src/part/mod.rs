//! The proved part, called through its C interface, behind safe functions.
//!
//! [`read`], [`State::open`], [`State::open_board`], [`State::feed`], [`State::pull`], [`view`], [`raise`], [`lower`] and
//! [`charge`] are the nine calls, one for one, on memory that the caller lends. [`Checker`] has a window of its own:
//!
//! ```
//! use dillplatter_host::part::{lower, raise, read_rule, view, Checker, Fed, Pulled, Tariff, BOARD, DESK};
//!
//! let frames = read_rule(b"events in out; notes t; t(out[i]) - t(in[i]) <= 25").unwrap();
//! let mut checker = Checker::open(&frames, 64).unwrap();
//! let mut report = [0; 166];
//! assert_eq!(checker.feed(b"000000000A000000000000000000000000"), Fed::Accepted);
//! assert_eq!(checker.feed(b"0100000028000000000000000000000000"), Fed::Accepted);
//! assert_eq!(checker.pull(&mut report), Pulled::False);
//! assert_eq!(report[..16], [0, 0, 0, 0, 0, 2, 0, 0, 0, 0, 40, 0, 0, 0, 0, 10]);
//! assert_eq!(view(&report).unwrap(), [0, 0, 0, 0, 0]);
//! assert_eq!(checker.state().totals.failed, 1);
//!
//! let tariff = Tariff {
//!     bands: 2,
//!     lasts: [10, 100, 0, 0],
//!     prices: [45, 30, 0, 0],
//!     beyond: 12,
//!     surcharge: 7,
//! };
//! assert_eq!(checker.charge(&tariff), Ok(48));
//!
//! let line = raise(b"01004bfff60000").unwrap();
//! assert_eq!(line, *b"010000004BFFFFFFF60000000000000000");
//! assert_eq!(checker.feed(&line), Fed::Accepted);
//! assert_eq!(lower(&line).unwrap(), *b"01004BFFF60000");
//!
//! let board = Checker::open_board(&frames, 32).unwrap();
//! assert_eq!((checker.state().profile, board.state().profile), (DESK, BOARD));
//! assert_eq!(Checker::open_board(&frames, 33).unwrap_err().number, 26);
//! ```

mod calls;

use calls::{told, Told};
use std::mem::offset_of;

/// Bytes of the buffer that a rule's frames are read into.
pub const FRAME_BUFFER: usize = 512;
/// Bytes of one frame.
pub const FRAME_BYTES: usize = 8;
/// The fewest bytes of a report buffer.
pub const REPORT_BYTES: usize = 166;
/// Bytes of a view.
pub const VIEW_BYTES: usize = 5;
/// Window words for each of W.
pub const WINDOW_WORDS: usize = 32;
/// Digits of a log line.
pub const LINE_DIGITS: usize = 34;
/// Digits of a log line of the earlier edition.
pub const OLD_LINE_DIGITS: usize = 14;
/// The most bands of a tariff.
pub const TARIFF_BANDS: usize = 4;
/// The profile of a desk: W up to 256 and up to 64 frames.
pub const DESK: u32 = 0;
/// The profile of the board inside the plotter: W up to 32 and up to 16 frames.
pub const BOARD: u32 = 1;

/// How many verdicts of each value were pulled.
#[repr(C)]
#[derive(Clone, Copy, Debug, Default, PartialEq, Eq)]
pub struct Totals {
    pub held: u32,
    pub failed: u32,
    pub unknown: u32,
}

/// What a checker carries from call to call, as the C interface lays it out. A caller may hand in any.
#[repr(C)]
#[derive(Clone, Copy, Debug, PartialEq, Eq)]
pub struct State {
    pub frames: [u8; FRAME_BUFFER],
    /// How many frames there are.
    pub len: u32,
    /// W.
    pub width: u32,
    /// [`DESK`] or [`BOARD`].
    pub profile: u32,
    /// Lines accepted of each event.
    pub counts: [u32; 8],
    /// p, the number of the next instance.
    pub next: u32,
    pub totals: Totals,
    /// The sum of the window's words, modulo 2^32.
    pub sum: u32,
}

const _: () = assert!(size_of::<Totals>() == 12 && size_of::<State>() == 576);
const _: () = assert!(offset_of!(State, width) == 516 && offset_of!(State, profile) == 520);
const _: () = assert!(offset_of!(State, counts) == 524 && offset_of!(State, next) == 556);
const _: () = assert!(offset_of!(State, totals) == 560 && offset_of!(State, sum) == 572);

/// A refusal: its number in the documents, and its place (0 if none is named).
#[derive(Clone, Copy, Debug, PartialEq, Eq)]
pub struct Refusal {
    pub number: u32,
    pub place: u32,
}

/// What feeding answers.
#[derive(Clone, Copy, Debug, PartialEq, Eq)]
pub enum Fed {
    Accepted,
    Ignored,
    /// 12, 13, 27, 15, 16 or 17.
    Refused(Refusal),
}

/// What pulling answers.
#[derive(Clone, Copy, Debug, PartialEq, Eq)]
pub enum Pulled {
    True,
    /// The report is filled.
    False,
    Unknown,
    Waiting,
    /// 12, 13, 27 or 14.
    Refused(Refusal),
}

/// What viewing gives back, as it comes.
#[derive(Clone, Copy, Debug, PartialEq, Eq)]
pub struct Viewed {
    /// The refusal's, else 0.
    pub number: u32,
    /// Where the view begins.
    pub begin: *const u8,
    /// Its length.
    pub len: usize,
}

/// What converting a line gives back, as it comes and as the C interface lays it out.
#[repr(C)]
#[derive(Clone, Copy, Debug, PartialEq, Eq)]
pub struct Converted<const DIGITS: usize> {
    /// The refusal's, else 0.
    pub number: u32,
    /// The refusal's, else 0.
    pub place: u32,
    /// The digits, or zero bytes where there is a refusal.
    pub line: [u8; DIGITS],
}

/// What raising gives back.
pub type Raised = Converted<LINE_DIGITS>;

/// What lowering gives back.
pub type Lowered = Converted<OLD_LINE_DIGITS>;

/// A rework tariff, as the C interface lays it out. Entries after the last band are not looked at.
#[repr(C)]
#[derive(Clone, Copy, Debug, PartialEq, Eq)]
pub struct Tariff {
    /// How many bands there are.
    pub bands: u32,
    /// The last number of each band.
    pub lasts: [u32; TARIFF_BANDS],
    /// The price of each band, in cents.
    pub prices: [u32; TARIFF_BANDS],
    /// The price of every violation after the last band, in cents.
    pub beyond: u32,
    /// In percent.
    pub surcharge: u32,
}

/// What charging gives back, as it comes and as the C interface lays it out.
#[repr(C)]
#[derive(Clone, Copy, Debug, PartialEq, Eq)]
pub struct Charged {
    /// The refusal's, else 0.
    pub number: u32,
    /// 0: no refusal names one.
    pub place: u32,
    /// 0 where there is a refusal.
    pub cents: u64,
}

/// Reads a rule's text into a buffer of 512 bytes: the number of frames, or a refusal (1 to 8), which leaves the
/// buffer as it was.
pub fn read(text: &[u8], frames: &mut [u8]) -> Result<u32, Refusal> {
    let (answer, count) = calls::read(text, frames);
    match answer {
        Told::Read => Ok(count),
        Told::Refused(refusal) if count == 0 => Err(refusal),
        other => panic!("reading answered {other:?} and {count} frames"),
    }
}

/// The frames of a rule's text, or a refusal (2 to 8).
pub fn read_rule(text: &[u8]) -> Result<Vec<u8>, Refusal> {
    let mut buffer = vec![0; FRAME_BUFFER];
    let count = read(text, &mut buffer)?;
    buffer.truncate(FRAME_BYTES * count as usize);
    Ok(buffer)
}

/// The view of a report buffer, that part of the buffer itself: its first 5 bytes, or a refusal (14).
pub fn view(report: &[u8]) -> Result<&[u8], Refusal> {
    Viewed::of(report).within(report)
}

impl Viewed {
    /// Views a report buffer.
    pub fn of(report: &[u8]) -> Viewed {
        calls::view(report)
    }

    /// The view as a part of its report, or the refusal. It panics where the answer is neither.
    pub fn within(self, report: &[u8]) -> Result<&[u8], Refusal> {
        assert!(
            self.begin == report.as_ptr() && self.len <= report.len(),
            "viewing answered {self:?}, which is no beginning of the report"
        );
        match (self.number, self.len) {
            (0, VIEW_BYTES) => Ok(&report[..VIEW_BYTES]),
            (number @ 1.., 0) => Err(Refusal { number, place: 0 }),
            _ => panic!("viewing answered {self:?}"),
        }
    }
}

/// The log line of a line of the earlier edition, its fourth note 0, in capitals; or a refusal (23).
pub fn raise(old: &[u8]) -> Result<[u8; LINE_DIGITS], Refusal> {
    Raised::of(old).answer()
}

/// The line of the earlier edition that a log line fits in, in capitals; or a refusal (15, 24, 25).
pub fn lower(line: &[u8]) -> Result<[u8; OLD_LINE_DIGITS], Refusal> {
    Lowered::of(line).answer()
}

impl Raised {
    /// Raises a line of the earlier edition.
    pub fn of(old: &[u8]) -> Raised {
        calls::raise(old)
    }
}

impl Lowered {
    /// Lowers a log line.
    pub fn of(line: &[u8]) -> Lowered {
        calls::lower(line)
    }
}

impl<const DIGITS: usize> Converted<DIGITS> {
    /// The line, or the refusal. It panics where the answer is neither.
    pub fn answer(self) -> Result<[u8; DIGITS], Refusal> {
        let Converted {
            number,
            place,
            line,
        } = self;
        match (number, place) {
            (0, 0) => Ok(line),
            (1.., _) if line == [0; DIGITS] => Err(Refusal { number, place }),
            _ => panic!("converting answered {self:?}"),
        }
    }
}

/// What the violations that a state has counted cost by a tariff, in cents; or a refusal (28, 29, 12).
pub fn charge(state: &State, tariff: &Tariff) -> Result<u64, Refusal> {
    Charged::of(state, tariff).answer()
}

impl Charged {
    /// Charges.
    pub fn of(state: &State, tariff: &Tariff) -> Charged {
        calls::charge(state, tariff)
    }

    /// The cents, or the refusal. It panics where the answer is neither.
    pub fn answer(self) -> Result<u64, Refusal> {
        let Charged {
            number,
            place,
            cents,
        } = self;
        match (number, place, cents) {
            (0, 0, cents) => Ok(cents),
            (1.., 0, 0) => Err(Refusal { number, place }),
            _ => panic!("charging answered {self:?}"),
        }
    }
}

impl State {
    /// Opens a checker for frames and W, with a window of 32 x W words that is set to 0. The state is zero throughout
    /// where there is a refusal (9, 10, 7, 8, 11), which leaves the window as it was.
    pub fn open(frames: &[u8], width: u32, window: &mut [i32]) -> (State, Result<(), Refusal>) {
        State::opened(calls::open(frames, width, window))
    }

    /// Opens one on a board: the same, with one refusal more (9, 10, 7, 8, 11, 26).
    pub fn open_board(
        frames: &[u8],
        width: u32,
        window: &mut [i32],
    ) -> (State, Result<(), Refusal>) {
        State::opened(calls::open_board(frames, width, window))
    }

    /// The state and the answer of an opening.
    fn opened(result: calls::Result) -> (State, Result<(), Refusal>) {
        match told(&result) {
            Told::Opened => (result.state, Ok(())),
            Told::Refused(refusal) => (result.state, Err(refusal)),
            other => panic!("opening answered {other:?}"),
        }
    }

    /// Feeds a log line. Only an accepted line changes the state, and at most four words of the window.
    pub fn feed(&mut self, window: &mut [i32], line: &[u8]) -> Fed {
        let result = calls::feed(self, window, line);
        *self = result.state;
        match told(&result) {
            Told::Accepted => Fed::Accepted,
            Told::Ignored => Fed::Ignored,
            Told::Refused(refusal) => Fed::Refused(refusal),
            other => panic!("feeding answered {other:?}"),
        }
    }

    /// Pulls the next verdict. Only a verdict changes the state, and only a false one writes to the report.
    pub fn pull(&mut self, window: &[i32], report: &mut [u8]) -> Pulled {
        let result = calls::pull(self, window, report);
        *self = result.state;
        match told(&result) {
            Told::True => Pulled::True,
            Told::False => Pulled::False,
            Told::Unknown => Pulled::Unknown,
            Told::Waiting => Pulled::Waiting,
            Told::Refused(refusal) => Pulled::Refused(refusal),
            other => panic!("pulling answered {other:?}"),
        }
    }
}

/// [`State::open`] or [`State::open_board`].
type Opening = fn(&[u8], u32, &mut [i32]) -> (State, Result<(), Refusal>);

/// A state with its window.
#[derive(Clone, Debug)]
pub struct Checker {
    state: State,
    window: Vec<i32>,
}

impl Checker {
    /// A fresh checker for frames and W.
    pub fn open(frames: &[u8], width: u32) -> Result<Checker, Refusal> {
        Checker::opened_by(State::open, frames, width)
    }

    /// A fresh checker on a board.
    pub fn open_board(frames: &[u8], width: u32) -> Result<Checker, Refusal> {
        Checker::opened_by(State::open_board, frames, width)
    }

    fn opened_by(opening: Opening, frames: &[u8], width: u32) -> Result<Checker, Refusal> {
        // Opening takes W up to 256, so a window for a larger one is not made.
        let mut window = vec![0; WINDOW_WORDS * width.min(257) as usize];
        let (state, opened) = opening(frames, width, &mut window);
        opened.map(|()| Checker { state, window })
    }

    /// Feeds a log line: accepted, ignored, or refused (15, 16, 17).
    pub fn feed(&mut self, line: &[u8]) -> Fed {
        self.state.feed(&mut self.window, line)
    }

    /// Pulls the next verdict: one, waiting, or refused (14). A false one fills the report.
    pub fn pull(&mut self, report: &mut [u8]) -> Pulled {
        self.state.pull(&self.window, report)
    }

    /// What the violations so far cost by a tariff, in cents; or a refusal (28, 29).
    pub fn charge(&self, tariff: &Tariff) -> Result<u64, Refusal> {
        charge(&self.state, tariff)
    }

    /// The state as it is.
    pub fn state(&self) -> &State {
        &self.state
    }
}
