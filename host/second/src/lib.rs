//! The second checker: document 01, with the points of document 02 done so far, in plain Rust, with whole lists in
//! place of a window.
//!
//! A rule flows `text` -> `grammar` -> `names`, `numbers` -> `postfix` -> `frames`; a log flows `line` ->
//! `machine`, which asks `verdict`. What terms stand for is in `rational`, over whole numbers of any size, `integer`;
//! magnitudes, in `frames`, are whole numbers with a count of decimals. `state` answers calls on a state and a window
//! that a caller hands in, forged ones too, and adds up the window's words anew at each call; `profile` has the limits
//! of a desk and of a board, for opening and for 12; `view` has what machine hands see of a report; `earlier` reads log
//! lines of the earlier edition, which `machine` takes too, and converts them to log lines and back; `tariff` has what
//! violations cost; `bench` has the output of the bench program.
//!
//! It is written from the documents alone, and shares no code or table with the proved part. A test drives it call by
//! call:
//!
//! ```
//! use dillplatter_second::{open, read, Fed, Pulled, Truth};
//!
//! let frames = read(b"events in out; notes t; t(out[i]) - t(in[i]) <= 25", 512).unwrap();
//! let mut machine = open(&frames, 64, 32 * 64).unwrap();
//! let mut report = [0; 166];
//! assert_eq!(machine.pull(&mut report), Pulled::Waiting);
//! assert_eq!(machine.feed(b"000000000A000000000000000000000000"), Fed::Accepted);
//! assert_eq!(machine.feed(b"0100000028000000000000000000000000"), Fed::Accepted);
//! assert_eq!(machine.pull(&mut report), Pulled::Verdict(Truth::False));
//! assert_eq!((machine.p(), machine.totals().failed), (1, 1));
//! ```

#![forbid(unsafe_code)]

pub mod bench;
pub mod earlier;
pub mod frames;
pub mod grammar;
pub mod integer;
pub mod line;
pub mod machine;
pub mod names;
pub mod numbers;
pub mod postfix;
pub mod profile;
pub mod rational;
pub mod reading;
pub mod state;
pub mod tariff;
pub mod text;
pub mod verdict;
pub mod view;

pub use bench::{bench, bench_old, bench_with};
pub use earlier::{lower, raise, read_old, Line, OldLine};
pub use machine::{open, open_as, Fed, Machine, Pulled, Totals};
pub use profile::Profile;
pub use reading::{read, read_into};
pub use state::{sum_of, State};
pub use tariff::{Band, Tariff};
pub use verdict::Truth;
pub use view::{view, Reported, View};

/// A refusal: its number in the documents, and its place (0 if none is named).
#[derive(Clone, Copy, Debug, PartialEq, Eq)]
pub struct Refusal {
    pub number: u8,
    pub place: usize,
}

impl Refusal {
    /// A refusal that has a place.
    pub fn at(number: u8, place: usize) -> Refusal {
        Refusal { number, place }
    }

    /// A refusal that has none.
    pub fn of(number: u8) -> Refusal {
        Refusal::at(number, 0)
    }
}
