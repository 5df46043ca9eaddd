//! One call of the part and the same call of the second checker: answers, whole states and all lent memory agree.
//!
//! What is lent lies between edges, which no call may touch.

use crate::quota::count;
use crate::shared::driven::{Driven, Twin};
use dillplatter_host::part::{self, Charged, Converted, Lowered, Raised, Viewed};
use dillplatter_second::{Fed, Line, Machine, OldLine, Pulled, Refusal, State, Totals};
use dillplatter_second::{Profile, Tariff, Truth, View};
use std::fmt::Debug;
use std::ops::Range;

/// Elements on either side of what is lent.
const EDGE: usize = 16;

/// A copy of a slice between edges.
fn edged<T: Copy>(inside: &[T], edge: T) -> Vec<T> {
    let side = [edge; EDGE];
    [&side, inside, &side].concat()
}

/// Where the slice lies in such a copy.
fn inside<T>(edged: &[T]) -> Range<usize> {
    EDGE..edged.len() - EDGE
}

/// A report buffer between edges.
pub struct Lent(Vec<u8>);

impl Lent {
    /// One that begins as a copy of a buffer.
    pub fn of(report: &[u8]) -> Lent {
        Lent(edged(report, 0xE7))
    }

    /// The report buffer itself.
    pub fn report(&self) -> &[u8] {
        &self.0[inside(&self.0)]
    }
}

/// Both buffers agree; a message says where they do not.
#[track_caller]
fn same<T: PartialEq + Debug>(what: &str, part: &[T], expected: &[T]) {
    if part != expected {
        let at = part.iter().zip(expected).position(|(a, b)| a != b);
        panic!("{what}: other from element {at:?} on");
    }
}

/// A refusal of the part as the second checker writes it.
pub fn refusal(refusal: part::Refusal) -> Refusal {
    let number = refusal.number.try_into().expect("a number is small");
    Refusal::at(number, refusal.place as usize)
}

fn fed(answer: part::Fed) -> Fed {
    match answer {
        part::Fed::Accepted => Fed::Accepted,
        part::Fed::Ignored => Fed::Ignored,
        part::Fed::Refused(told) => Fed::Refused(refusal(told)),
    }
}

fn pulled(answer: part::Pulled) -> Pulled {
    match answer {
        part::Pulled::True => Pulled::Verdict(Truth::True),
        part::Pulled::False => Pulled::Verdict(Truth::False),
        part::Pulled::Unknown => Pulled::Verdict(Truth::Unknown),
        part::Pulled::Waiting => Pulled::Waiting,
        part::Pulled::Refused(told) => Pulled::Refused(refusal(told)),
    }
}

/// A conversion of the part: number, place and line are as expected, zero bytes where it is refused, and no byte of
/// the given line changes. The edges are digits.
#[track_caller]
fn converted<const DIGITS: usize>(
    given: &[u8],
    call: fn(&[u8]) -> Converted<DIGITS>,
    expected: Result<[u8; DIGITS], Refusal>,
) -> Result<[u8; DIGITS], Refusal> {
    count();
    let lent = edged(given, b'7');
    let part = call(&lent[inside(&lent)]);
    same("given line", &lent, &edged(given, b'7'));
    let (number, place, line) = match expected {
        Ok(line) => (0, 0, line),
        Err(refusal) => (refusal.number.into(), refusal.place as u32, [0; DIGITS]),
    };
    let words = Converted {
        number,
        place,
        line,
    };
    assert_eq!(part, words, "{}", given.escape_ascii());
    let answer = part.answer().map_err(refusal);
    assert_eq!(answer, expected);
    answer
}

/// A state of the part as the second checker writes it.
fn model_of(state: &part::State) -> State {
    State {
        frames: state.frames,
        len: state.len,
        w: state.width,
        profile: state.profile,
        counts: state.counts,
        p: state.next,
        totals: Totals {
            held: state.totals.held,
            failed: state.totals.failed,
            unknown: state.totals.unknown,
        },
        sum: state.sum,
    }
}

/// A state of the second checker as the part takes it.
pub fn state_of(model: &State) -> part::State {
    part::State {
        frames: model.frames,
        len: model.len,
        width: model.w,
        profile: model.profile,
        counts: model.counts,
        next: model.p,
        totals: part::Totals {
            held: model.totals.held,
            failed: model.totals.failed,
            unknown: model.totals.unknown,
        },
        sum: model.sum,
    }
}

/// A tariff of the second checker as the part takes it.
pub fn tariff_of(model: &Tariff) -> part::Tariff {
    part::Tariff {
        bands: model.len,
        lasts: model.bands.map(|band| band.last),
        prices: model.bands.map(|band| band.price),
        beyond: model.beyond,
        surcharge: model.surcharge,
    }
}

/// A checker of the part and the second checker's, driven by the same calls.
pub struct Pair {
    state: part::State,
    /// The part's window between edges.
    window: Vec<i32>,
    twin: Twin,
}

impl Driven for Pair {
    #[track_caller]
    fn read(text: &[u8], buffer: &mut [u8]) -> Result<usize, Refusal> {
        count();
        let mut expected_buffer = buffer.to_vec();
        let expected = Twin::read(text, &mut expected_buffer);
        let mut lent = edged(buffer, 0xE7);
        let room = inside(&lent);
        let answer = part::read(text, &mut lent[room.clone()])
            .map(|frames| frames as usize)
            .map_err(refusal);
        assert_eq!(answer, expected, "{}", text.escape_ascii());
        same("frame buffer", &lent, &edged(&expected_buffer, 0xE7));
        buffer.copy_from_slice(&lent[room]);
        answer
    }

    #[track_caller]
    fn open_as(profile: Profile, frames: &[u8], w: u32, window: &[i32]) -> Result<Pair, Refusal> {
        count();
        let mut lent = edged(window, 77);
        let room = inside(&lent);
        let opening = match profile {
            Profile::Desk => part::State::open,
            Profile::Board => part::State::open_board,
        };
        let (state, answer) = opening(frames, w, &mut lent[room]);
        match Twin::open_as(profile, frames, w, window) {
            Ok(twin) => {
                assert_eq!(answer, Ok(()));
                let pair = Pair {
                    state,
                    window: lent,
                    twin,
                };
                pair.agree();
                Ok(pair)
            }
            Err(expected) => {
                assert_eq!(answer.map_err(refusal), Err(expected));
                assert_eq!(model_of(&state), State::zero());
                same("window", &lent, &edged(window, 77));
                Err(expected)
            }
        }
    }

    fn forged(state: State, window: Vec<i32>) -> Pair {
        Pair {
            state: state_of(&state),
            window: edged(&window, 77),
            twin: Twin::forged(state, window),
        }
    }

    fn write(&mut self, word: usize, value: i32) {
        let room = inside(&self.window);
        self.window[room][word] = value;
        self.twin.write(word, value);
    }

    #[track_caller]
    fn feed(&mut self, line: &[u8]) -> Fed {
        count();
        let room = inside(&self.window);
        let answer = fed(self.state.feed(&mut self.window[room], line));
        let expected = self.twin.feed(line);
        assert_eq!(answer, expected, "{}", line.escape_ascii());
        self.agree();
        answer
    }

    #[track_caller]
    fn pull(&mut self, report: &mut [u8]) -> Pulled {
        let mut lent = Lent::of(report);
        let answer = self.pull_lent(&mut lent);
        report.copy_from_slice(lent.report());
        answer
    }

    #[track_caller]
    fn view(report: &[u8]) -> Result<View, Refusal> {
        Pair::view_lent(&Lent::of(report))
    }

    #[track_caller]
    fn raise(old: &[u8]) -> Result<Line, Refusal> {
        converted(old, Raised::of, Twin::raise(old))
    }

    #[track_caller]
    fn lower(line: &[u8]) -> Result<OldLine, Refusal> {
        converted(line, Lowered::of, Twin::lower(line))
    }

    #[track_caller]
    fn charge(&self, tariff: &Tariff) -> Result<u64, Refusal> {
        count();
        let expected = self.twin.charge(tariff);
        let (number, cents) = match expected {
            Ok(cents) => (0, cents),
            Err(refusal) => (refusal.number.into(), 0),
        };
        let words = Charged {
            number,
            place: 0,
            cents,
        };
        let charged = Charged::of(&self.state, &tariff_of(tariff));
        assert_eq!(charged, words, "{tariff:?}");
        self.agree();
        let answer = charged.answer().map_err(refusal);
        assert_eq!(answer, expected);
        answer
    }

    fn state(&self) -> &State {
        self.twin.state()
    }

    fn window(&self) -> &[i32] {
        &self.window[inside(&self.window)]
    }

    fn machine(&self) -> &Machine {
        self.twin.machine()
    }
}

impl Pair {
    /// Whole states and windows are the same.
    #[track_caller]
    fn agree(&self) {
        assert_eq!(model_of(&self.state), *self.twin.state());
        same("window", &self.window, &edged(self.twin.window(), 77));
    }

    /// Pulls into a report buffer that the part itself fills.
    #[track_caller]
    pub fn pull_lent(&mut self, lent: &mut Lent) -> Pulled {
        count();
        let mut report = lent.report().to_vec();
        let room = inside(&lent.0);
        let words = &self.window[inside(&self.window)];
        let answer = pulled(self.state.pull(words, &mut lent.0[room]));
        let expected = self.twin.pull(&mut report);
        assert_eq!(answer, expected);
        same("report", &lent.0, &Lent::of(&report).0);
        self.agree();
        answer
    }

    /// Views a report buffer: the view is the beginning of that buffer itself, and no byte changes.
    #[track_caller]
    pub fn view_lent(lent: &Lent) -> Result<View, Refusal> {
        count();
        let before = lent.0.clone();
        let report = lent.report();
        let viewed = Viewed::of(report);
        same("viewed report", &lent.0, &before);
        let expected = Twin::view(report);
        let (number, len) = match expected {
            Ok(view) => (0, view.len()),
            Err(refusal) => (refusal.number.into(), 0),
        };
        let begin = report.as_ptr();
        assert_eq!(viewed, Viewed { number, begin, len });
        let answer = viewed.within(report).map_err(refusal);
        if let Ok(view) = answer {
            assert_eq!(view.as_ptr(), begin);
        }
        let answer = answer.map(|view| view.try_into().expect("a view has 5 bytes"));
        assert_eq!(answer, expected);
        answer
    }

    /// A copy that has another window, as a caller may hand it in.
    pub fn with_window(&self, window: Vec<i32>) -> Pair {
        Pair::forged(self.state().clone(), window)
    }
}
