//! A checker as tests drive it, and the second checker in this form.

use dillplatter_second::{self as second, Fed, Machine, Pulled, Refusal, State, Truth, View};
use dillplatter_second::{sum_of, Line, OldLine, Profile, Tariff};
use std::collections::BTreeMap;

pub const TRUE: Pulled = Pulled::Verdict(Truth::True);
pub const FALSE: Pulled = Pulled::Verdict(Truth::False);
pub const UNKNOWN: Pulled = Pulled::Verdict(Truth::Unknown);
/// What feeding answers where the window is full.
pub const FULL: Fed = Fed::Refused(Refusal {
    number: 17,
    place: 0,
});
/// What feeding and pulling are refused with where the sum differs.
pub const STRAY: Refusal = Refusal {
    number: 27,
    place: 0,
};

/// A checker, with calls on memory as it is.
pub trait Driven: Sized {
    /// Reads a text into a buffer: the number of frames.
    fn read(text: &[u8], buffer: &mut [u8]) -> Result<usize, Refusal>;

    /// Opens with a profile and a window.
    fn open_as(profile: Profile, frames: &[u8], w: u32, window: &[i32]) -> Result<Self, Refusal>;

    /// A state and a window that a caller hands in.
    fn forged(state: State, window: Vec<i32>) -> Self;

    /// Somebody writes a word into the window.
    fn write(&mut self, word: usize, value: i32);

    /// Feeds a line.
    fn feed(&mut self, line: &[u8]) -> Fed;

    /// Pulls into a report buffer.
    fn pull(&mut self, report: &mut [u8]) -> Pulled;

    /// Views a report buffer.
    fn view(report: &[u8]) -> Result<View, Refusal>;

    /// Raises a line of the earlier edition.
    fn raise(old: &[u8]) -> Result<Line, Refusal>;

    /// Lowers a line to the earlier edition.
    fn lower(line: &[u8]) -> Result<OldLine, Refusal>;

    /// Charges for the false verdicts so far.
    fn charge(&self, tariff: &Tariff) -> Result<u64, Refusal>;

    /// The state.
    fn state(&self) -> &State;

    /// The window.
    fn window(&self) -> &[i32];

    /// The plain machine after the same calls, unless the state was handed in.
    fn machine(&self) -> &Machine;

    /// The same as `forged`, where the state has the window's sum.
    fn summed(state: State, window: Vec<i32>) -> Self {
        let sum = sum_of(&window);
        Self::forged(State { sum, ..state }, window)
    }

    /// Opens at a desk with a window.
    #[track_caller]
    fn open(frames: &[u8], w: u32, window: &[i32]) -> Result<Self, Refusal> {
        Self::open_as(Profile::Desk, frames, w, window)
    }

    /// The frames of a text, with a buffer that was not empty, or the refusal, which leaves the buffer as it was.
    #[track_caller]
    fn frames_of(text: &[u8]) -> Result<Vec<u8>, Refusal> {
        let mut buffer = [0xA5; 512];
        let answer = Self::read(text, &mut buffer);
        let after = 8 * answer.unwrap_or_default();
        let rest = if answer.is_ok() { 0 } else { 0xA5 };
        assert!(buffer[after..].iter().all(|byte| *byte == rest));
        answer.map(|_| buffer[..after].to_vec())
    }

    /// Opens for frames that open with a profile and W.
    #[track_caller]
    fn of_frames(profile: Profile, frames: &[u8], w: u32) -> Self {
        let window = vec![-1; 32 * w as usize];
        Self::open_as(profile, frames, w, &window).expect("the frames open")
    }

    /// Opens at a desk for a text with W.
    #[track_caller]
    fn of_text(text: &str, w: u32) -> Self {
        let frames = Self::frames_of(text.as_bytes()).expect("the text is read");
        Self::of_frames(Profile::Desk, &frames, w)
    }
}

/// The second checker twice, driven by the same calls: a state with its window, and the plain machine.
pub struct Twin {
    state: State,
    window: Vec<i32>,
    /// The words that somebody wrote since the last unrefused call, with what that call left there.
    written: BTreeMap<usize, i32>,
    /// Nothing if the state was handed in, or if a call went on with strange words.
    machine: Option<Machine>,
}

impl Twin {
    /// How many words are not what the last unrefused call left.
    fn strange(&self) -> usize {
        let strange = |(word, left): &(&usize, &i32)| self.window[**word] != **left;
        self.written.iter().filter(strange).count()
    }

    /// After an answer, with so many strange words before it: with one it is refused with 27. With several a call may go on, and
    /// then the machine is left behind.
    #[track_caller]
    fn after(&mut self, refusal: Option<Refusal>, strange: usize) {
        if self.machine.is_some() {
            assert!(strange != 1 || refusal == Some(STRAY), "{refusal:?}");
        }
        if refusal.is_none() {
            self.written.clear();
            if strange > 0 {
                self.machine = None;
            }
        }
    }
}

impl Driven for Twin {
    #[track_caller]
    fn read(text: &[u8], buffer: &mut [u8]) -> Result<usize, Refusal> {
        let frames = second::read(text, buffer.len());
        let answer = second::read_into(text, buffer);
        let filled = 8 * answer.unwrap_or_default();
        assert_eq!(answer.map(|_| buffer[..filled].to_vec()), frames);
        answer
    }

    #[track_caller]
    fn open_as(profile: Profile, frames: &[u8], w: u32, window: &[i32]) -> Result<Twin, Refusal> {
        let mut lent = window.to_vec();
        let opened = State::open_as(profile, frames, w, &mut lent);
        let machine = second::open_as(profile, frames, w, window.len());
        assert_eq!(
            machine.as_ref().map(|machine| machine.state(&lent)),
            opened.as_ref().cloned()
        );
        if opened.is_ok() {
            assert!(lent.iter().all(|word| *word == 0));
        } else {
            assert!(lent == window, "a refused opening changed the window");
        }
        opened.map(|state| Twin {
            state,
            window: lent,
            written: BTreeMap::new(),
            machine: machine.ok(),
        })
    }

    fn forged(state: State, window: Vec<i32>) -> Twin {
        Twin {
            state,
            window,
            written: BTreeMap::new(),
            machine: None,
        }
    }

    fn write(&mut self, word: usize, value: i32) {
        self.written.entry(word).or_insert(self.window[word]);
        self.window[word] = value;
    }

    #[track_caller]
    fn feed(&mut self, line: &[u8]) -> Fed {
        let strange = self.strange();
        let answer = self.state.feed(&mut self.window, line);
        let refusal = match answer {
            Fed::Refused(refusal) => Some(refusal),
            _ => None,
        };
        self.after(refusal, strange);
        if let (Some(machine), 0) = (&mut self.machine, strange) {
            assert_eq!(machine.feed(line), answer, "{}", line.escape_ascii());
            assert_eq!(machine.state(&self.window), self.state);
        }
        answer
    }

    #[track_caller]
    fn pull(&mut self, report: &mut [u8]) -> Pulled {
        let mut other_report = report.to_vec();
        let strange = self.strange();
        let answer = self.state.pull(&self.window, report);
        let refusal = match answer {
            Pulled::Refused(refusal) => Some(refusal),
            _ => None,
        };
        self.after(refusal, strange);
        if let (Some(machine), 0) = (&mut self.machine, strange) {
            assert_eq!(machine.pull(&mut other_report), answer);
            assert!(other_report == report, "the machine's report is another");
            assert_eq!(machine.state(&self.window), self.state);
        }
        answer
    }

    fn view(report: &[u8]) -> Result<View, Refusal> {
        second::view(report)
    }

    fn raise(old: &[u8]) -> Result<Line, Refusal> {
        second::raise(old)
    }

    fn lower(line: &[u8]) -> Result<OldLine, Refusal> {
        second::lower(line)
    }

    #[track_caller]
    fn charge(&self, tariff: &Tariff) -> Result<u64, Refusal> {
        let answer = self.state.charge(tariff);
        if let Some(machine) = &self.machine {
            assert_eq!(machine.charge(tariff), answer, "{tariff:?}");
        }
        answer
    }

    fn state(&self) -> &State {
        &self.state
    }

    fn window(&self) -> &[i32] {
        &self.window
    }

    fn machine(&self) -> &Machine {
        self.machine.as_ref().expect("the state was not handed in")
    }
}
