//! The plain machine: opening, feeding and pulling with whole lists.

use super::earlier::read_old;
use super::frames::{check, Reference, Rule};
use super::line::{read_line, Notes};
use super::profile::Profile;
use super::state::{sum_of, State};
use super::tariff::Tariff;
use super::verdict::{verdict, Status, Truth};
use super::view::Reported;
use super::Refusal;

/// Events that a rule can have.
pub const EVENTS: usize = 8;
/// The most lines of one event.
pub const MOST_LINES: usize = 1_000_000;
/// The least length of a report buffer.
pub const REPORT: usize = 166;
/// Window words for each of W.
pub const WORDS: usize = 32;

/// What feeding answers.
#[derive(Clone, Copy, Debug, PartialEq, Eq)]
pub enum Fed {
    Accepted,
    Ignored,
    Refused(Refusal),
}

/// What pulling answers.
#[derive(Clone, Copy, Debug, PartialEq, Eq)]
pub enum Pulled {
    Verdict(Truth),
    Waiting,
    Refused(Refusal),
}

/// How many verdicts of each value were pulled.
#[derive(Clone, Copy, Debug, Default, PartialEq, Eq)]
pub struct Totals {
    pub held: u32,
    pub failed: u32,
    pub unknown: u32,
}

impl Totals {
    /// Counts one verdict.
    pub fn count(&mut self, verdict: Truth) {
        match verdict {
            Truth::True => self.held += 1,
            Truth::False => self.failed += 1,
            Truth::Unknown => self.unknown += 1,
        }
    }
}

/// The plain machine of document 01. Its p begins at the rule's start.
#[derive(Clone, Debug)]
pub struct Machine {
    frames: Vec<u8>,
    rule: Rule,
    w: u32,
    /// For the state that it hands out; no call looks at it.
    profile: Profile,
    lists: [Vec<Notes>; EVENTS],
    p: u32,
    totals: Totals,
    reported: Vec<Reported>,
}

/// A fresh machine at a desk, unless 9, 10, 7, 8 or 11 refuses, in this order.
pub fn open(frames: &[u8], w: u32, window_len: usize) -> Result<Machine, Refusal> {
    open_as(Profile::Desk, frames, w, window_len)
}

/// The same with a profile; after 11 comes 26.
pub fn open_as(
    profile: Profile,
    frames: &[u8],
    w: u32,
    window_len: usize,
) -> Result<Machine, Refusal> {
    let rule = check(frames)?;
    if !width_fits(w) || !window_fits(w, window_len) {
        return Err(Refusal::of(11));
    }
    if !profile.takes(w, frames.len() / 8) {
        return Err(Refusal::of(26));
    }
    Ok(Machine {
        frames: frames.to_vec(),
        p: rule.start(),
        rule,
        w,
        profile,
        lists: Default::default(),
        totals: Totals::default(),
        reported: Vec::new(),
    })
}

/// Whether W is one that opening takes.
pub fn width_fits(w: u32) -> bool {
    (1..=256).contains(&w)
}

/// Whether a window has its 32 x W words.
pub fn window_fits(w: u32, window_len: usize) -> bool {
    window_len as u64 == WORDS as u64 * u64::from(w)
}

impl Machine {
    /// Takes one line: 15, ignored, 16, 17, or accepted.
    pub fn feed(&mut self, line: &[u8]) -> Fed {
        match read_line(line) {
            Ok((event, notes)) => self.take(event, notes),
            Err(place) => Fed::Refused(Refusal::at(15, place)),
        }
    }

    /// Takes one line of the earlier edition, with 0 as its fourth note: 23, else as feeding.
    pub fn feed_old(&mut self, old: &[u8]) -> Fed {
        match read_old(old) {
            Ok((event, [a, b, c])) => self.take(event.into(), [a.into(), b.into(), c.into(), 0]),
            Err(refusal) => Fed::Refused(refusal),
        }
    }

    /// Takes a line as read: ignored, 16, 17, or accepted.
    fn take(&mut self, event: usize, notes: Notes) -> Fed {
        let Some(base) = self.base(event) else {
            return Fed::Ignored;
        };
        let list = &mut self.lists[event];
        if list.len() >= MOST_LINES {
            return Fed::Refused(Refusal::of(16));
        }
        if list.len() as i64 >= base + i64::from(self.w) {
            return Fed::Refused(Refusal::of(17));
        }
        list.push(notes);
        Fed::Accepted
    }

    /// Hands out the next verdict if it is settled; a false one fills the report.
    pub fn pull(&mut self, report: &mut [u8]) -> Pulled {
        if report.len() < REPORT {
            return Pulled::Refused(Refusal::of(14));
        }
        let statuses = self.statuses(self.p);
        let Some(verdict) = verdict(&self.rule, self.p, &statuses) else {
            return Pulled::Waiting;
        };
        if verdict == Truth::False {
            fill(report, self.p, &statuses);
            self.reported.push(Reported { i: self.p, verdict });
        }
        self.p += 1;
        self.totals.count(verdict);
        Pulled::Verdict(verdict)
    }

    /// The verdict of any instance by the lists as they are; nothing if it is not settled, or if i is no instance.
    pub fn verdict_of(&self, i: u32) -> Option<Truth> {
        if !self.rule.is_instance(i) {
            return None;
        }
        verdict(&self.rule, i, &self.statuses(i))
    }

    /// The base of an event; nothing if the rule does not reference it.
    pub fn base(&self, event: usize) -> Option<i64> {
        self.rule.base(event, self.p)
    }

    /// The rule that opening was given.
    pub fn rule(&self) -> &Rule {
        &self.rule
    }

    /// The W that opening was given.
    pub fn w(&self) -> u32 {
        self.w
    }

    /// The accepted lines of an event.
    pub fn list(&self, event: usize) -> &[Notes] {
        &self.lists[event]
    }

    /// The count of each event.
    pub fn counts(&self) -> [u32; EVENTS] {
        std::array::from_fn(|event| self.lists[event].len() as u32)
    }

    /// The instance that the next pull is about.
    pub fn p(&self) -> u32 {
        self.p
    }

    /// The totals.
    pub fn totals(&self) -> Totals {
        self.totals
    }

    /// The instance and the verdict of each report.
    pub fn reported(&self) -> &[Reported] {
        &self.reported
    }

    /// What the reported violations cost in cents, unless 28 or 29 refuses.
    pub fn charge(&self, tariff: &Tariff) -> Result<u64, Refusal> {
        tariff.cents(self.reported.len() as u32)
    }

    /// What a checker's state carries after the same calls. The machine has no window: the sum is that of the one given.
    pub fn state(&self, window: &[i32]) -> State {
        let mut state = State {
            len: self.frames.len() as u32 / 8,
            w: self.w,
            profile: self.profile.number(),
            counts: self.counts(),
            p: self.p,
            totals: self.totals,
            sum: sum_of(window),
            ..State::zero()
        };
        state.frames[..self.frames.len()].copy_from_slice(&self.frames);
        state
    }

    fn statuses(&self, i: u32) -> Vec<Status> {
        let status = |reference: &Reference| {
            let Ok(occurrence) = usize::try_from(reference.occurrence(i)) else {
                return Status::Void;
            };
            match self.lists[reference.event].get(occurrence) {
                Some(notes) => Status::Present(notes[reference.note]),
                None => Status::Pending,
            }
        };
        self.rule.references.iter().map(status).collect()
    }
}

/// Writes the report of a false verdict; later bytes keep.
fn fill(report: &mut [u8], p: u32, statuses: &[Status]) {
    let mut bytes = Vec::with_capacity(REPORT);
    bytes.extend(p.to_be_bytes());
    bytes.push(0);
    bytes.push(statuses.len() as u8);
    for status in statuses {
        let (mark, value) = match status {
            Status::Present(note) => (0, *note),
            Status::Pending => (1, 0),
            Status::Void => (2, 0),
        };
        bytes.push(mark);
        bytes.extend(value.to_be_bytes());
    }
    report[..bytes.len()].copy_from_slice(&bytes);
}
