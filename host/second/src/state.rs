//! A state that a caller hands in: 12, and 13 and 27 with a window, and what the calls answer if these let it pass.

use super::frames::{check, Reference, Rule};
use super::line::read_line;
use super::machine::{open_as, width_fits, window_fits, Fed, Pulled, Totals};
use super::machine::{EVENTS, MOST_LINES, REPORT};
use super::profile::Profile;
use super::tariff::Tariff;
use super::verdict::{verdict, Status, Truth};
use super::Refusal;

const MOST_FRAMES: u32 = 64;
const MOST_P: u32 = 1_009_999;

/// What a checker's state carries. Bytes after the last frame are not looked at.
#[derive(Clone, Debug, PartialEq, Eq)]
pub struct State {
    pub frames: [u8; 512],
    /// How many frames there are.
    pub len: u32,
    pub w: u32,
    /// The number of its profile.
    pub profile: u32,
    pub counts: [u32; EVENTS],
    pub p: u32,
    pub totals: Totals,
    /// The sum of the window's words, modulo 2^32.
    pub sum: u32,
}

/// The sum of a window's words, each as its 32 bits, modulo 2^32. All words are added up, then the remainder is taken: the most
/// that 32 x 256 words come to is below 2^45.
pub fn sum_of(window: &[i32]) -> u32 {
    let bits = |word: &i32| u64::from(u32::from_ne_bytes(word.to_ne_bytes()));
    let whole: u64 = window.iter().map(bits).sum();
    (whole % (1 << 32)) as u32
}

impl State {
    /// The state that is zero throughout; a refused opening hands it back.
    pub fn zero() -> State {
        State {
            frames: [0; 512],
            len: 0,
            w: 0,
            profile: 0,
            counts: [0; EVENTS],
            p: 0,
            totals: Totals::default(),
            sum: 0,
        }
    }

    /// Opening at a desk: sets all words of the window to 0, unless it is refused.
    pub fn open(frames: &[u8], w: u32, window: &mut [i32]) -> Result<State, Refusal> {
        State::open_as(Profile::Desk, frames, w, window)
    }

    /// The same with a profile.
    pub fn open_as(
        profile: Profile,
        frames: &[u8],
        w: u32,
        window: &mut [i32],
    ) -> Result<State, Refusal> {
        let machine = open_as(profile, frames, w, window.len())?;
        window.fill(0);
        Ok(machine.state(window))
    }

    /// 12, 13 or 27, if one of them refuses this state with a window.
    pub fn refusal(&self, window: &[i32]) -> Option<Refusal> {
        self.rule(window).err()
    }

    /// Feeding: an occurrence from base on goes into the window, and the sum is that of the window then.
    pub fn feed(&mut self, window: &mut [i32], line: &[u8]) -> Fed {
        let rule = match self.rule(window) {
            Ok(rule) => rule,
            Err(refusal) => return Fed::Refused(refusal),
        };
        let (event, notes) = match read_line(line) {
            Ok(read) => read,
            Err(place) => return Fed::Refused(Refusal::at(15, place)),
        };
        let Some(base) = rule.base(event, self.p) else {
            return Fed::Ignored;
        };
        let count = self.counts[event];
        if count as usize >= MOST_LINES {
            return Fed::Refused(Refusal::of(16));
        }
        if i64::from(count) >= base + i64::from(self.w) {
            return Fed::Refused(Refusal::of(17));
        }
        if i64::from(count) >= base {
            for (n, note) in notes.into_iter().enumerate() {
                window[self.word(event, count, n)] = note;
            }
            self.sum = sum_of(window);
        }
        self.counts[event] += 1;
        Fed::Accepted
    }

    /// Pulling: the notes come from the window.
    pub fn pull(&mut self, window: &[i32], report: &mut [u8]) -> Pulled {
        let rule = match self.rule(window) {
            Ok(rule) => rule,
            Err(refusal) => return Pulled::Refused(refusal),
        };
        if report.len() < REPORT {
            return Pulled::Refused(Refusal::of(14));
        }
        let status = |reference: &Reference| match u32::try_from(reference.occurrence(self.p)) {
            Err(_) => Status::Void,
            Ok(k) if k >= self.counts[reference.event] => Status::Pending,
            Ok(k) => Status::Present(window[self.word(reference.event, k, reference.note)]),
        };
        let statuses: Vec<Status> = rule.references.iter().map(status).collect();
        let Some(verdict) = verdict(&rule, self.p, &statuses) else {
            return Pulled::Waiting;
        };
        if verdict == Truth::False {
            lay_out(report, self.p, &statuses);
        }
        self.p += 1;
        self.totals.count(verdict);
        Pulled::Verdict(verdict)
    }

    /// Charging: what the false verdicts cost in cents, unless 28, 29 or 12 refuses, in this order.
    pub fn charge(&self, tariff: &Tariff) -> Result<u64, Refusal> {
        tariff.check()?;
        self.rule_in_order().ok_or(Refusal::of(12))?;
        tariff.cents(self.totals.failed)
    }

    /// The window word of an occurrence's note.
    fn word(&self, event: usize, occurrence: u32, note: usize) -> usize {
        let w = self.w as usize;
        (event * w + occurrence as usize % w) * 4 + note
    }

    /// The state's rule, unless 12, 13 or 27 refuses, in this order.
    fn rule(&self, window: &[i32]) -> Result<Rule, Refusal> {
        let rule = self.rule_in_order().ok_or(Refusal::of(12))?;
        if !window_fits(self.w, window.len()) {
            return Err(Refusal::of(13));
        }
        if sum_of(window) != self.sum {
            return Err(Refusal::of(27));
        }
        Ok(rule)
    }

    /// The state's rule, unless 12 refuses.
    fn rule_in_order(&self) -> Option<Rule> {
        if self.len > MOST_FRAMES {
            return None;
        }
        let profile = Profile::of(self.profile)?;
        let rule = check(&self.frames[..8 * self.len as usize]).ok()?;
        let totals = [self.totals.held, self.totals.failed, self.totals.unknown];
        let sum: u64 = totals.into_iter().map(u64::from).sum();
        // Below the start there is no p, whatever the totals.
        let pulled = self.p.checked_sub(rule.start()).map(u64::from);
        let count_fits = |event: usize| {
            let count = self.counts[event];
            let limit = match rule.base(event, self.p) {
                Some(base) => base + i64::from(self.w),
                None => 0,
            };
            count as usize <= MOST_LINES && i64::from(count) <= limit
        };
        let fits = width_fits(self.w)
            && profile.takes(self.w, self.len as usize)
            && self.p <= MOST_P
            && pulled == Some(sum)
            && (0..EVENTS).all(count_fits);
        fits.then_some(rule)
    }
}

/// Lays out the report of instance i, byte by byte: the instance in bytes 0 to 3, the most significant first; false in
/// byte 4; the number of references in byte 5; from byte 6 on five for each reference, its mark and its value. Later
/// bytes keep.
fn lay_out(report: &mut [u8], i: u32, statuses: &[Status]) {
    put_word(&mut report[0..4], i);
    report[4] = 0x00;
    report[5] = u8::try_from(statuses.len()).expect("a rule has at most 32 references");
    for (k, status) in statuses.iter().enumerate() {
        let entry = &mut report[6 + 5 * k..][..5];
        entry[0] = match status {
            Status::Present(_) => 0x00,
            Status::Pending => 0x01,
            Status::Void => 0x02,
        };
        let value = match status {
            Status::Present(note) => *note,
            _ => 0,
        };
        put_word(&mut entry[1..], value as u32);
    }
}

/// Writes 32 bits, the most significant byte first.
fn put_word(bytes: &mut [u8], word: u32) {
    for (byte, shift) in bytes.iter_mut().zip([24, 16, 8, 0]) {
        *byte = (word >> shift) as u8;
    }
}
