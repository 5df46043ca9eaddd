//! What machine hands see of a report: its instance and its verdict.

use super::machine::REPORT;
use super::verdict::Truth;
use super::Refusal;

/// The bytes of a view.
pub type View = [u8; 5];

/// The instance and the verdict of a report.
#[derive(Clone, Copy, Debug, PartialEq, Eq)]
pub struct Reported {
    pub i: u32,
    pub verdict: Truth,
}

impl Reported {
    /// The view of the report, from these two and not from the report. Only a false verdict has one.
    pub fn view(self) -> View {
        let [a, b, c, d] = self.i.to_be_bytes();
        match self.verdict {
            Truth::False => [a, b, c, d, 0],
            other => panic!("{other:?} has no report"),
        }
    }
}

/// The view of a report buffer with whatever in it, unless 14 refuses.
pub fn view(report: &[u8]) -> Result<View, Refusal> {
    match report.first_chunk() {
        Some(view) if report.len() >= REPORT => Ok(*view),
        _ => Err(Refusal::of(14)),
    }
}
