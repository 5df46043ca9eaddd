//! How often each answer came.

use dillplatter_second::{Fed, Pulled, Refusal};
use std::collections::BTreeMap;

/// How often each answer of feeding, pulling and charging came; a refusal counts by its number.
#[derive(Debug, Default)]
pub struct Seen(BTreeMap<String, usize>);

impl Seen {
    /// Counts an answer of feeding.
    pub fn fed(&mut self, answer: Fed) {
        self.count(format!("feed {answer:?}"));
    }

    /// Counts an answer of pulling.
    pub fn pulled(&mut self, answer: Pulled) {
        self.count(format!("pull {answer:?}"));
    }

    /// Counts an answer of charging; all sums count as one answer.
    pub fn charged(&mut self, answer: Result<u64, Refusal>) {
        self.count(format!("charge {:?}", answer.map(|_| "cents")));
    }

    fn count(&mut self, words: String) {
        let without_place = words.split("place").next().unwrap_or_default();
        *self.0.entry(without_place.into()).or_default() += 1;
    }

    /// There were so many answers, and each came more often than so many times.
    #[track_caller]
    pub fn more_than(&self, answers: usize, times: usize) {
        assert_eq!(self.0.len(), answers, "{self:?}");
        assert!(self.0.values().all(|seen| *seen > times), "{self:?}");
    }
}
