//! How many calls of the part the tests make: each says its number at its end, and all together make enough.

use std::cell::Cell;

/// The fewest calls of the part in all.
const LEAST: usize = 200_000;

/// The fewest calls of each test that makes many.
const OF_TESTS: [(&str, usize); 51] = [
    ("vectors", 18_900),
    ("random texts", 9_000),
    ("damaged texts", 30_000),
    ("bytes of a text", 31_000),
    ("bytes of frames", 60_000),
    ("short lists of frames", 111_000),
    ("damaged frames", 40_000),
    ("relations of every scale", 24_600),
    ("magnitudes with decimals", 1_600),
    ("bytes of frames with a scale", 8_000),
    ("near the limit", 18_000),
    ("values of random rules", 18_000),
    ("forged states with a scale", 40_000),
    ("bytes of a line", 8_700),
    ("random lists of calls", 235_000),
    ("lists of late rules", 235_000),
    ("lists on a board", 235_000),
    ("several widths", 40_000),
    ("several widths of late rules", 180_000),
    ("several widths of boards", 210_000),
    ("places of every width", 12_000),
    ("forged states", 385_000),
    ("limits of a board", 6_600),
    ("states of either profile", 104_000),
    ("desk and board", 150_000),
    ("every word at every moment", 162_000),
    ("every word at every moment on a board", 162_000),
    ("two words", 47_600),
    ("other sums", 4_400),
    ("12, 13 and 27 in order", 5_600),
    ("sums that come round", 3_100),
    ("states around the start", 28_900),
    ("factors and offsets", 15_000),
    ("views of buffers", 2_400),
    ("views after reports", 180_000),
    ("views of two logs", 400_000),
    ("a million lines", 2_000_000),
    ("bytes of converted lines", 12_200),
    ("lengths of converted lines", 7_100),
    ("every old note", 393_000),
    ("notes of lowered lines", 48_000),
    ("random conversions", 520_000),
    ("old logs", 180_000),
    ("short lists of bands", 18_700),
    ("entries that are no bands", 8_100),
    ("fractions of a cent", 25_300),
    ("charges in lists of calls", 200_000),
    ("charges of forged states", 350_000),
    ("random tariffs", 253_000),
    ("more violations", 157_000),
    ("every count", 1_010_000),
];

const _: () = {
    let (mut k, mut sum) = (0, 0);
    while k < OF_TESTS.len() {
        sum += OF_TESTS[k].1;
        k += 1;
    }
    assert!(sum >= LEAST);
};

thread_local! {
    static CALLS: Cell<usize> = const { Cell::new(0) };
}

/// Counts one call of the part.
pub fn count() {
    CALLS.set(CALLS.get() + 1);
}

/// The calls since some moment, in this thread.
pub struct Quota {
    name: &'static str,
    before: usize,
}

impl Quota {
    /// Begins to count for a test.
    pub fn begin(name: &'static str) -> Quota {
        Quota {
            name,
            before: CALLS.get(),
        }
    }

    /// Whether the test made its calls.
    pub fn end(self) {
        let calls = CALLS.get() - self.before;
        let (_, least) = OF_TESTS
            .into_iter()
            .find(|(name, _)| *name == self.name)
            .expect("the test has a number of calls");
        assert!(
            calls >= least,
            "{}: {calls} calls, {least} expected",
            self.name
        );
    }
}
