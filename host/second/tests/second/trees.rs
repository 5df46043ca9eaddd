//! Random rules: the reader gives the frames that were made with the text.

use crate::common::reads;
use crate::shared::random::{rule, text, Random};
use dillplatter_second::open;
use std::collections::BTreeMap;

#[test]
fn frames_of_random_rules() {
    let mut seen: BTreeMap<u8, usize> = BTreeMap::new();
    for seed in 0..20_000 {
        let random = &mut Random::new(seed);
        let size = random.pick(&[2, 8, 20, 40, 80]);
        let made = rule(random, size);
        let (text, places) = text(random, &made.tokens);
        let expected = if text.len() > 1_024 {
            Err((2, 0))
        } else if let Some(token) = made.long {
            Err((18, places[token]))
        } else if made.depth > 16 || made.frames.len() > 64 {
            Err((6, 0))
        } else if made.references == 0 {
            Err((7, 0))
        } else if made.over {
            Err((8, 0))
        } else {
            Ok(made.frames.concat())
        };
        let number = expected.as_ref().map_or_else(|refusal| refusal.0, |_| 0);
        *seen.entry(number).or_default() += 1;
        assert_eq!(reads(&text), expected, "seed {seed}: {text}");
        if let Ok(frames) = expected {
            assert!(open(&frames, 1, 32).is_ok(), "seed {seed}: {text}");
        }
    }
    for number in [0, 2, 6, 7, 8, 18] {
        let times = seen.get(&number).copied().unwrap_or(0);
        assert!(times >= 100, "{number} came {times} times");
    }
}
