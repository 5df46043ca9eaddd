//! Random and damaged texts.

use crate::damage::{damage_bytes, damage_points, damage_tokens};
use crate::pair::Pair;
use crate::quota::Quota;
use crate::shared::driven::Driven;
use crate::shared::random::{rule, text, Random};
use dillplatter_second::Refusal;
use std::collections::BTreeMap;

/// How often each answer came: 0 for a text that was read, else the number of its refusal.
#[derive(Default)]
struct Seen(BTreeMap<u8, usize>);

impl Seen {
    fn count<T>(&mut self, answer: &Result<T, Refusal>) {
        let number = answer.as_ref().err().map_or(0, |refusal| refusal.number);
        *self.0.entry(number).or_default() += 1;
    }

    /// Each of these came at least so often.
    fn least(&self, numbers: &[u8], times: usize) {
        for number in numbers {
            let seen = self.0.get(number).copied().unwrap_or_default();
            assert!(seen >= times, "{number} came {seen} times: {:?}", self.0);
        }
    }
}

#[test]
fn random_texts() {
    let quota = Quota::begin("random texts");
    let mut seen = Seen::default();
    for seed in 0..6_000 {
        let random = &mut Random::new(seed + 10_000_000);
        let size = random.pick(&[1, 4, 10, 30, 60, 120]);
        let made = rule(random, size);
        let (text, _) = text(random, &made.tokens);
        let answer = Pair::frames_of(text.as_bytes());
        seen.count(&answer);
        let Ok(frames) = answer else {
            continue;
        };
        assert_eq!(frames, made.frames.concat());
        let w = random.pick(&[1, 2, 64, 256]);
        assert!(Pair::open(&frames, w, &vec![7; 32 * w as usize]).is_ok());
    }
    seen.least(&[0], 3_000);
    seen.least(&[2, 6, 7, 8, 18], 20);
    quota.end();
}

#[test]
fn damaged_texts() {
    let quota = Quota::begin("damaged texts");
    let mut seen = Seen::default();
    // Texts that are read with a scale.
    let mut scaled = 0;
    for seed in 0..30_000 {
        let random = &mut Random::new(seed + 20_000_000);
        let size = random.pick(&[1, 2, 4, 10, 30, 60]);
        // By its tokens, its bytes, or its points, mostly of a rule with a scale.
        let way = random.below(3);
        let mut tokens = rule(random, size).tokens;
        for _ in 0..2 {
            if way == 2 && !tokens.iter().any(|token| token.contains('.')) {
                tokens = rule(random, size).tokens;
            }
        }
        if way == 0 {
            for _ in 0..random.pick(&[1, 1, 1, 2, 3]) {
                damage_tokens(random, &mut tokens);
            }
        }
        let mut bytes = text(random, &tokens).0.into_bytes();
        if way > 0 {
            for _ in 0..random.pick(&[1, 1, 1, 2, 5]) {
                let damage = [damage_bytes, damage_points][way - 1];
                damage(random, &mut bytes);
            }
        }
        let answer = Pair::frames_of(&bytes);
        scaled += usize::from(answer.as_ref().is_ok_and(|frames| frames[0] == 4));
        seen.count(&answer);
    }
    seen.least(&[0, 3, 4], 500);
    seen.least(&[18], 300);
    seen.least(&[2, 5, 6, 7, 8], 20);
    assert!(scaled > 500, "{scaled}");
    quota.end();
}

#[test]
fn every_value_of_every_byte() {
    let quota = Quota::begin("bytes of a text");
    let mut seen = Seen::default();
    for text in [
        &b"events a b; notes t; t(a[2*i+1]) <= 7 || !i > t(b[i])"[..],
        b"events a b; notes t; scale 3; t(a[2*i+1]) <= 7.25 || !i > 0.000001*t(b[i])",
    ] {
        assert!(Pair::frames_of(text).is_ok());
        for place in 0..text.len() {
            for value in 0..=255 {
                let mut changed = text.to_vec();
                changed[place] = value;
                seen.count(&Pair::frames_of(&changed));
            }
        }
    }
    seen.least(&[18], 10);
    seen.least(&[0, 4], 100);
    seen.least(&[3], 10_000);
    quota.end();
}

#[test]
fn every_beginning_and_every_ending() {
    let text = b"events in out x; notes t u;\n{{t(in[3*i-10]) != abs((i - 4) * u(x[i])) -> !{1=1||2>=i}} && i<=9}";
    let scaled = b"events in out x; notes t scale; scale 06; {scale(in[3*i-10]) != abs(i - 4.50 * t(x[i])) -> 1.5=i}";
    for text in [&text[..], scaled] {
        assert!(Pair::frames_of(text).is_ok());
        for place in 0..text.len() {
            let answer = Pair::frames_of(&text[..place]);
            let number = answer.expect_err("the text ends early").number;
            assert!(number == 3 || number == 2 && place == 0);
            assert!(place == 0 || Pair::frames_of(&text[place..]).is_err());
        }
    }
}

#[test]
fn bytes_that_are_no_text() {
    for seed in 0..2_000 {
        let random = &mut Random::new(seed + 30_000_000);
        let length = random.pick(&[0, 1, 2, 9, 100, 1_023, 1_024, 1_025, 3_000]);
        let bytes: Vec<u8> = (0..length).map(|_| random.below(256) as u8).collect();
        let head: &[u8] = random.pick(&[
            b"",
            b"events a; notes t; ".as_slice(),
            b"events a; notes t; scale 2; ",
        ]);
        let number = Pair::frames_of(&[head, &bytes].concat()).map_err(|refusal| refusal.number);
        assert!(matches!(number, Err(2 | 3)));
    }
}

#[test]
fn buffers_of_another_length() {
    let text = b"events a; notes t; t(a[i]) = 1";
    for length in [0, 1, 8, 24, 504, 511, 513, 520, 1_024, 4_096] {
        let mut buffer: Vec<u8> = (0..length).map(|k| k as u8).collect();
        for text in [text.as_slice(), b"", b"?", &[b' '; 1_025]] {
            assert_eq!(Pair::read(text, &mut buffer), Err(Refusal::of(1)));
        }
        assert!(buffer.iter().enumerate().all(|(k, byte)| *byte == k as u8));
    }
}
