//! Random openings of both profiles, by any checker.

use super::damage::damage_frames;
use super::driven::Driven;
use super::random::{rule, Random};
use dillplatter_second::{Profile, Refusal};
use std::collections::BTreeMap;

/// How often each answer of a profile came: the number of the refusal, 0 for none.
#[derive(Debug, Default)]
struct Openings(BTreeMap<u8, usize>);

impl Openings {
    fn count(&mut self, refusal: Option<Refusal>) {
        let number = refusal.map_or(0, |refusal| refusal.number);
        *self.0.entry(number).or_default() += 1;
    }

    /// Exactly these numbers came, each of them so many times.
    #[track_caller]
    fn at_least(&self, numbers: &[u8], times: usize) {
        let seen: Vec<u8> = self.0.keys().copied().collect();
        assert_eq!(seen, numbers, "{self:?}");
        assert!(self.0.values().all(|seen| *seen >= times), "{self:?}");
    }
}

/// What a frame of a scale, or a literal's decimals, had to do with an answer, and how often.
#[derive(Debug, Default)]
struct Scales {
    /// Opened with a scale, and with one and a literal that has decimals.
    opened: usize,
    with_decimals: usize,
    /// Refused with 10 at a scale's frame that is first: over 6 decimals, another byte set.
    over_six: usize,
    other_byte: usize,
    /// Refused with 10 at one elsewhere.
    elsewhere: usize,
    /// Refused with 10 at a literal: over 6 decimals, decimals without a scale.
    literal_over_six: usize,
    without_scale: usize,
    /// Refused with 8 for a scale.
    large: usize,
}

impl Scales {
    fn count(&mut self, frames: &[u8], refusal: Option<Refusal>) {
        let has_scale = frames.first() == Some(&4);
        let counter = match refusal {
            None if has_scale => {
                let decimals = |frame: &[u8]| frame[0] == 1 && frame[1] > 0;
                let some = frames.chunks_exact(8).any(decimals);
                self.with_decimals += usize::from(some);
                &mut self.opened
            }
            Some(Refusal { number: 8, .. }) if has_scale => &mut self.large,
            Some(Refusal { number: 10, place }) if 8 * place < frames.len() => {
                let frame = &frames[8 * place..][..8];
                match (frame[0], place, frame[1]) {
                    (4, 0, 7..) => &mut self.over_six,
                    (4, 0, _) => &mut self.other_byte,
                    (4, _, 0..=6) if frame[2..] == [0; 6] => &mut self.elsewhere,
                    (1, _, 7..) if has_scale => &mut self.literal_over_six,
                    (1, _, 1..=6) if !has_scale => &mut self.without_scale,
                    _ => return,
                }
            }
            _ => return,
        };
        *counter += 1;
    }

    #[track_caller]
    fn at_least(&self, times: usize) {
        let Scales {
            opened,
            with_decimals,
            over_six,
            other_byte,
            elsewhere,
            literal_over_six,
            without_scale,
            large,
        } = self;
        let places = [
            over_six,
            other_byte,
            elsewhere,
            literal_over_six,
            without_scale,
        ];
        let mut all = [opened, with_decimals, large].into_iter().chain(places);
        assert!(all.all(|seen| *seen >= times), "{self:?}");
    }
}

/// Random rules, most of them damaged, with any W and window, opened at a desk and on a board. What the desk refuses the board
/// refuses with the same number and place; of the rest it refuses with 26 what is above its limits.
pub fn damaged_frames<C: Driven>() {
    let (mut desk, mut board) = (Openings::default(), Openings::default());
    let mut scales = Scales::default();
    // What is above: the frames, W, both.
    let mut above = [0; 3];
    for seed in 0..20_000 {
        let random = &mut Random::new(seed + 40_000_000);
        let size = random.pick(&[1, 4, 10, 30, 60]);
        let mut frames = rule(random, size).frames.concat();
        for _ in 0..random.pick(&[0, 0, 0, 1, 1, 2, 4]) {
            damage_frames(random, &mut frames);
        }
        let near = random.pick(&[31, 32, 32, 33, 33, 34]);
        let w = random.pick(&[
            0,
            1,
            2,
            near,
            near,
            near,
            64,
            256,
            257,
            300,
            1 << 27,
            u32::MAX,
        ]);
        let right = 32 * w.min(300) as i32;
        let words = right + random.pick(&[0, 0, 0, 0, 0, 0, -32, -1, 1, 32]);
        let window = vec![seed as i32; words.max(0) as usize];
        let [at_desk, on_board] = [Profile::Desk, Profile::Board]
            .map(|profile| C::open_as(profile, &frames, w, &window).err());
        desk.count(at_desk);
        scales.count(&frames, at_desk);
        board.count(on_board);
        let (wide, long) = (w > 32, frames.len() > 8 * 16);
        let expected = at_desk.or((wide || long).then_some(Refusal::of(26)));
        assert_eq!(on_board, expected, "seed {seed}");
        if on_board == Some(Refusal::of(26)) {
            above[usize::from(wide) * 2 + usize::from(long) - 1] += 1;
        }
    }
    desk.at_least(&[0, 7, 8, 9, 10, 11], 100);
    board.at_least(&[0, 7, 8, 9, 10, 11, 26], 100);
    assert!(above.iter().all(|times| *times > 100), "{above:?}");
    scales.at_least(100);
}
