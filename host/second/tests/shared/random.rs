//! Random rules with fixed seeds. A rule is made as the grammar has it, with its frames made along the way.

use dillplatter_second::{open, Profile};

/// A generator of numbers (xorshift).
pub struct Random(u64);

impl Random {
    pub fn new(seed: u64) -> Random {
        Random(seed.wrapping_mul(0x9E37_79B9_7F4A_7C15) | 1)
    }

    fn next(&mut self) -> u64 {
        self.0 ^= self.0 << 13;
        self.0 ^= self.0 >> 7;
        self.0 ^= self.0 << 17;
        self.0.wrapping_mul(0x2545_F491_4F6C_DD1D) >> 16
    }

    /// A number below a limit.
    pub fn below(&mut self, limit: usize) -> usize {
        (self.next() % limit as u64) as usize
    }

    /// True once in so many times.
    pub fn once_in(&mut self, times: usize) -> bool {
        self.below(times) == 0
    }

    pub fn pick<T: Copy>(&mut self, from: &[T]) -> T {
        from[self.below(from.len())]
    }
}

/// A random rule and what is known of it.
pub struct Made {
    /// Its tokens as text.
    pub tokens: Vec<String>,
    pub frames: Vec<[u8; 8]>,
    pub depth: usize,
    pub references: usize,
    /// Whether a magnitude exceeds 2^62.
    pub over: bool,
    /// The number of the first token with more than 6 decimals, the clause's number or a literal.
    pub long: Option<usize>,
}

/// The magnitude of a sum, and its count of decimals.
#[derive(Clone, Copy)]
struct Size {
    magnitude: u128,
    count: u32,
}

impl Size {
    /// Brought to a count that is not less. Over 10^18 only 0 stays within 2^62.
    fn brought(self, count: u32) -> u128 {
        match (self.magnitude, count - self.count) {
            (0, _) => 0,
            (magnitude, power @ 0..=18) => magnitude.saturating_mul(10_u128.pow(power)),
            _ => u128::MAX,
        }
    }
}

/// Makes one; a larger size gives a longer rule.
pub fn rule(random: &mut Random, size: usize) -> Made {
    make(random, size, false)
}

/// Makes one whose offsets are mostly negative, so that it mostly starts after instance 0.
pub fn late_rule(random: &mut Random, size: usize) -> Made {
    make(random, size, true)
}

fn make(random: &mut Random, size: usize, late: bool) -> Made {
    let mut maker = Maker {
        made: Made {
            tokens: Vec::new(),
            frames: Vec::new(),
            depth: 0,
            references: 0,
            over: false,
            long: None,
        },
        scale: None,
        events: 1 + random.below(8),
        notes: 1 + random.below(4),
        left: size,
        late,
        random,
    };
    let (events, notes) = (maker.events, maker.notes);
    maker.list("events", events, event_name);
    maker.list("notes", notes, note_name);
    maker.clause();
    maker.cond(0);
    maker.made
}

/// Frames of a random rule that opens.
pub fn frames(random: &mut Random) -> Vec<u8> {
    frames_by(random, rule)
}

/// The same with offsets that are mostly negative.
pub fn late_frames(random: &mut Random) -> Vec<u8> {
    frames_by(random, late_rule)
}

fn frames_by(random: &mut Random, rule: fn(&mut Random, usize) -> Made) -> Vec<u8> {
    loop {
        let size = random.pick(&[1, 1, 4, 10, 30]);
        let frames = rule(random, size).frames.concat();
        if open(&frames, 1, 32).is_ok() {
            return frames;
        }
    }
}

/// Frames of a random rule that opens and has at most 16 frames, sometimes with offsets that are mostly negative. Some get to
/// 16 frames by 'not'.
pub fn board_frames(random: &mut Random) -> Vec<u8> {
    loop {
        let size = random.pick(&[1, 4, 8, 12]);
        let late = random.once_in(3);
        let mut frames = make(random, size, late).frames;
        if frames.len() > 16 {
            continue;
        }
        if random.once_in(5) {
            frames.resize(16, [0x31, 0, 0, 0, 0, 0, 0, 0]);
        }
        if open(&frames.concat(), 1, 32).is_ok() {
            return frames.concat();
        }
    }
}

/// A random W that a profile takes.
pub fn width(random: &mut Random, profile: Profile) -> u32 {
    match profile {
        Profile::Desk => random.pick(&[1, 1, 2, 3, 5, 16, 64, 256]),
        Profile::Board => {
            let any = 1 + random.below(32) as u32;
            random.pick(&[1, 1, 2, any, any, any, 32, 32])
        }
    }
}

fn event_name(number: usize) -> String {
    let names = "in out scale ii eventsx abcdefghijkl t absx";
    names.split(' ').nth(number).expect("a name").into()
}

fn note_name(number: usize) -> String {
    ["t", "scale", "in", "abcdefghijkl"][number].into()
}

/// Digits with so many of them behind a point, and zeros before them; none behind a point is no point.
pub fn with_point(value: usize, decimals: usize, zeros: usize) -> String {
    let mut digits = format!("{value:0>width$}", width = decimals + 1);
    if decimals > 0 {
        digits.insert(digits.len() - decimals, '.');
    }
    "0".repeat(zeros) + &digits
}

struct Maker<'r> {
    random: &'r mut Random,
    made: Made,
    events: usize,
    notes: usize,
    /// The clause's number.
    scale: Option<u32>,
    /// How many choices may still make the rule longer.
    left: usize,
    /// Whether offsets are mostly negative.
    late: bool,
}

impl Maker<'_> {
    fn token(&mut self, text: impl Into<String>) {
        self.made.tokens.push(text.into());
    }

    fn list(&mut self, word: &str, length: usize, name: fn(usize) -> String) {
        self.token(word);
        for number in 0..length {
            self.token(name(number));
        }
        self.token(";");
    }

    /// The clause of a scale, mostly of 0 to 6 decimals, or none.
    fn clause(&mut self) {
        if !self.random.once_in(3) {
            return;
        }
        let few = self.random.below(7);
        let scale = self.random.pick(&[few, few, few, 0, 1, 1, 2, 2, 3, 6]);
        let scale = if self.random.once_in(40) { 7 } else { scale };
        self.token("scale");
        self.note_long(scale);
        let zeros = self.random.pick(&[0, 0, 0, 0, 1, 12]);
        self.token(with_point(scale, 0, zeros));
        self.token(";");
        self.operand(0x04, [scale as u8, 0, 0], 0, 0);
        self.scale = Some(scale as u32);
    }

    /// A token with so many decimals comes next.
    fn note_long(&mut self, decimals: usize) {
        if decimals > 6 {
            self.made.long.get_or_insert(self.made.tokens.len());
        }
    }

    fn frame(&mut self, kind: u8) {
        self.made.frames.push([kind, 0, 0, 0, 0, 0, 0, 0]);
    }

    fn operand(&mut self, kind: u8, fields: [u8; 3], word: i32, depth: usize) {
        self.made.depth = self.made.depth.max(depth);
        let mut frame = [kind, fields[0], fields[1], fields[2], 0, 0, 0, 0];
        frame[4..].copy_from_slice(&word.to_be_bytes());
        self.made.frames.push(frame);
    }

    /// Whether to make the rule longer here.
    fn more(&mut self, times: usize) -> bool {
        if self.left == 0 || !self.random.once_in(times) {
            return false;
        }
        self.left -= 1;
        true
    }

    fn cond(&mut self, depth: usize) {
        self.disj(depth);
        if self.more(4) {
            self.token("->");
            self.cond(depth + 1);
            self.frame(0x34);
        }
    }

    fn disj(&mut self, depth: usize) {
        self.conj(depth);
        while self.more(4) {
            self.token("||");
            self.conj(depth);
            self.frame(0x33);
        }
    }

    fn conj(&mut self, depth: usize) {
        self.unit(depth);
        while self.more(4) {
            self.token("&&");
            self.unit(depth);
            self.frame(0x32);
        }
    }

    fn unit(&mut self, depth: usize) {
        if self.more(4) {
            self.token("!");
            self.unit(depth + 1);
            self.frame(0x31);
        } else if self.more(3) {
            self.token("{");
            self.cond(depth + 1);
            self.token("}");
        } else {
            let left = self.sum(depth);
            let relation = self.random.below(6);
            self.token(["=", "!=", "<", "<=", ">", ">="][relation]);
            let right = self.sum(depth);
            let count = left.count.max(right.count);
            for side in [left, right] {
                self.sized(side.brought(count), count);
            }
            self.frame(0x21 + relation as u8);
        }
    }

    /// A sum; the answer is its magnitude with its count.
    fn sum(&mut self, depth: usize) -> Size {
        let mut size = self.prod(depth);
        while self.more(3) {
            let minus = self.random.once_in(2);
            self.token(if minus { "-" } else { "+" });
            let right = self.prod(depth);
            let count = size.count.max(right.count);
            let both = size.brought(count).saturating_add(right.brought(count));
            size = self.sized(both, count);
            self.frame(if minus { 0x12 } else { 0x11 });
        }
        size
    }

    fn prod(&mut self, depth: usize) -> Size {
        let mut size = self.factor(depth);
        while self.more(6) {
            self.token("*");
            let right = self.factor(depth);
            let both = size.magnitude.saturating_mul(right.magnitude);
            size = self.sized(both, size.count + right.count);
            self.frame(0x13);
        }
        size
    }

    fn sized(&mut self, magnitude: u128, count: u32) -> Size {
        self.made.over |= magnitude > 1 << 62;
        Size { magnitude, count }
    }

    fn factor(&mut self, depth: usize) -> Size {
        if self.more(5) {
            self.token("(");
            let size = self.sum(depth + 1);
            self.token(")");
            return size;
        }
        if self.more(6) {
            self.token("abs");
            self.token("(");
            let size = self.sum(depth + 1);
            self.token(")");
            self.frame(0x14);
            return size;
        }
        match self.random.below(6) {
            0 => self.literal(depth),
            1 => {
                self.token("i");
                self.operand(0x02, [0; 3], 0, depth);
                self.sized(1 << 20, 0)
            }
            _ => {
                self.reference(depth);
                self.sized(1 << 31, self.scale.unwrap_or_default())
            }
        }
    }

    /// A literal, behind the clause mostly with a point.
    fn literal(&mut self, depth: usize) -> Size {
        let small = self.random.below(20);
        let value = self.random.pick(&[0, 1, 25, small, small, 2_147_483_647]);
        let zeros = self.random.pick(&[0, 0, 0, 0, 1, 12]);
        let mut decimals = 0;
        if self.scale.is_some() {
            let few = self.random.below(7);
            decimals = self.random.pick(&[0, 1, 2, few, few, few]);
            if self.random.once_in(60) {
                decimals = self.random.pick(&[7, 8]);
            }
        }
        self.note_long(decimals);
        self.token(with_point(value, decimals, zeros));
        self.operand(0x01, [decimals as u8, 0, 0], value as i32, depth);
        self.sized(value as u128, decimals as u32)
    }

    fn reference(&mut self, depth: usize) {
        self.made.references += 1;
        let event = self.random.below(self.events);
        let note = self.random.below(self.notes);
        for token in [note_name(note), "(".into(), event_name(event), "[".into()] {
            self.token(token);
        }
        let mut factor = 1;
        if self.random.once_in(3) {
            factor = self.random.pick(&[1, 1, 2, 3, 9]);
            self.token(factor.to_string());
            self.token("*");
        }
        self.token("i");
        let mut offset = 0;
        let signed = if self.late {
            self.late_offset()
        } else {
            self.offset()
        };
        if let Some((minus, size)) = signed {
            self.token(if minus { "-" } else { "+" });
            self.token(size.to_string());
            offset = if minus { -size } else { size };
        }
        self.token("]");
        self.token(")");
        self.operand(0x03, [event as u8, note as u8, factor as u8], offset, depth);
    }

    /// Whether an offset is negative, and its size; nothing if there is none.
    fn offset(&mut self) -> Option<(bool, i32)> {
        if !self.random.once_in(2) {
            return None;
        }
        let small = self.random.below(4) as i32;
        let size = self.random.pick(&[small, small, small, small, 10, 9_999]);
        Some((self.random.once_in(2), size))
    }

    /// The same, mostly negative.
    fn late_offset(&mut self) -> Option<(bool, i32)> {
        if self.random.once_in(30) {
            return self.offset();
        }
        let small = 1 + self.random.below(12) as i32;
        let size = self
            .random
            .pick(&[small, small, small, small, small, 300, 9_998, 9_999]);
        Some((true, size))
    }
}

/// Tokens as one text, with random blanks; between two that could run together there is at least one. The second
/// answer has the place of each token.
pub fn text(random: &mut Random, tokens: &[String]) -> (String, Vec<usize>) {
    let mut text = String::new();
    let mut places = Vec::new();
    for token in tokens {
        let blanks = random.pick(&["", "", "", " ", "\n", "  ", " \n"]);
        let touch = |before: char, after: char| {
            before.is_ascii_lowercase() && after.is_ascii_lowercase()
                || before.is_ascii_digit() && (after.is_ascii_digit() || after == '.')
                || before == '.' && after.is_ascii_digit()
                || before.is_ascii_punctuation() && after.is_ascii_punctuation()
        };
        let close = text.chars().last().zip(token.chars().next());
        if blanks.is_empty() && close.is_some_and(|(before, after)| touch(before, after)) {
            text.push(' ');
        }
        text.push_str(blanks);
        places.push(text.len());
        text.push_str(token);
    }
    text.push_str(random.pick(&["", " ", "\n"]));
    (text, places)
}
