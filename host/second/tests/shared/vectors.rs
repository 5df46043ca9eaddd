//! The stored vectors, and every line of them through any checker: answers, numbers, places, frames, reports, cents.

use super::driven::Driven;
use super::random::Random;
use super::tariff::{with_failed, MOST_VERDICTS};
use dillplatter_second::{Fed, Profile, Pulled, Refusal, Tariff, Truth};
use std::path::{Path, PathBuf};

/// A path below host/vectors.
fn vector(name: &str) -> PathBuf {
    Path::new(crate::TOP).join("host/vectors").join(name)
}

/// The lines of a file of vectors, without those that begin with '#', each with its number from 1.
fn vector_lines(name: &str) -> Vec<(usize, String)> {
    let text = std::fs::read_to_string(vector(name)).unwrap();
    text.lines()
        .enumerate()
        .filter(|(_, line)| !line.starts_with('#'))
        .map(|(k, line)| (k + 1, line.to_string()))
        .collect()
}

/// Bytes from hexadecimal; '-' is none.
fn unhex(digits: &str) -> Vec<u8> {
    if digits == "-" {
        return Vec::new();
    }
    assert!(digits.len().is_multiple_of(2), "odd number of digits");
    (0..digits.len() / 2)
        .map(|k| u8::from_str_radix(&digits[2 * k..2 * k + 2], 16).unwrap())
        .collect()
}

/// Bytes as small hexadecimal digits.
pub fn hex(bytes: &[u8]) -> String {
    bytes.iter().map(|byte| format!("{byte:02x}")).collect()
}

/// The files of texts, with how many texts each has, how many of them are read, how many with a scale, and how many are refused
/// with 18.
const READING: [(&str, [usize; 4]); 2] = [
    ("reading.txt", [700, 271, 0, 0]),
    ("points/01/reading.txt", [500, 186, 96, 0]),
];

/// Each file of texts.
pub fn reading<C: Driven>() {
    for (name, counts) in READING {
        assert_eq!(reading_of::<C>(name), counts, "{name}");
    }
}

/// A file of texts; the answer is how many there are, are read, are read with a scale, are refused with 18.
fn reading_of<C: Driven>(name: &str) -> [usize; 4] {
    let [mut texts, mut read, mut scaled, mut long] = [0; 4];
    for (at, line) in vector_lines(name) {
        let (text, expected) = line.split_once(' ').unwrap();
        texts += 1;
        let answer = match C::frames_of(&unhex(text)) {
            Ok(frames) => {
                read += 1;
                scaled += usize::from(frames[0] == 4);
                format!("frames {} {}", frames.len() / 8, hex(&frames))
            }
            Err(refusal) => {
                long += usize::from(refusal.number == 18);
                refusal_words(refusal)
            }
        };
        assert_eq!(answer, expected, "{name} line {at}");
    }
    [texts, read, scaled, long]
}

/// The files of openings, with how many each has, how many of them open, and how many with a scale.
const OPENING: [(&str, [usize; 3]); 2] = [
    ("opening.txt", [500, 44, 0]),
    ("points/01/opening.txt", [400, 31, 11]),
];

/// Each file of openings.
pub fn opening<C: Driven>() {
    for (name, counts) in OPENING {
        assert_eq!(opening_of::<C>(name), counts, "{name}");
    }
}

/// A file of openings; the answer is how many there are, open, open with a scale.
fn opening_of<C: Driven>(name: &str) -> [usize; 3] {
    let [mut openings, mut opened, mut scaled] = [0; 3];
    for (at, line) in vector_lines(name) {
        let mut fields = line.splitn(4, ' ');
        let mut field = || fields.next().unwrap();
        let frames = unhex(field());
        let w = field().parse().unwrap();
        let words: usize = field().parse().unwrap();
        let answer = opened_words(C::open(&frames, w, &vec![-1; words]));
        openings += 1;
        if answer == "opened" {
            opened += 1;
            scaled += usize::from(frames[0] == 4);
        }
        assert_eq!(answer, field(), "{name} line {at}");
    }
    [openings, opened, scaled]
}

/// points/09/board.txt.
pub fn board<C: Driven>() {
    let name = "points/09/board.txt";
    let lines = vector_lines(name);
    assert_eq!(lines.len(), 300);
    let (mut at_desk, mut on_board, mut above) = (0, 0, 0);
    for (at, line) in lines {
        let mut fields = line.splitn(5, ' ');
        let mut field = || fields.next().unwrap();
        let frames = unhex(field());
        let w = field().parse().unwrap();
        let words: usize = field().parse().unwrap();
        let (profile, opened) = match field() {
            "desk" => (Profile::Desk, &mut at_desk),
            "board" => (Profile::Board, &mut on_board),
            other => panic!("{name} line {at}: {other}"),
        };
        let answer = opened_words(C::open_as(profile, &frames, w, &vec![-1; words]));
        assert_eq!(answer, field(), "{name} line {at}");
        *opened += usize::from(answer == "opened");
        above += usize::from(answer == "refused 26 0");
    }
    assert_eq!((at_desk, on_board, above), (61, 65, 69));
}

/// An answer as the files of openings write it.
fn opened_words<C>(answer: Result<C, Refusal>) -> String {
    match answer {
        Ok(_) => "opened".into(),
        Err(refusal) => refusal_words(refusal),
    }
}

/// The files of calls, with how many rules, feeds, pulls and written words each has, and how many answers with 27.
const CALLS: [(&str, [usize; 5]); 4] = [
    ("calls.txt", [86, 2_812, 2_264, 0, 0]),
    ("points/01/calls.txt", [63, 1_723, 1_341, 0, 0]),
    ("points/02/calls.txt", [60, 1_994, 1_548, 0, 0]),
    ("points/11/strays.txt", [60, 1_955, 1_940, 658, 719]),
];

/// Each file of calls.
pub fn calls<C: Driven>() {
    for (name, counts) in CALLS {
        assert_eq!(calls_of::<C>(name), counts, "{name}");
    }
}

/// A file of calls: lists of feeds and pulls, each behind its rule, with words that somebody writes in between. The answer is how
/// many of each there are, and how many answers with 27.
fn calls_of<C: Driven>(name: &str) -> [usize; 5] {
    let mut checker: Option<C> = None;
    let [mut rules, mut feeds, mut pulls, mut written, mut strays] = [0; 5];
    for (at, line) in vector_lines(name) {
        let fields: Vec<&str> = line.split(' ').collect();
        let words = match fields[0] {
            "rule" => {
                rules += 1;
                let w: u32 = fields[2].parse().unwrap();
                let opened = C::open(&unhex(fields[1]), w, &vec![-1; 32 * w as usize]);
                checker = Some(opened.unwrap_or_else(|_| panic!("{name} line {at}")));
                continue;
            }
            "word" => {
                written += 1;
                let (word, value) = (fields[1].parse().unwrap(), fields[2].parse().unwrap());
                checker.as_mut().unwrap().write(word, value);
                continue;
            }
            "feed" => {
                feeds += 1;
                fed_words(checker.as_mut().unwrap().feed(&unhex(fields[1])))
            }
            "pull" => {
                pulls += 1;
                pull(checker.as_mut().unwrap(), fields[1].parse().unwrap())
            }
            other => panic!("{name} line {at}: {other}"),
        };
        assert_eq!(words, fields[2..].join(" "), "{name} line {at}");
        strays += usize::from(words == "refused 27 0");
    }
    [rules, feeds, pulls, written, strays]
}

/// points/08/converting.txt.
pub fn converting<C: Driven>() {
    let name = "points/08/converting.txt";
    let lines = vector_lines(name);
    assert_eq!(lines.len(), 400);
    let (mut raised, mut lowered) = (0, 0);
    for (at, line) in lines {
        let mut fields = line.splitn(3, ' ');
        let mut field = || fields.next().unwrap();
        let (way, bytes) = (field(), unhex(field()));
        let words = match way {
            "up" => converted_words(C::raise(&bytes), &mut raised),
            "down" => converted_words(C::lower(&bytes), &mut lowered),
            other => panic!("{name} line {at}: {other}"),
        };
        assert_eq!(words, field(), "{name} line {at}");
    }
    assert_eq!((raised, lowered), (145, 18));
}

/// An answer as the file of conversions writes it; a line is counted.
fn converted_words<const DIGITS: usize>(
    answer: Result<[u8; DIGITS], Refusal>,
    lines: &mut usize,
) -> String {
    match answer {
        Ok(line) => {
            *lines += 1;
            format!("line {}", hex(&line))
        }
        Err(refusal) => refusal_words(refusal),
    }
}

/// A case of points/13/tariff.txt.
pub struct Charge {
    /// Its line.
    pub at: usize,
    pub tariff: Tariff,
    pub violations: u32,
    /// The answer.
    pub words: String,
}

/// Every case of points/13/tariff.txt. Of five bands the fifth has no entry, and the number of bands is 5.
pub fn charges() -> Vec<Charge> {
    let lines = vector_lines("points/13/tariff.txt");
    assert_eq!(lines.len(), 301);
    lines
        .iter()
        .map(|(at, line)| {
            let mut fields = line.splitn(5, ' ');
            let mut field = || fields.next().unwrap();
            let bands = bands(field());
            let [beyond, surcharge, violations] = [0; 3].map(|_| field().parse().unwrap());
            Charge {
                at: *at,
                tariff: Tariff::of(&bands, beyond, surcharge),
                violations,
                words: field().to_string(),
            }
        })
        .collect()
}

/// Bands as that file writes them.
fn bands(words: &str) -> Vec<(u32, u32)> {
    let band = |words: &str| {
        let (last, price) = words.split_once(':').unwrap();
        (last.parse().unwrap(), price.parse().unwrap())
    };
    match words {
        "-" => Vec::new(),
        words => words.split(',').map(band).collect(),
    }
}

/// The cases of points/13/tariff.txt, each with a state of so many false verdicts. The file also has 1,010,000 of them.
/// A state with these has a p over 1,009,999, so where the tariff is taken the call refuses it with 12.
pub fn charging<C: Driven>() {
    let random = &mut Random::new(270_000_000);
    let [mut cents, mut impossible, mut refused] = [0; 3];
    for case in charges() {
        let state = with_failed(random, case.violations);
        let words = charged_words(C::forged(state, Vec::new()).charge(&case.tariff));
        let mut expected = &case.words[..];
        match expected.starts_with("cents") {
            true if case.violations > MOST_VERDICTS => {
                impossible += 1;
                expected = "refused 12 0";
            }
            true => cents += 1,
            false => refused += 1,
        }
        assert_eq!(words, expected, "points/13/tariff.txt line {}", case.at);
    }
    assert_eq!((cents, impossible, refused), (212, 13, 76));
}

/// An answer as the file of charges writes it.
pub fn charged_words(answer: Result<u64, Refusal>) -> String {
    match answer {
        Ok(cents) => format!("cents {cents}"),
        Err(refusal) => refusal_words(refusal),
    }
}

/// The answer of a pull with a buffer of some length, and the report; all other bytes of the buffer keep.
fn pull(checker: &mut impl Driven, length: usize) -> String {
    let mut report = vec![0xA5; length];
    let mut words = pulled_words(checker.pull(&mut report));
    if words == "false" {
        let filled = 6 + 5 * usize::from(report[5]);
        words = format!("false {}", hex(&report[..filled]));
        report.drain(..filled);
    }
    assert!(report.iter().all(|byte| *byte == 0xA5));
    words
}

/// An answer as the files of vectors write it.
fn fed_words(answer: Fed) -> String {
    match answer {
        Fed::Accepted => "accepted".into(),
        Fed::Ignored => "ignored".into(),
        Fed::Refused(refusal) => refusal_words(refusal),
    }
}

/// An answer as the files of vectors write it.
fn pulled_words(answer: Pulled) -> String {
    match answer {
        Pulled::Verdict(Truth::True) => "true".into(),
        Pulled::Verdict(Truth::False) => "false".into(),
        Pulled::Verdict(Truth::Unknown) => "unknown".into(),
        Pulled::Waiting => "waiting".into(),
        Pulled::Refused(refusal) => refusal_words(refusal),
    }
}

/// A refusal as the files of vectors write it.
fn refusal_words(refusal: Refusal) -> String {
    format!("refused {} {}", refusal.number, refusal.place)
}

/// The folders of cases of the bench program, with how many each has.
const BENCH: [(&str, usize); 3] = [
    ("bench", 40),
    ("points/01/bench", 16),
    ("points/02/bench", 16),
];

/// A case of the bench program.
pub struct Case {
    pub name: String,
    pub rule: Vec<u8>,
    pub log: Vec<u8>,
    pub stdout: String,
}

/// Every case of the bench program.
pub fn bench_cases() -> Vec<Case> {
    let of = |folder: &str, number: usize| {
        let name = format!("{folder}/{number:02}");
        let file = |file: &str| std::fs::read(vector(&name).join(file)).unwrap();
        Case {
            rule: file("rule.loc"),
            log: file("log"),
            stdout: String::from_utf8(file("stdout")).unwrap(),
            name,
        }
    };
    let all = BENCH.map(|(folder, cases)| (0..cases).map(|n| of(folder, n)).collect::<Vec<Case>>());
    all.into_iter().flatten().collect()
}
