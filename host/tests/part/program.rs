//! The bench program beside what the second checker prints.

use crate::shared::log::{line, random_line, random_old_line};
use crate::shared::random::{late_rule, rule, text, Made, Random};
use crate::shared::start::by_division;
use crate::shared::vectors::bench_cases;
use dillplatter_host::part::raise;
use dillplatter_second::frames::check;
use dillplatter_second::line::lines;
use dillplatter_second::{bench, bench_old, read};
use std::collections::BTreeSet;
use std::fs::File;
use std::io::{Seek, Write};
use std::ops::Range;
use std::os::fd::OwnedFd;
use std::os::unix::net::UnixDatagram;
use std::path::{Path, PathBuf};
use std::process::{Command, Stdio};

/// Bytes of the program's two buffers, for a read and for what is to be printed.
const BUFFER: usize = 65_536;

/// With more bytes than these waiting, the program writes them out before it puts a line behind them.
const ROOMY: usize = 65_200;

/// Bytes of a log line: its digits and the LF.
const LINE: usize = 35;

const RULE: &[u8] = b"events in out; notes t; t(out[i]) - t(in[i]) <= 25";

/// The program, which `tools/build` builds.
fn program() -> PathBuf {
    let program = Path::new(crate::TOP).join("target/bin/bench");
    assert!(
        program.is_file(),
        "target/bin/bench is missing: run `tools/build` at the top first"
    );
    program
}

/// A folder of a test's own, with a rule.
struct Room(PathBuf);

impl Room {
    fn new(name: &str) -> Room {
        let room = Path::new(env!("CARGO_TARGET_TMPDIR"))
            .join("part")
            .join(name);
        let _ = std::fs::remove_dir_all(&room);
        std::fs::create_dir_all(&room).unwrap();
        Room(room)
    }

    fn put(&self, name: &str, bytes: &[u8]) {
        std::fs::write(self.0.join(name), bytes).unwrap();
    }

    fn command(&self) -> Command {
        let mut command = Command::new(program());
        command.current_dir(&self.0).stdout(Stdio::piped());
        command
    }

    /// What the program prints, with some input.
    fn output(&self, input: Stdio) -> String {
        let child = self.command().stdin(input).spawn().unwrap();
        text_of(child.wait_with_output().unwrap().stdout)
    }

    /// What it prints for a rule and a log in a file.
    fn run(&self, rule: &[u8], log: &[u8]) -> String {
        self.put("rule.loc", rule);
        self.put("log", log);
        self.output(File::open(self.0.join("log")).unwrap().into())
    }

    /// The same with the log in pieces through a pipe.
    fn run_pipe(&self, rule: &[u8], pieces: &[&[u8]]) -> String {
        self.put("rule.loc", rule);
        let mut child = self.command().stdin(Stdio::piped()).spawn().unwrap();
        let mut input = child.stdin.take().unwrap();
        std::thread::scope(|scope| {
            scope.spawn(move || pieces.iter().all(|piece| input.write_all(piece).is_ok()));
            text_of(child.wait_with_output().unwrap().stdout)
        })
    }

    /// The same with one piece to a read: a read takes one datagram, and an empty one is the end.
    fn run_packets(&self, rule: &[u8], pieces: &[&[u8]]) -> String {
        self.put("rule.loc", rule);
        let (ours, theirs) = UnixDatagram::pair().unwrap();
        let child = self.command().stdin(OwnedFd::from(theirs)).spawn().unwrap();
        std::thread::scope(|scope| {
            scope.spawn(move || {
                let all = pieces.iter().all(|piece| ours.send(piece).is_ok());
                all && ours.send(b"").is_ok()
            });
            text_of(child.wait_with_output().unwrap().stdout)
        })
    }
}

fn text_of(bytes: Vec<u8>) -> String {
    String::from_utf8(bytes).unwrap()
}

/// Both print the same; a message says where they do not.
#[track_caller]
fn same(printed: &str, expected: &str, case: &str) {
    if printed != expected {
        let at = printed
            .lines()
            .zip(expected.lines())
            .position(|(a, b)| a != b);
        panic!("{case}: other from line {at:?} on");
    }
}

/// A random line, mostly of one of some events.
type LineOf = fn(&mut Random, &[usize]) -> Vec<u8>;

/// A maker of random rules.
type RuleOf = fn(&mut Random, usize) -> Made;

/// The text of a random rule that is read.
fn random_rule(random: &mut Random, rule: RuleOf) -> String {
    loop {
        let size = random.pick(&[1, 4, 10, 30, 60]);
        let tokens = rule(random, size).tokens;
        let text = text(random, &tokens).0;
        if read(text.as_bytes(), 512).is_ok() {
            return text;
        }
    }
}

/// A random log of some lines of one edition, the last with or without its LF.
fn random_log(random: &mut Random, lines: usize, line: LineOf) -> Vec<u8> {
    let mut log = Vec::new();
    for _ in 0..lines {
        log.extend(line(random, &[0, 0, 1, 1, 2, 3, 4, 5, 6, 7]));
        log.push(b'\n');
        if random.once_in(60) {
            log.push(b'\n');
        }
    }
    if random.once_in(2) {
        log.pop();
    }
    log
}

/// A log cut into pieces of 1 to 100 bytes.
fn pieces<'l>(random: &mut Random, mut log: &'l [u8]) -> Vec<&'l [u8]> {
    let mut pieces = Vec::new();
    let most = random.pick(&[1, 2, 35, 36, 100]);
    while !log.is_empty() {
        let (piece, rest) = log.split_at((1 + random.below(most)).min(log.len()));
        pieces.push(piece);
        log = rest;
    }
    pieces
}

/// Lines of two events in turn; every fifth pair is more than 25 apart.
fn even_log(lines: usize) -> Vec<u8> {
    let mut log = Vec::new();
    for k in 0..lines as i32 {
        let apart = if k % 10 == 9 { 26 } else { 25 };
        log.extend(line((k % 2) as u8, [k / 2 * 10 + k % 2 * apart, 0, 0, 0]));
        log.push(b'\n');
    }
    log
}

#[test]
fn stored_cases() {
    let room = Room::new("stored");
    for (seed, case) in (70_000_000..).zip(bench_cases()) {
        let pieces = pieces(&mut Random::new(seed), &case.log);
        for (how, printed) in [
            ("whole", room.run(&case.rule, &case.log)),
            ("pipe", room.run_pipe(&case.rule, &pieces)),
            ("packets", room.run_packets(&case.rule, &pieces)),
        ] {
            same(&printed, &case.stdout, &format!("{}, {how}", case.name));
        }
    }
}

/// Random rules on random logs, each beside the second checker: the rules with what was printed, more than 1,000 lines.
fn random_runs(name: &str, seeds: Range<u64>, rule: RuleOf) -> Vec<(String, String)> {
    let room = Room::new(name);
    let runs: Vec<(String, String)> = seeds
        .map(|seed| {
            let random = &mut Random::new(seed);
            let rule = random_rule(random, rule);
            let lines = random.pick(&[0, 1, 2, 20, 200, 2_000]);
            let log = random_log(random, lines, random_line);
            let printed = room.run(rule.as_bytes(), &log);
            let expected = bench(rule.as_bytes(), &log);
            same(&printed, &expected, &format!("seed {seed}"));
            (rule, printed)
        })
        .collect();
    let lines: usize = runs
        .iter()
        .map(|(_, printed)| printed.lines().count())
        .sum();
    assert!(lines > 1_000, "{lines}");
    runs
}

#[test]
fn random_logs() {
    random_runs("random", 80_000_000..80_000_200, rule);
}

/// The start of a rule's text.
fn start(rule: &str) -> u32 {
    let frames = read(rule.as_bytes(), 512).expect("the text is read");
    by_division(&check(&frames).expect("the frames open").references)
}

/// The instance of a printed report.
fn instance(report: &str) -> u32 {
    u32::from_str_radix(&report[..8], 16).expect("it begins with its instance")
}

/// The totals of true, false and unknown verdicts in the last line that is printed.
fn totals(printed: &str) -> [u32; 3] {
    let last = printed.lines().last().expect("it has a line");
    [0, 8, 16].map(|at| u32::from_str_radix(&last[at..at + 8], 16).expect("it is a number"))
}

#[test]
fn random_logs_of_rules_that_start_late() {
    let runs = random_runs("late", 390_000_000..390_000_200, late_rule);
    let is_late = |(rule, printed): &&(String, String)| {
        start(rule) > 0 && totals(printed).iter().sum::<u32>() > 0
    };
    let late = runs.iter().filter(is_late).count();
    assert!(late > 90, "{late}");
}

#[test]
fn reports_are_those_of_the_start_and_of_each_instance_after_it() {
    let room = Room::new("each");
    let (mut rules, mut late) = (0, 0);
    for seed in 0..150 {
        let random = &mut Random::new(seed + 410_000_000);
        let rule = random_rule(random, late_rule);
        // No verdict is true or unknown.
        let (head, condition) = rule.rsplit_once(';').expect("a rule has two semicolons");
        let rule = format!("{head}; i < 0 && {{{condition}}}");
        if read(rule.as_bytes(), 512).is_err() {
            continue;
        }
        let log = random_log(random, 200, random_line);
        let printed = room.run(rule.as_bytes(), &log);
        let mut lines: Vec<&str> = printed.lines().collect();
        lines.pop();
        let start = start(&rule);
        let reports: Vec<u32> = lines.into_iter().map(instance).collect();
        let count = reports.len() as u32;
        let expected: Vec<u32> = (start..start + count).collect();
        assert_eq!(reports, expected, "seed {seed}");
        assert_eq!(totals(&printed), [0, count, 0], "seed {seed}");
        rules += usize::from(count > 0);
        late += usize::from(count > 0 && start > 0);
    }
    assert!(rules > 100 && late > 90, "{rules} {late}");
}

/// The raised lines of an old log; a refused one becomes an empty line.
fn raised_log(old_log: &[u8]) -> Vec<u8> {
    let mut log = Vec::new();
    for old in lines(old_log) {
        if let Ok(line) = raise(old) {
            log.extend(line);
        }
        log.push(b'\n');
    }
    log
}

#[test]
fn raised_logs_of_the_earlier_edition() {
    let room = Room::new("raised");
    let mut printed_lines = 0;
    for seed in 0..150 {
        let random = &mut Random::new(seed + 200_000_000);
        let rule = random_rule(random, rule);
        let lines = random.pick(&[0, 1, 2, 20, 200, 2_000]);
        let old_log = random_log(random, lines, random_old_line);
        let printed = room.run(rule.as_bytes(), &raised_log(&old_log));
        same(
            &printed,
            &bench_old(rule.as_bytes(), &old_log),
            &format!("seed {seed}"),
        );
        printed_lines += printed.lines().count();
    }
    assert!(printed_lines > 1_000, "{printed_lines}");
}

#[test]
fn logs_in_pieces() {
    let room = Room::new("pieces");
    for seed in 0..80 {
        let random = &mut Random::new(seed + 90_000_000);
        let rule = random_rule(random, rule);
        let log = random_log(random, 150, random_line);
        let pieces = pieces(random, &log);
        let expected = bench(rule.as_bytes(), &log);
        let printed = room.run_pipe(rule.as_bytes(), &pieces);
        same(&printed, &expected, &format!("seed {seed}, pipe"));
        let printed = room.run_packets(rule.as_bytes(), &pieces);
        same(&printed, &expected, &format!("seed {seed}, packets"));
    }
}

#[test]
fn a_cut_at_every_place() {
    let room = Room::new("places");
    // One read takes the log up to the cut, the next one the rest.
    let log = even_log(4);
    let expected = bench(RULE, &log);
    for first in 1..log.len() {
        let (one, two) = log.split_at(first);
        same(
            &room.run_packets(RULE, &[one, two]),
            &expected,
            &format!("cut at {first}"),
        );
        for second in [1, 17, 34, 35, 36, 70] {
            let (middle, last) = two.split_at(second.min(two.len() - 1));
            if middle.is_empty() {
                continue;
            }
            let printed = room.run_packets(RULE, &[one, middle, last]);
            same(
                &printed,
                &expected,
                &format!("cut at {first} and {second} more"),
            );
        }
    }
}

/// A rule that is false at every instance, and whose report has all notes of two lines.
const ALL_NOTES: &[u8] = b"events in out; notes t u v w; \
    abs(t(in[i])) + abs(u(in[i])) + abs(v(in[i])) + abs(w(in[i])) \
    + abs(t(out[i])) + abs(u(out[i])) + abs(v(out[i])) + abs(w(out[i])) < 0";

/// Lines of two events in turn, with random digits.
fn noted_log(lines: usize) -> Vec<u8> {
    let random = &mut Random::new(210_000_000);
    let mut log = Vec::new();
    for k in 0..lines {
        let notes = [0; 4].map(|_: i32| random.below(1 << 32) as u32 as i32);
        log.extend(line((k % 2) as u8, notes));
        log.push(b'\n');
    }
    log
}

#[test]
fn a_line_cut_by_the_buffers_end_at_each_of_its_35_places() {
    let room = Room::new("cut");
    let pairs = BUFFER / LINE + 10;
    let lines = noted_log(2 * pairs);
    let mut last_bytes = [BTreeSet::new(), BTreeSet::new()];
    // A first line, which is refused, moves the others past the ends of two buffers.
    for length in 0..LINE {
        let log = [&vec![b'x'; length], b"\n".as_slice(), &lines].concat();
        for (end, seen) in [BUFFER, 2 * BUFFER].into_iter().zip(&mut last_bytes) {
            let place = (end - 1 - (length + 1)) % LINE;
            assert_eq!(log[end - 1] == b'\n', place == LINE - 1);
            seen.insert(place);
        }
        let printed = room.run(ALL_NOTES, &log);
        same(&printed, &bench(ALL_NOTES, &log), &format!("{length}"));
        assert_eq!(printed.lines().count(), pairs + 1);
    }
    let places: BTreeSet<usize> = (0..LINE).collect();
    assert_eq!(last_bytes, [places.clone(), places]);
}

#[test]
fn logs_that_end_near_the_buffers_end() {
    let room = Room::new("borders");
    let log = even_log(2 * BUFFER / LINE + 10);
    for length in (BUFFER - 37..=BUFFER + 37).chain(2 * BUFFER - 2..=2 * BUFFER + 2) {
        let printed = room.run(RULE, &log[..length]);
        same(
            &printed,
            &bench(RULE, &log[..length]),
            &format!("{length} bytes"),
        );
    }
}

#[test]
fn long_lines() {
    let room = Room::new("long");
    let near = |k: usize| {
        [
            k * BUFFER - 36,
            k * BUFFER - 35,
            k * BUFFER - 34,
            k * BUFFER - 1,
            k * BUFFER,
            k * BUFFER + 1,
        ]
    };
    let lengths = [
        near(1).as_slice(),
        &near(2),
        &near(3),
        &[35, 36, 69, 70, 200_000],
    ]
    .concat();
    for length in lengths {
        for byte in [b'0', b'x'] {
            let long = [vec![byte; length], vec![b'\n']].concat();
            let log = [even_log(3), long.clone(), even_log(7), long].concat();
            same(
                &room.run(RULE, &log),
                &bench(RULE, &log),
                &format!("{length} bytes"),
            );
            let end = &log[..log.len() - 1];
            same(
                &room.run(RULE, end),
                &bench(RULE, end),
                &format!("{length} bytes, no LF"),
            );
        }
    }
}

#[test]
fn more_output_than_the_buffer() {
    let room = Room::new("outputs");
    let mut lengths = BTreeSet::new();
    for references in [1, 2, 3, 5, 15, 31, 32] {
        // No note is negative, so each pair of lines makes a report with so many references.
        let half = references / 2;
        let left = vec!["t(out[i])"; references - half].join("+");
        let right = vec!["t(out[i])"; half].join("+");
        let right = if half == 0 { "0" } else { &right };
        let rule = format!("events in out; notes t; {left} < {right}");
        let report = 2 * (6 + 5 * references) + 1;
        // As many reports as can wait when the totals come, some fewer and more, and three buffers full.
        let most = ROOMY / report;
        for reports in (most - 1..most + 4).chain([3 * BUFFER / report + 1]) {
            let log = even_log(2 * reports);
            let printed = room.run(rule.as_bytes(), &log);
            same(
                &printed,
                &bench(rule.as_bytes(), &log),
                &format!("{reports} reports of {references} references"),
            );
            assert_eq!(printed.len(), reports * report + 49);
            lengths.insert(reports * report);
        }
        assert!(lengths.last() > Some(&(3 * BUFFER)));
    }
    // The totals were put right where they still have room, and where they have not.
    let near = lengths.range(ROOMY..=BUFFER);
    assert!(near.clone().next() == Some(&ROOMY) && near.count() > 1);
}

/// A rule of which one line of `out` settles 64 instances for each reference to `in`. Instance 0 waits for that line, and
/// every other is false as soon as one reference is present. 64 lines of `in`, which come before, are the occurrences of each
/// reference in turn.
fn kept_back(references: usize) -> String {
    let reference = |k| format!("t(in[i-{}])", 64 * k);
    let sum: Vec<String> = (0..references).map(reference).collect();
    let sum = sum.join("+");
    format!("events in out; notes t; i = 0 && t(out[i]) < 0 && {sum} > 0")
}

#[test]
fn more_output_than_the_buffer_from_one_line() {
    let room = Room::new("outputs-one");
    let mut lengths = BTreeSet::new();
    for references in 1..=27 {
        let rule = kept_back(references);
        let before: Vec<u8> = (0..64)
            .flat_map(|k| [line(0, [1 + k; 4]), vec![b'\n']].concat())
            .collect();
        let one = line(1, [0; 4]);
        let after = [b"\n", &line(2, [0; 4])[..]].concat();
        let printed = room.run(rule.as_bytes(), &before);
        assert_eq!(printed, format!("{:024X}{:08X}{:016X}\n", 0, 64, 0));
        for log in [
            [&before[..], &one].concat(),
            [&before[..], &one, &after].concat(),
        ] {
            let printed = room.run(rule.as_bytes(), &log);
            let case = format!("{references} references");
            same(&printed, &bench(rule.as_bytes(), &log), &case);
            let reports = 64 * references;
            assert_eq!(printed.lines().count(), reports + 1, "{case}");
            assert_eq!(totals(&printed), [0, reports as u32, 0], "{case}");
            lengths.insert(printed.len() - 49);
        }
    }
    // The shortest fits in the buffer, and the longest fills it seven times.
    assert!(lengths.first() < Some(&ROOMY) && lengths.last() > Some(&(7 * BUFFER)));
}

#[test]
fn no_verdict_before_the_first_line() {
    let room = Room::new("empty");
    let nothing = format!("{:048X}\n", 0);
    // False, true and unknown where all is void.
    for condition in ["&& i < 0", "|| i = 1", "&& i >= 0", ""] {
        for offset in ["", "-1", "-3", "-9999", "+9999"] {
            let rule = format!("events a; notes t; t(a[i{offset}]) > 0 {condition}");
            let printed = room.run(rule.as_bytes(), b"");
            assert_eq!(printed, nothing, "{rule}");
            same(&printed, &bench(rule.as_bytes(), b""), &rule);
            // Nor before the first that is accepted: two are ignored, and two are refused.
            let log = [&line(1, [0; 4])[..], b"\n\n", &line(9, [0; 4]), b"\n0"].concat();
            let printed = room.run(rule.as_bytes(), &log);
            let expected = format!("{:024X}{:08X}{:08X}{:08X}\n", 0, 0, 2, 2);
            assert_eq!(printed, expected, "{rule}");
            same(&printed, &bench(rule.as_bytes(), &log), &rule);
        }
    }
    for seed in 0..100 {
        let random = &mut Random::new(seed + 400_000_000);
        let rule = random_rule(random, late_rule);
        assert_eq!(room.run(rule.as_bytes(), b""), nothing, "{rule}");
    }
}

#[test]
fn totals_and_reports_from_the_start_on() {
    let room = Room::new("start");
    for (condition, expected) in [
        // Instances 3 to 5 have a[1], a[3], a[5]; then 2 to 7 the six lines in turn.
        (
            "t(a[2*i-5]) > 0",
            "00000004000100FFFFFFFF\n0000000200000001",
        ),
        (
            "t(a[i-2]) > 0",
            "00000002000100FFFFFFFF\n00000005000100FFFFFFFF\n0000000400000002",
        ),
    ] {
        let rule = format!("events a; notes t; {condition}");
        let log: Vec<u8> = [-1, 1, 9, -1, 9, 1]
            .into_iter()
            .flat_map(|note| [line(0, [note, 0, 0, 0]), vec![b'\n']].concat())
            .collect();
        let printed = room.run(rule.as_bytes(), &log);
        let expected = format!("{expected}{:08X}{:08X}{:016X}\n", 0, 6, 0);
        assert_eq!(printed, expected, "{rule}");
        same(&printed, &bench(rule.as_bytes(), &log), &rule);
    }
}

#[test]
fn a_last_line_without_lf() {
    let room = Room::new("last");
    // The last line makes the only report.
    let log = even_log(10);
    let (lacks, shorter) = (&log[..log.len() - 1], &log[..log.len() - LINE]);
    let printed = room.run(RULE, lacks);
    same(&printed, &bench(RULE, lacks), "no LF");
    assert_eq!(printed, room.run(RULE, &log));
    assert_eq!(printed.lines().count(), 2);
    assert_eq!(room.run(RULE, shorter).lines().count(), 1);
    // It comes in one read, and in two.
    for cut in [log.len() - LINE, log.len() - LINE + 1, log.len() - 2] {
        let (one, two) = lacks.split_at(cut);
        assert_eq!(room.run_packets(RULE, &[one, two]), printed, "{cut}");
    }
    // A last line of one byte, which is refused, and none after an LF.
    for (log, refused) in [(b"0".as_slice(), 1), (b"\n", 1), (b"\n0", 2), (b"", 0)] {
        let printed = room.run(RULE, log);
        same(&printed, &bench(RULE, log), &log.escape_ascii().to_string());
        assert_eq!(printed, format!("{refused:048X}\n"));
    }
}

/// What is tried above at the buffers' ends is tried there: the sizes are the program's.
#[test]
fn the_buffers_are_the_programs() {
    for (file, text) in [
        ("chunks.rt", format!("let mut buf = [0; {BUFFER}];")),
        ("output.rt", format!("bytes: &'a mut [u8; {BUFFER}],")),
        ("output.rt", format!("const ROOMY: usize = {ROOMY};")),
    ] {
        let path = Path::new(crate::TOP).join("crates/bench/src").join(file);
        assert!(std::fs::read_to_string(path).unwrap().contains(&text));
    }
}

#[test]
fn refused_rules() {
    let room = Room::new("refused");
    let padded = |length: usize| [RULE, &vec![b' '; length - RULE.len()]].concat();
    let texts: [&[u8]; 12] = [
        b"",
        b" ",
        b"events",
        b"events a; notes t; t(b[i]) > 0",
        b"events a; notes t; t(a[10*i]) > 0",
        b"events a; notes t; !!!!!!!!!!!!!!!!!t(a[i]) > 0",
        b"events a; notes t; 1 = 1",
        b"events a; notes t; t(a[i]) * t(a[i]) + 1 > 0",
        &[b'\n'; 1_024],
        &padded(1_024),
        &padded(1_025),
        &padded(5_000),
    ];
    let log = even_log(4);
    for text in texts {
        let printed = room.run(text, &log);
        same(
            &printed,
            &bench(text, &log),
            &text.escape_ascii().to_string(),
        );
        assert_eq!(printed.starts_with("EE"), read(text, 512).is_err());
        // No log is read for a refused rule: the file's position, which both share, stays.
        let mut file = File::open(room.0.join("log")).unwrap();
        room.output(file.try_clone().unwrap().into());
        let read_on = file.stream_position().unwrap() > 0;
        assert_eq!(read_on, !printed.starts_with("EE"));
    }
}

#[test]
fn rule_files_that_cannot_be_read() {
    let room = Room::new("no-rule");
    assert_eq!(room.output(Stdio::null()), "EE020000\n");
    std::fs::create_dir(room.0.join("rule.loc")).unwrap();
    assert_eq!(room.output(Stdio::null()), "EE020000\n");
}

#[test]
fn input_that_is_closed() {
    let room = Room::new("closed");
    room.put("rule.loc", RULE);
    let expected = bench(RULE, b"");
    assert_eq!(room.output(Stdio::null()), expected);
    let closed = Command::new("sh")
        .args(["-c", "exec \"$0\" <&-"])
        .arg(program())
        .current_dir(&room.0)
        .output()
        .unwrap();
    assert_eq!(text_of(closed.stdout), expected);
    // A folder as input is a read error, which ends the log.
    assert_eq!(room.output(File::open(&room.0).unwrap().into()), expected);
}
