//! The ways to check a log: the library, the bench program, the second checker by its machine, which trusts what it
//! holds, and by states handed in, which it checks at each call as the library does, and awk.

use crate::clock;
use crate::rules::Kind;
use dillplatter_host::part::{self, Checker};
use dillplatter_second::{self as second, Fed, Pulled};
use std::fs::File;
use std::hint::black_box;
use std::io::Write;
use std::path::{Path, PathBuf};
use std::process::{Child, Command, Stdio};
use std::time::Duration;

pub const WAYS: [&str; 5] = ["library", "bench", "second", "second, by states", "awk"];

/// W of the bench program, and of all runs.
const W: u32 = 64;

/// What a run found: true, false, unknown, accepted.
pub type Found = [u32; 4];

/// The lines of a log that ends with LF.
fn lines(log: &[u8]) -> impl Iterator<Item = &[u8]> {
    log.split(|byte| *byte == b'\n')
        .take_while(|line| !line.is_empty())
}

/// Feeds a checker line by line, and pulls until it waits, before the first line and after each. The closures say
/// whether a feed accepted and whether a pull waits; the answer is how many lines were accepted.
fn drive<C>(
    checker: &mut C,
    log: &[u8],
    accepts: impl Fn(&mut C, &[u8]) -> bool,
    waits: impl Fn(&mut C, &mut [u8]) -> bool,
) -> u32 {
    let mut report = [0; part::REPORT_BYTES];
    let mut accepted = 0;
    let mut pull_all = |checker: &mut C| {
        while !waits(checker, &mut report) {}
        black_box(&report);
    };
    pull_all(checker);
    for line in lines(log) {
        accepted += u32::from(accepts(checker, line));
        pull_all(checker);
    }
    accepted
}

/// The library.
pub fn library(frames: &[u8], log: &[u8]) -> Found {
    let mut checker = Checker::open(frames, W).expect("the frames open");
    let accepted = drive(
        &mut checker,
        log,
        |checker, line| checker.feed(line) == part::Fed::Accepted,
        |checker, report| checker.pull(report) == part::Pulled::Waiting,
    );
    let totals = checker.state().totals;
    [totals.held, totals.failed, totals.unknown, accepted]
}

/// The second checker.
pub fn second(frames: &[u8], log: &[u8]) -> Found {
    let mut machine = second::open(frames, W, 32 * W as usize).expect("the frames open");
    let accepted = drive(
        &mut machine,
        log,
        |machine, line| machine.feed(line) == Fed::Accepted,
        |machine, report| machine.pull(report) == Pulled::Waiting,
    );
    let totals = machine.totals();
    [totals.held, totals.failed, totals.unknown, accepted]
}

/// The second checker with a state and a window handed in at each call.
pub fn states(frames: &[u8], log: &[u8]) -> Found {
    let mut window = vec![0; 32 * W as usize];
    let state = second::State::open(frames, W, &mut window).expect("the frames open");
    let mut held = (state, window);
    let accepted = drive(
        &mut held,
        log,
        |(state, window), line| state.feed(window, line) == Fed::Accepted,
        |(state, window), report| state.pull(window, report) == Pulled::Waiting,
    );
    let totals = held.0.totals;
    [totals.held, totals.failed, totals.unknown, accepted]
}

/// A folder with rule, script and logs.
pub struct Room(pub PathBuf);

impl Room {
    pub fn new() -> Room {
        let room = std::env::temp_dir().join(format!("dillplatter-compare-{}", std::process::id()));
        std::fs::create_dir_all(&room).expect("a folder for the logs");
        Room(room)
    }

    pub fn put(&self, name: &str, bytes: &[u8]) {
        std::fs::write(self.0.join(name), bytes).expect("room for the logs");
    }

    /// Puts the rule and its script where the programs look for them.
    pub fn put_rule(&self, kind: &Kind) {
        self.put("rule.loc", kind.text.as_bytes());
        self.put("rule.awk", crate::awk::script(&kind.rule()).as_bytes());
    }

    /// What a program printed last.
    pub fn printed(&self) -> Vec<u8> {
        std::fs::read(self.0.join("out")).expect("the program's output")
    }

    /// A command of a program's words.
    pub fn command(&self, words: &[String]) -> Command {
        let mut command = Command::new(&words[0]);
        command.args(&words[1..]).current_dir(&self.0);
        command
    }

    /// The processor time of a program with a log in a file.
    pub fn time(&self, words: &[String], log: &str) -> Duration {
        let input = File::open(self.0.join(log)).expect("the log");
        let output = File::create(self.0.join("out")).expect("room for the output");
        let mut command = self.command(words);
        command.stdin(input).stdout(output);
        let began = clock::children();
        let status = command.status().expect("the program runs");
        let time = clock::children() - began;
        assert!(status.success(), "{words:?}");
        time
    }

    /// The most memory in KiB that a program held, up to where it waits for more of the log.
    pub fn memory(&self, words: &[String], log: &[u8]) -> Option<u64> {
        let mut command = self.command(words);
        let mut child = command
            .stdin(Stdio::piped())
            .stdout(Stdio::null())
            .spawn()
            .expect("the program runs");
        let mut input = child.stdin.take().expect("a pipe");
        input.write_all(log).expect("the program reads its log");
        let most = high_water(&child);
        drop(input);
        child.wait().expect("the program ends");
        most
    }
}

impl Drop for Room {
    fn drop(&mut self) {
        let _ = std::fs::remove_dir_all(&self.0);
    }
}

fn high_water(child: &Child) -> Option<u64> {
    let status = std::fs::read_to_string(format!("/proc/{}/status", child.id())).ok()?;
    let line = status.lines().find(|line| line.starts_with("VmHWM:"))?;
    line.split_whitespace().nth(1)?.parse().ok()
}

/// The bench program, which `tools/build` builds.
pub fn bench() -> Vec<String> {
    let top = Path::new(env!("CARGO_MANIFEST_DIR")).join("..");
    let program = top.join("target").join("bin").join("bench");
    assert!(
        program.is_file(),
        "target/bin/bench is missing: run `tools/build` at the top first"
    );
    vec![program
        .canonicalize()
        .expect("a path")
        .display()
        .to_string()]
}

/// The awk script of the rule.
pub fn awk() -> Vec<String> {
    ["awk", "-f", "rule.awk"].map(String::from).to_vec()
}
