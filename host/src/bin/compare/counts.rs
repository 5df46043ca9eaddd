//! Instructions by callgrind, which no other load on the machine changes.

use crate::rules::{kinds, Kind};
use crate::ways::{self, Room};
use crate::{awk, logs};
use dillplatter_host::part::{Fed, Pulled, State};
use dillplatter_second as second;
use std::hint::black_box;
use std::io::Read;
use std::process::{Command, Stdio};

/// Lines of the shorter and the longer log.
const LINES: [usize; 2] = [10_000, 20_000];
/// Calls of the shorter and the longer run.
const CALLS: [usize; 2] = [1_000, 2_000];
/// The W of one feed and one pull, and those that are compared: a call looks at every word of the window.
const W: u32 = 64;
pub const WIDTHS: [u32; 3] = [1, W, 256];

/// What one kind of rule costs.
pub struct Counts {
    /// Instructions a line, one for each way.
    pub lines: Vec<u64>,
    /// Instructions of one feed and one pull.
    pub calls: Vec<u64>,
}

/// Whether callgrind is at hand.
pub fn at_hand() -> bool {
    let version = Command::new("valgrind")
        .arg("--version")
        .stdout(Stdio::null())
        .status();
    version.is_ok_and(|status| status.success())
}

/// The words that run this program under callgrind.
fn own(what: &str, kind: &Kind, times: usize, w: u32) -> Vec<String> {
    let program = std::env::current_exe().expect("a path");
    let words = [program.display().to_string(), "steps".into(), what.into()];
    let numbers = [kind.name.into(), times.to_string(), w.to_string()];
    [words, numbers].concat()
}

/// Counts for one kind of rule; the difference of two runs leaves out what is done once.
pub fn count(room: &Room, kind: &Kind) -> Counts {
    room.put_rule(kind);
    let whole = |words: &dyn Fn(usize) -> Vec<String>| {
        let of = |lines| collected(room, &words(lines), &logs::name(lines));
        (of(LINES[1]) - of(LINES[0])) / (LINES[1] - LINES[0]) as u64
    };
    for lines in LINES {
        room.put(&logs::name(lines), &logs::make(lines));
    }
    let lines = vec![
        whole(&|lines| own("library", kind, lines, W)),
        whole(&|_| ways::bench()),
        whole(&|lines| own("second", kind, lines, W)),
        whole(&|lines| own("states", kind, lines, W)),
        whole(&|_| ways::awk()),
    ];
    let calls = calls(room, kind, W).to_vec();
    Counts { lines, calls }
}

/// Instructions of one feed and of one pull of the library, with some W.
pub fn calls(room: &Room, kind: &Kind, w: u32) -> [u64; 2] {
    room.put("nothing", b"");
    ["feed", "pull"].map(|what| {
        let of = |times| collected(room, &own(what, kind, times, w), "nothing");
        (of(CALLS[1]) - of(CALLS[0])) / (CALLS[1] - CALLS[0]) as u64
    })
}

/// The instructions of a program with a log in a file.
fn collected(room: &Room, words: &[String], log: &str) -> u64 {
    let tool = [
        "valgrind",
        "--tool=callgrind",
        "--callgrind-out-file=/dev/null",
    ]
    .map(String::from);
    let mut command = room.command(&[tool.to_vec(), words.to_vec()].concat());
    let input = std::fs::File::open(room.0.join(log)).expect("the log");
    let output = command.stdin(input).output().expect("valgrind runs");
    let told = String::from_utf8_lossy(&output.stderr).into_owned();
    let line = told.lines().find(|line| line.contains("Collected :"));
    let number = line.and_then(|line| line.split_whitespace().last()?.parse().ok());
    number.unwrap_or_else(|| panic!("callgrind counted nothing: {told}"))
}

/// What a run under callgrind does: `steps WHAT KIND TIMES [W]`. A whole log comes on standard input, and its W is always 64;
/// `awk` and `log` print the script of a rule and a log of so many lines.
pub fn steps(words: &[String]) {
    let [what, name, times, w @ ..] = words else {
        panic!("steps WHAT KIND TIMES [W]");
    };
    let w = w.first().map_or(W, |w| w.parse().expect("a number"));
    let all = kinds();
    let kind = all
        .iter()
        .find(|kind| kind.name == name)
        .expect("a kind of rule");
    let times: usize = times.parse().expect("a number");
    let frames = kind.frames();
    match what.as_str() {
        "library" => _ = black_box(ways::library(&frames, &input())),
        "second" => _ = black_box(ways::second(&frames, &input())),
        "states" => _ = black_box(ways::states(&frames, &input())),
        "feed" => feed(&frames, w, times),
        "pull" => pull(&frames, w, times),
        "awk" => print!("{}", awk::script(&kind.rule())),
        "log" => print!("{}", String::from_utf8_lossy(&logs::make(times))),
        other => panic!("no step {other}"),
    }
}

/// The log on standard input.
fn input() -> Vec<u8> {
    let mut log = Vec::new();
    std::io::stdin().read_to_end(&mut log).expect("the log");
    log
}

/// A state in the middle of a log with its window: the next line is accepted, or the next instance is settled.
fn middle(frames: &[u8], w: u32, settled: bool) -> (State, Vec<i32>, Vec<u8>) {
    let log = logs::make(1_000);
    let mut window = vec![0; 32 * w as usize];
    let (mut state, opened) = State::open(frames, w, &mut window);
    opened.expect("the frames open");
    for line in log.chunks(35).map(|line| &line[..34]) {
        let before = (state, window.clone());
        let accepted = state.feed(&mut window, line) == Fed::Accepted;
        if accepted && !settled && before.0.next > 300 {
            return (before.0, before.1, line.to_vec());
        }
        loop {
            let before = state;
            if state.pull(&window, &mut [0; 166]) != Pulled::True {
                break;
            }
            if settled && before.next > 300 {
                return (before, window, Vec::new());
            }
        }
    }
    panic!("no such state");
}

/// A line of the same event that has the notes which stand where it goes, so that feeding it leaves the window as it was.
fn in_place(state: &State, window: &[i32], line: &[u8]) -> Vec<u8> {
    let event = usize::from(line[1] - b'0');
    let (w, count) = (state.width as usize, state.counts[event] as usize);
    let notes = &window[(event * w + count % w) * 4..][..4];
    let digits = notes.iter().map(|note| format!("{note:08X}"));
    format!("{event:02X}{}", digits.collect::<String>()).into_bytes()
}

/// The same feed again and again.
fn feed(frames: &[u8], w: u32, times: usize) {
    let (state, mut window, line) = middle(frames, w, false);
    let line = in_place(&state, &window, &line);
    for _ in 0..times {
        let mut state = black_box(state);
        assert_eq!(state.feed(&mut window, &line), Fed::Accepted);
    }
}

/// The same pull again and again.
fn pull(frames: &[u8], w: u32, times: usize) {
    let (state, window, _) = middle(frames, w, true);
    for _ in 0..times {
        let mut state = black_box(state);
        assert_eq!(state.pull(&window, &mut [0; 166]), Pulled::True);
    }
}

/// That awk, the bench program and the second checker print the same for a kind of rule, in whichever case the log is.
pub fn agree(room: &Room, kind: &Kind) {
    let log = logs::make(LINES[0]);
    room.put_rule(kind);
    let expected = second::bench(kind.text.as_bytes(), &log).into_bytes();
    for log in [log.to_ascii_lowercase(), log] {
        room.put(&logs::name(LINES[0]), &log);
        for words in [ways::bench(), ways::awk()] {
            room.time(&words, &logs::name(LINES[0]));
            assert!(
                room.printed() == expected,
                "{words:?} prints other lines for {}",
                kind.name
            );
        }
    }
}
