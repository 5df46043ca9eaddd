//! The benchmark: lines a second of the library, the bench program, the second checker and awk, on the same rules and
//! logs. It prints the tables of docs/PERFORMANCE.md.
//!
//!     cargo run --offline --release --manifest-path host/Cargo.toml --bin compare
//!
//! With the word `quick` the logs are a tenth as long. With the word `widths` it prints the last table alone.

mod awk;
mod clock;
mod counts;
mod logs;
mod rules;
mod ways;

use rules::{kinds, Kind};
use std::time::Duration;
use ways::{Found, Room, WAYS};

/// Lines of the logs.
const LINES: [usize; 3] = [100_000, 1_000_000, 2_000_000];
/// How often each way runs, and awk, which is the slowest; the best time counts.
const ROUNDS: usize = 3;
const AWK_ROUNDS: usize = 2;

/// The best time of each way, for each log.
type Best = Vec<[Duration; WAYS.len()]>;

fn main() {
    let words: Vec<String> = std::env::args().skip(1).collect();
    if words.first().is_some_and(|word| word == "steps") {
        return counts::steps(&words[1..]);
    }
    if words == ["widths"] {
        return print_widths(&Room::new());
    }
    let shorter = if words == ["quick"] { 10 } else { 1 };
    let sizes = LINES.map(|lines| lines / shorter);
    let room = Room::new();
    let logs = sizes.map(logs::make);
    for (lines, log) in sizes.iter().zip(&logs) {
        room.put(&logs::name(*lines), log);
    }
    let all: Vec<(Kind, Best)> = kinds()
        .into_iter()
        .map(|kind| {
            counts::agree(&room, &kind);
            let best = measure(&room, &kind, &sizes, &logs);
            (kind, best)
        })
        .collect();
    print_speed(&all, sizes[1]);
    print_growth(&all, &sizes);
    print_memory(&room, &all, &sizes, &logs);
    print_counts(&room, &all);
    print_widths(&room);
}

/// Runs all ways in turn, round by round.
fn measure(room: &Room, kind: &Kind, sizes: &[usize; 3], logs: &[Vec<u8>; 3]) -> Best {
    room.put_rule(kind);
    let frames = kind.frames();
    let mut best = vec![[Duration::MAX; WAYS.len()]; sizes.len()];
    for round in 0..ROUNDS {
        for (log, (lines, best)) in logs.iter().zip(sizes.iter().zip(&mut best)) {
            eprintln!("{}, round {}, {lines} lines", kind.name, round + 1);
            let (library, found) = timed(|| ways::library(&frames, log));
            let bench = room.time(&ways::bench(), &logs::name(*lines));
            let printed = room.printed();
            let (second, expected) = timed(|| ways::second(&frames, log));
            let (states, also) = timed(|| ways::states(&frames, log));
            assert_eq!((found, found), (expected, also));
            let mut awk = Duration::MAX;
            if round < AWK_ROUNDS {
                awk = room.time(&ways::awk(), &logs::name(*lines));
                assert!(room.printed() == printed, "awk prints other lines");
            }
            for (best, time) in best.iter_mut().zip([library, bench, second, states, awk]) {
                *best = time.min(*best);
            }
        }
    }
    best
}

fn timed(run: impl FnOnce() -> Found) -> (Duration, Found) {
    let began = clock::own();
    let found = run();
    (clock::own() - began, found)
}

fn heading(title: &str, columns: &[String]) {
    heading_by("Rule", title, columns);
}

fn heading_by(first: &str, title: &str, columns: &[String]) {
    println!("\n{title}\n\n| {first} | {} |", columns.join(" | "));
    println!("|---|{}", "---|".repeat(columns.len()));
}

fn print_speed(all: &[(Kind, Best)], lines: usize) {
    let title =
        format!("Thousand lines a second of processor time, {lines} lines, best of {ROUNDS}");
    heading(&title, &WAYS.map(String::from));
    let speeds = |best: &Best| best[1].map(|time| lines as f64 / time.as_secs_f64());
    for (kind, best) in all {
        let cells = speeds(best).map(|speed| format!("{:.0}", speed / 1_000.0));
        println!("| {} | {} |", kind.name, cells.join(" | "));
    }
    // Ways by their numbers in WAYS.
    let ratios = [(0, 2), (0, 3), (0, 4), (1, 2), (1, 4), (1, 0)];
    let columns = ratios.map(|(one, other)| format!("{} / {}", WAYS[one], WAYS[other]));
    heading("How many times as fast", &columns);
    for (kind, best) in all {
        let speed = speeds(best);
        let cells = ratios.map(|(one, other)| format!("{:.2}", speed[one] / speed[other]));
        println!("| {} | {} |", kind.name, cells.join(" | "));
    }
}

/// The logs' lengths in words.
fn told(sizes: &[usize; 3]) -> String {
    let [a, b, c] = sizes;
    format!("{a} / {b} / {c} lines")
}

fn print_growth(all: &[(Kind, Best)], sizes: &[usize; 3]) {
    let title = format!(
        "Nanoseconds of processor time a line as the log grows: {}",
        told(sizes)
    );
    heading(&title, &WAYS.map(String::from));
    for (kind, best) in all {
        let cell = |way: usize| {
            let each = best.iter().zip(sizes).map(|(best, lines)| {
                let time = best[way].as_nanos() / *lines as u128;
                time.to_string()
            });
            each.collect::<Vec<String>>().join(" / ")
        };
        let cells: Vec<String> = (0..WAYS.len()).map(cell).collect();
        println!("| {} | {} |", kind.name, cells.join(" | "));
    }
}

fn print_memory(room: &Room, all: &[(Kind, Best)], sizes: &[usize; 3], logs: &[Vec<u8>; 3]) {
    let title = format!("Most memory held, KiB (VmHWM): {}", told(sizes));
    heading(&title, &["bench", "awk"].map(String::from));
    for (kind, _) in all {
        room.put_rule(kind);
        let cell = |words: &[String]| {
            let each = logs.iter().map(|log| {
                room.memory(words, log)
                    .map_or("?".into(), |most| most.to_string())
            });
            each.collect::<Vec<String>>().join(" / ")
        };
        println!(
            "| {} | {} | {} |",
            kind.name,
            cell(&ways::bench()),
            cell(&ways::awk())
        );
    }
}

fn print_counts(room: &Room, all: &[(Kind, Best)]) {
    if !counts::at_hand() {
        println!("\nvalgrind is not at hand: no instructions counted");
        return;
    }
    let columns = [WAYS.as_slice(), &["one feed", "one pull"]].concat();
    let columns: Vec<String> = columns.into_iter().map(String::from).collect();
    heading(
        "Instructions a line (callgrind), and of one call of the library",
        &columns,
    );
    for (kind, _) in all {
        eprintln!("{}, instructions", kind.name);
        let counts = counts::count(room, kind);
        let cells: Vec<String> = counts
            .lines
            .iter()
            .chain(&counts.calls)
            .map(u64::to_string)
            .collect();
        println!("| {} | {} |", kind.name, cells.join(" | "));
    }
}

/// The latency rule for several W.
fn print_widths(room: &Room) {
    if !counts::at_hand() {
        println!("\nvalgrind is not at hand: no instructions counted");
        return;
    }
    let columns = ["one feed", "one pull"].map(String::from);
    let title = "Instructions of one call of the library by W (callgrind), latency";
    heading_by("W", title, &columns);
    let all = kinds();
    let latency = all.iter().find(|kind| kind.name == "latency");
    let latency = latency.expect("a kind of rule");
    for w in counts::WIDTHS {
        eprintln!("W {w}, instructions");
        let cells = counts::calls(room, latency, w).map(|count| count.to_string());
        println!("| {w} | {} |", cells.join(" | "));
    }
}
