//! What the bench program prints.

use super::line::lines;
use super::machine::{open, Fed, Machine, Pulled, Totals, REPORT, WORDS};
use super::reading::{read, BUFFER};
use super::verdict::Truth;
use std::fmt::Write;

const W: u32 = 64;

/// The output for a rule text and a log. A rule file that can't be read counts as an empty text.
pub fn bench(rule: &[u8], log: &[u8]) -> String {
    bench_with(rule, || log)
}

/// The same, with a log that is fetched only if the rule is not refused.
pub fn bench_with<L: AsRef<[u8]>>(rule: &[u8], log: impl FnOnce() -> L) -> String {
    output(rule, log, Machine::feed)
}

/// The output for a rule text and a log of the earlier edition, whose lines are fed as they are.
pub fn bench_old(rule: &[u8], log: &[u8]) -> String {
    output(rule, || log, Machine::feed_old)
}

/// The output, with each line fed by some call.
fn output<L: AsRef<[u8]>>(
    rule: &[u8],
    log: impl FnOnce() -> L,
    feed: fn(&mut Machine, &[u8]) -> Fed,
) -> String {
    let opened = read(rule, BUFFER).and_then(|frames| open(&frames, W, WORDS * W as usize));
    let mut machine = match opened {
        Ok(machine) => machine,
        Err(refusal) => return format!("EE{:02X}{:04X}\n", refusal.number, refusal.place),
    };
    let mut out = String::new();
    let (mut accepted, mut ignored, mut refused) = (0_u32, 0_u32, 0_u32);
    pull_all(&mut machine, &mut out);
    for line in lines(log().as_ref()) {
        let counter = match feed(&mut machine, line) {
            Fed::Accepted => &mut accepted,
            Fed::Ignored => &mut ignored,
            Fed::Refused(_) => &mut refused,
        };
        *counter = counter.wrapping_add(1);
        pull_all(&mut machine, &mut out);
    }
    let Totals {
        held,
        failed,
        unknown,
    } = machine.totals();
    for total in [held, failed, unknown, accepted, ignored, refused] {
        write_hex(&mut out, &total.to_be_bytes());
    }
    out.push('\n');
    out
}

/// Pulls until waiting; each report is one line.
fn pull_all(machine: &mut Machine, out: &mut String) {
    let mut report = [0; REPORT];
    while let Pulled::Verdict(verdict) = machine.pull(&mut report) {
        if verdict == Truth::False {
            let references = usize::from(report[5]);
            write_hex(out, &report[..6 + 5 * references]);
            out.push('\n');
        }
    }
}

fn write_hex(out: &mut String, bytes: &[u8]) {
    for byte in bytes {
        write!(out, "{byte:02X}").expect("a string takes all");
    }
}
