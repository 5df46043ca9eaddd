//! What the bench program prints.

use crate::shared::log::line;
use dillplatter_second::bench;
use std::io::Write;
use std::path::PathBuf;
use std::process::{Command, Stdio};

const RULE: &str = "events in out; notes t; t(out[i]) - t(in[i]) <= 25";
const LOG: &str = "\
000000000A000000000000000000000000
0100000028000000000000000000000000
0000000032000000000000000000000000
010000004B000000000000000000000000
";
const OUTPUT: &str = "\
0000000000020000000028000000000A
000000010000000100000000000000040000000000000000
";

#[test]
fn example_of_the_document() {
    assert_eq!(bench(RULE.as_bytes(), LOG.as_bytes()), OUTPUT);
}

#[test]
fn last_line_may_lack_its_lf() {
    let log = LOG.strip_suffix('\n').unwrap();
    assert_eq!(bench(RULE.as_bytes(), log.as_bytes()), OUTPUT);
}

#[test]
fn small_letters_are_read_and_capitals_printed() {
    let small = LOG.to_ascii_lowercase();
    assert_ne!(small, LOG);
    assert_eq!(bench(RULE.as_bytes(), small.as_bytes()), OUTPUT);
}

#[test]
fn refused_rules() {
    assert_eq!(bench(b"", LOG.as_bytes()), "EE020000\n");
    assert_eq!(bench(&[b' '; 1_025], LOG.as_bytes()), "EE020000\n");
    assert_eq!(bench(&[b' '; 1_024], LOG.as_bytes()), "EE030400\n");
    let text = b"events in out; notes t; t(out[i]) - t(inn[i]) <= 25";
    assert_eq!(bench(text, LOG.as_bytes()), "EE040026\n");
    assert_eq!(bench(b"events a; notes t; 1 = 1", b""), "EE070000\n");
}

#[test]
fn no_verdict_before_the_first_line() {
    for condition in ["t(a[i-2]) > 0", "t(a[i-9999]) > 0 && i < 0", "t(a[i]) > 0"] {
        let rule = format!("events a; notes t; {condition}");
        assert_eq!(bench(rule.as_bytes(), b""), format!("{:048X}\n", 0));
    }
}

#[test]
fn totals_from_the_start_on() {
    // Instances 3 to 5: true, false, true.
    let rule = b"events a b; notes t; t(a[2*i-5]) > 0";
    let log: Vec<u8> = [9, 1, 9, -1, 9, 1]
        .into_iter()
        .flat_map(|note| [line(0, [note, 0, 0, 0]), vec![b'\n']].concat())
        .collect();
    let expected = "00000004000100FFFFFFFF\n\
                    000000020000000100000000000000060000000000000000\n";
    assert_eq!(bench(rule, &log), expected);
}

#[test]
fn counts_of_lines() {
    // Accepted, ignored, refused: an empty line, a CR, letters past f and a long line are refused.
    let good = String::from_utf8(line(0, [1, 0, 0, 0])).unwrap();
    let unreferenced = String::from_utf8(line(0x20, [1, 0, 0, 0])).unwrap();
    let past = good.replace('0', "g");
    let log = format!("{good}\n{unreferenced}\n\n{good}\r\n{past}\n{good}0\n{good}\n\n");
    let expected = "000000020000000000000000000000020000000100000005\n";
    assert_eq!(
        bench(b"events a; notes t; t(a[i]) = 1", log.as_bytes()),
        expected
    );
}

#[test]
fn window_of_64() {
    // Instance 0 waits for event b, so 64 lines of a fit.
    let rule = b"events a b; notes t; t(a[i]) = t(b[i])";
    let log: Vec<u8> = (0..70)
        .flat_map(|n| [line(0, [n, 0, 0, 0]), vec![b'\n']].concat())
        .collect();
    let expected = "000000000000000000000000000000400000000000000006\n";
    assert_eq!(bench(rule, &log), expected);
}

#[test]
fn report_has_only_its_bytes() {
    let rule = b"events a b; notes t; t(a[i]) > 0 && t(b[i+3]) > 0 && t(b[i-1]) > 0";
    let log = line(0, [-5, 0, 0, 0]);
    let expected = "00000000000300FFFFFFFB01000000000200000000\n\
                    000000000000000100000000000000010000000000000000\n";
    assert_eq!(bench(rule, &log), expected);
}

/// Runs the program in a directory of its own.
fn run(name: &str, rule: Option<&str>, log: &str) -> String {
    let room = PathBuf::from(env!("CARGO_TARGET_TMPDIR")).join(name);
    let _ = std::fs::remove_dir_all(&room);
    std::fs::create_dir_all(&room).unwrap();
    if let Some(rule) = rule {
        std::fs::write(room.join("rule.loc"), rule).unwrap();
    }
    let mut child = Command::new(env!("CARGO_BIN_EXE_second_bench"))
        .current_dir(&room)
        .stdin(Stdio::piped())
        .stdout(Stdio::piped())
        .spawn()
        .unwrap();
    // The program need not read its input.
    let _ = child.stdin.take().unwrap().write_all(log.as_bytes());
    let output = child.wait_with_output().unwrap();
    assert!(output.status.success());
    String::from_utf8(output.stdout).unwrap()
}

#[test]
fn program_prints_the_example() {
    assert_eq!(run("example", Some(RULE), LOG), OUTPUT);
}

#[test]
fn rule_file_that_is_not_there_is_an_empty_text() {
    assert_eq!(run("no-rule", None, LOG), "EE020000\n");
}
