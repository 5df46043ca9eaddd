//! The bench program of the second checker: the rule in `rule.loc`, the log on standard input.

use dillplatter_second::bench_with;
use std::io::{Read, Write};

fn main() {
    let rule = std::fs::read("rule.loc").unwrap_or_default();
    let output = bench_with(&rule, || {
        let mut log = Vec::new();
        // A read error ends the log; what came before it counts.
        let _ = std::io::stdin().read_to_end(&mut log);
        log
    });
    let written = std::io::stdout().write_all(output.as_bytes());
    std::process::exit(i32::from(written.is_err()));
}
