//! The rules that are measured: the five kinds of source 003, two of them with a scale besides, and one of 64 frames.

use dillplatter_second::frames::{check, Rule};
use dillplatter_second::read;

/// Both events of every log; its lines take turns.
const HEAD: &str = "events stimuli display; notes t; ";

/// A rule with the name of its kind. The distances fit the bench program's W of 64.
pub struct Kind {
    pub name: &'static str,
    pub text: String,
}

pub fn kinds() -> Vec<Kind> {
    let kind = |name, condition: &str| Kind {
        name,
        text: format!("{HEAD}{condition}"),
    };
    vec![
        kind("rate", "t(display[i+1]) - t(display[i]) = 10"),
        kind("latency", "t(display[i]) - t(stimuli[i]) <= 25"),
        kind("jitter", "abs(t(display[i]) - (i + 1) * 10) <= 4"),
        kind("throughput", "t(display[i+50]) - t(display[i]) <= 501"),
        kind("burstiness", "t(display[i+60]) - t(display[i]) > 599"),
        // The same as latency and jitter, in tens of their unit; a side or an operand is brought to more decimals.
        kind(
            "latency with a scale",
            "scale 1; t(display[i]) - t(stimuli[i]) <= 2.50",
        ),
        kind(
            "jitter with a scale",
            "scale 1; abs(t(display[i]) - (i + 1)) <= 0.4",
        ),
        kind("64 frames", &longest()),
    ]
}

/// Nine relations of five frames, one of ten, and nine times 'and'.
fn longest() -> String {
    let mut condition = "abs(t(display[i]) - (i + 1) * 10) <= 4".to_string();
    for ahead in 1..=9 {
        condition += &format!(" && t(display[i+{ahead}]) - t(stimuli[i+{ahead}]) <= 40");
    }
    condition
}

impl Kind {
    pub fn frames(&self) -> Vec<u8> {
        read(self.text.as_bytes(), 512).expect("the rule is read")
    }

    pub fn rule(&self) -> Rule {
        check(&self.frames()).expect("the frames are a rule")
    }
}

#[cfg(test)]
mod tests {
    use super::*;
    use crate::{awk, logs};
    use dillplatter_second::bench;
    use std::io::Write;
    use std::process::{Command, Stdio};

    /// What awk prints of a rule and a log; nothing if awk is not at hand.
    fn awk_prints(kind: &Kind, log: &[u8]) -> Option<String> {
        let script = awk::script(&kind.rule());
        let mut child = Command::new("awk")
            .arg(script)
            .stdin(Stdio::piped())
            .stdout(Stdio::piped())
            .spawn()
            .ok()?;
        let mut input = child.stdin.take().expect("its input");
        let log = log.to_vec();
        let writer = std::thread::spawn(move || input.write_all(&log));
        let output = child.wait_with_output().expect("awk ends");
        writer.join().expect("the log").expect("awk reads its log");
        Some(String::from_utf8(output.stdout).expect("digits"))
    }

    #[test]
    fn a_rule_with_a_scale_says_what_the_one_without_says() {
        let log = logs::make(2_000);
        let all = kinds();
        let prints = |name: &str| {
            let kind = all.iter().find(|kind| kind.name == name);
            let kind = kind.expect("a kind of rule");
            let printed = bench(kind.text.as_bytes(), &log);
            // Violations, and the last line.
            assert!(printed.lines().count() > 8, "{printed}");
            if let Some(by_awk) = awk_prints(kind, &log) {
                assert_eq!(by_awk, printed);
            }
            printed
        };
        assert_eq!(prints("latency with a scale"), prints("latency"));
        // One reference each, so the reports are the same too.
        assert_eq!(prints("jitter with a scale"), prints("jitter"));
    }
}
