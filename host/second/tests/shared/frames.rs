//! The bytes of a frame as docs/RULES.md has them, by any checker.

use super::documents::{document, rows};
use super::driven::Driven;

/// The columns of the table of kinds.
pub const KINDS: [&str; 3] = ["Kind", "In C", "As in"];

/// A rule whose last frame but one is that of a sum or a condition, or whose first is that of a scale.
fn around(kind: &str, example: &str) -> String {
    match kind {
        "04" => format!("events in out; notes t; {example} t(in[i]) = 0"),
        "01" | "02" | "03" | "11" | "12" | "13" | "14" => {
            format!("events in out; notes t; t(in[i]) = {example}")
        }
        _ => format!("events in out; notes t; t(in[i]) = 0 && {{ {example} }}"),
    }
}

/// The example of each kind has a frame of that kind.
pub fn kinds<C: Driven>() {
    let all = rows(&document("docs/RULES.md"), KINDS);
    assert_eq!(all.len(), 18);
    for [kind, _, example] in all {
        let text = around(&kind, example.trim_matches('`'));
        let frames = C::frames_of(text.as_bytes()).expect("it is a rule");
        let mut each = frames.chunks_exact(8);
        let frame = if kind == "04" {
            each.next()
        } else {
            each.nth_back(1)
        };
        let seen = frame.map(|frame| format!("{:02X}", frame[0]));
        assert_eq!(seen, Some(kind), "{text}");
    }
}

/// The rules of the page, each after four spaces.
fn rules(page: &str) -> impl Iterator<Item = &str> {
    page.lines().filter_map(|line| line.strip_prefix("    "))
}

/// A rule has the frames that the first table of a page says.
fn has_frames<C: Driven>(rule: &str, page: &str) {
    let said: Vec<[String; 2]> = rows(page, ["Frame", "Bytes", "What it is"])
        .into_iter()
        .map(|[frame, bytes, _]| [frame, bytes.trim_matches('`').replace(' ', "")])
        .collect();
    let seen: Vec<[String; 2]> = C::frames_of(rule.as_bytes())
        .expect("it is read")
        .chunks_exact(8)
        .zip(0..)
        .map(|(frame, k): (&[u8], usize)| {
            let digits = frame.iter().map(|byte| format!("{byte:02X}"));
            [k.to_string(), digits.collect()]
        })
        .collect();
    assert_eq!(said, seen, "{rule}");
}

/// The first rule of the page, and its rule with a scale, have the frames that it says.
pub fn first_rule<C: Driven>() {
    let page = document("docs/RULES.md");
    let first = rules(&page).next().expect("it has a rule");
    has_frames::<C>(first, &page);
    let scaled = rules(&page).find(|rule| rule.contains("scale"));
    let (_, behind) = page.split_once("The allowance of 12.5 has six:").unwrap();
    has_frames::<C>(scaled.expect("it has a scale"), behind);
}
