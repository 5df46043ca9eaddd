//! What the header says of stack and of frames is what docs/MAKERS.md and docs/RULES.md say, and what it says of profiles is what a
//! checker keeps to.

use crate::documents::{between, comment_of, differences, flowing};
use crate::shared::board::{long_sum, short_sum};
use crate::shared::documents::{document, rows};
use crate::shared::driven::{Driven, Twin};
use crate::shared::frames;
use dillplatter_second::{Profile, Refusal};

const HEADER: &str = "include/dillplatter.h";
const RULES: &str = "docs/RULES.md";
const MAKERS: &str = "docs/MAKERS.md";

/// A name in C, and its number as the header writes it.
type Named = [String; 2];

/// The columns of the table of stack.
const STACK: [&str; 4] = ["Call", "Measured", "Count on", "In C"];

/// A cell without its quotes.
fn bare(cell: &str) -> String {
    cell.trim_matches('`').into()
}

/// A number without the commas between its digits.
fn plain(number: &str) -> String {
    number.replace(',', "")
}

/// A number of a table.
fn number(cell: &str) -> u32 {
    plain(cell).parse().expect("it is a number")
}

/// The calls that a cell names.
fn calls(cell: &str) -> Vec<&str> {
    let named = cell.split("`dillplatter_").skip(1);
    named.map(|rest| rest.split('`').next().unwrap()).collect()
}

/// The constants that the header defines.
fn constants(header: &str) -> Vec<(&str, &str)> {
    header
        .lines()
        .filter_map(|line| line.strip_prefix("#define ")?.split_once(' '))
        .collect()
}

/// The number of one of them.
fn constant(header: &str, name: &str) -> u32 {
    let mut all = constants(header).into_iter();
    let (_, value) = all.find(|(one, _)| *one == name).expect("it is defined");
    value.parse().expect("it is a number")
}

/// The stack that the header defines, call by call.
fn defined(header: &str) -> Vec<Named> {
    constants(header)
        .into_iter()
        .filter(|(name, _)| name.starts_with("DILLPLATTER_STACK_"))
        .map(|(name, value)| [name.into(), value.into()])
        .collect()
}

/// The enumerators of the header under a name.
fn enumerated(header: &str, name: &str) -> Vec<Named> {
    let text = without_comments(&flowing(header));
    let inside = between(&text, &format!("enum {name} {{ "), "}");
    let pairs = inside.split(',').map(|one| one.trim().split_once(" = "));
    pairs
        .map(|pair| pair.expect("it has a number"))
        .map(|(name, value)| [name.into(), value.into()])
        .collect()
}

fn without_comments(text: &str) -> String {
    let mut parts = text.split("/*");
    let first = parts.next().unwrap_or_default();
    let others = parts.map(|part| part.split_once("*/").expect("a comment ends").1);
    std::iter::once(first).chain(others).collect()
}

/// A name stands in a text, and not as the beginning of a longer one.
fn has(text: &str, name: &str) -> bool {
    let in_name = |c: char| c.is_ascii_alphanumeric() || c == '_';
    text.match_indices(name)
        .any(|(at, _)| !text[at + name.len()..].starts_with(in_name))
}

/// Where the header differs from the table of stack in docs/MAKERS.md.
fn stacks(header: &str, makers: &str) -> Vec<String> {
    let said = rows(makers, STACK).into_iter();
    let said: Vec<Named> = said
        .map(|[_, _, count_on, name]| [bare(&name), plain(&count_on)])
        .collect();
    differences(&defined(header), &said)
}

/// Where it differs from the tables of bytes and kinds in docs/RULES.md.
fn frame_names(header: &str, rules: &str) -> Vec<String> {
    let bytes = rows(rules, ["Byte", "In C", "What it is"]).into_iter();
    let bytes: Vec<Named> = bytes
        .map(|[byte, name, _]| [bare(&name), byte.split(' ').next().unwrap().into()])
        .collect();
    let kinds = rows(rules, frames::KINDS).into_iter();
    let kinds: Vec<Named> = kinds
        .map(|[kind, name, _]| [bare(&name), format!("0x{kind}")])
        .collect();
    let mut found = differences(&enumerated(header, "dillplatter_frame_byte"), &bytes);
    found.extend(differences(&enumerated(header, "dillplatter_kind"), &kinds));
    found
}

#[test]
fn the_header_has_the_stack_to_count_on() {
    let found = stacks(&document(HEADER), &document(MAKERS));
    assert!(found.is_empty(), "{}", found.join("\n"));
    for [call, measured, count_on, _] in rows(&document(MAKERS), STACK) {
        assert!(number(&measured) <= number(&count_on), "{call}");
    }
}

#[test]
fn a_call_on_the_board_takes_no_more_than_the_stack_to_count_on() {
    let makers = document(MAKERS);
    let on_board = rows(&makers, ["Call on the board", "Measured"]);
    // All but the desk's opening and reading.
    assert_eq!(on_board.len(), 7);
    for [row, measured] in on_board {
        let call = calls(&row)[0];
        let mut all = rows(&makers, STACK).into_iter();
        let [_, _, count_on, _] = all.find(|[row, ..]| calls(row).contains(&call)).unwrap();
        assert!(number(&measured) <= number(&count_on), "{call}");
    }
}

#[test]
fn each_call_names_its_stack_and_is_held_to_it() {
    let header = flowing(&document(HEADER));
    let measuring = document("examples/stack.c");
    let mut named = 0;
    for [row, _, _, name] in rows(&document(MAKERS), STACK) {
        let name = bare(&name);
        for call in calls(&row) {
            assert!(has(comment_of(&header, call), &name), "{call}: {name}");
            named += 1;
        }
        assert!(has(&measuring, &name), "{name}");
    }
    // Nine calls, of which reading has two rows.
    assert_eq!(named, 10);
    // No limit there is a number of its own.
    for limit in measuring.split("within(\"").skip(1) {
        let limit = limit.split(';').next().unwrap();
        assert!(limit.contains(", DILLPLATTER_STACK_"), "{limit}");
    }
}

#[test]
fn the_header_names_the_bytes_and_kinds_of_frames() {
    let found = frame_names(&document(HEADER), &document(RULES));
    assert!(found.is_empty(), "{}", found.join("\n"));
}

/// Whether an opening takes W and rules of so many frames, or the number that it refuses them with.
fn opening(profile: Profile, w: u32, frames: u32) -> Result<(), Refusal> {
    let window = vec![0; 32 * w as usize];
    let [one, other] = [short_sum, long_sum]
        .map(|rule| Twin::open_as(profile, &rule(frames as usize), w, &window).map(|_| ()));
    assert_eq!(one, other);
    one
}

#[test]
fn the_header_has_the_limits_of_each_profile() {
    let header = document(HEADER);
    let w = constant(&header, "DILLPLATTER_BOARD_WIDTH_MOST");
    let frames = constant(&header, "DILLPLATTER_BOARD_FRAMES_MOST");
    let above = Err(Refusal::of(26));
    assert_eq!(opening(Profile::Board, w, frames), Ok(()));
    assert_eq!(opening(Profile::Board, w + 1, frames), above);
    assert_eq!(opening(Profile::Board, w, frames + 1), above);
    let w = constant(&header, "DILLPLATTER_WIDTH_MOST");
    let frames = constant(&header, "DILLPLATTER_FRAME_BUFFER")
        / constant(&header, "DILLPLATTER_FRAME_BYTES");
    assert_eq!(opening(Profile::Desk, w, frames), Ok(()));
    assert_eq!(opening(Profile::Desk, w + 1, frames), Err(Refusal::of(11)));
    assert_eq!(opening(Profile::Desk, w, frames + 1), Err(Refusal::of(9)));
}

#[test]
fn the_header_has_the_numbers_of_the_profiles() {
    let opened = [
        ("DILLPLATTER_DESK", Profile::Desk),
        ("DILLPLATTER_BOARD", Profile::Board),
    ];
    let expected: Vec<Named> = opened
        .into_iter()
        .map(|(name, profile)| {
            let state = Twin::of_frames(profile, &short_sum(3), 1).state().clone();
            [name.into(), state.profile.to_string()]
        })
        .collect();
    let said = enumerated(&document(HEADER), "dillplatter_profile");
    assert_eq!(said, expected);
}

#[test]
fn a_change_of_a_number_is_seen() {
    let [header, makers, rules] = [HEADER, MAKERS, RULES].map(document);
    for [name, value] in defined(&header) {
        let changed = header.replace(&format!("{name} {value}\n"), &format!("{name} {value}0\n"));
        assert_eq!(stacks(&changed, &makers).len(), 1, "{name}");
    }
    for name in ["dillplatter_frame_byte", "dillplatter_kind"] {
        for [name, value] in enumerated(&header, name) {
            let changed =
                header.replace(&format!("{name} = {value}"), &format!("{name} = {value}0"));
            assert_eq!(frame_names(&changed, &rules).len(), 1, "{name}");
        }
    }
}

#[test]
fn each_kind_of_frame_is_that_of_its_example() {
    frames::kinds::<Twin>();
}

#[test]
fn the_frames_of_the_first_rule() {
    frames::first_rule::<Twin>();
}
