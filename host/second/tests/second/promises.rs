//! What docs/PROMISES.md names stands where it says: each file in parentheses is there, and each name right before such a list of
//! files is a word of one of them.

use crate::shared::documents::document;
use crate::TOP;
use std::path::Path;

/// Names, and the files after them.
#[derive(Debug, PartialEq, Eq)]
struct Named {
    names: Vec<String>,
    files: Vec<String>,
}

/// All of a text, line by line.
fn named(text: &str) -> Vec<Named> {
    let mut found = Vec::new();
    for line in text.lines() {
        for (at, _) in line.match_indices('(') {
            let inside = line[at + 1..].split(')').next().unwrap_or_default();
            let (names, files) = (names_before(&line[..at]), files_in(inside));
            if !files.is_empty() {
                found.push(Named { names, files });
            }
        }
    }
    found
}

/// The quoted names at the end of a text, parted by commas or 'and'.
fn names_before(text: &str) -> Vec<String> {
    let mut names = Vec::new();
    let mut rest = text.trim_end();
    while let Some((before, name)) = rest.strip_suffix('`').and_then(|r| r.rsplit_once('`')) {
        names.push(name.into());
        let parted = before.strip_suffix(", ").or(before.strip_suffix(" and "));
        rest = parted.unwrap_or_default();
    }
    names
}

/// The files of a list, each by its path from the top; one without a folder is in that of the file before it.
fn files_in(list: &str) -> Vec<String> {
    let mut files: Vec<String> = Vec::new();
    for part in list.split(", ") {
        let file = part.strip_prefix("proved in ").unwrap_or(part);
        if !is_file(file) {
            return Vec::new();
        }
        let folder = files.last().and_then(|last| last.rsplit_once('/'));
        files.push(match (file.contains('/'), folder) {
            (false, Some((folder, _))) => format!("{folder}/{file}"),
            _ if file.starts_with("host/") => file.into(),
            _ => format!("crates/{file}"),
        });
    }
    files
}

/// A path of a definition, a proof, code or a test.
fn is_file(part: &str) -> bool {
    let kinds = [".antt", ".rt", ".rs"];
    let in_path = |c: char| c.is_ascii_alphanumeric() || "/._+-".contains(c);
    kinds.iter().any(|kind| part.ends_with(kind)) && part.chars().all(in_path)
}

/// A name is a word of a text; of `module::function` the function.
fn has(text: &str, name: &str) -> bool {
    let name = name.rsplit("::").next().unwrap_or(name);
    let in_word = |c: char| c.is_alphanumeric() || "_-".contains(c);
    text.match_indices(name).any(|(at, _)| {
        !text[..at].ends_with(in_word) && !text[at + name.len()..].starts_with(in_word)
    })
}

/// The names that stand in none of their files, and the files that are not there.
fn missing(text: &str) -> Vec<String> {
    let mut found = Vec::new();
    for Named { names, files } in named(text) {
        for file in files
            .iter()
            .filter(|file| !Path::new(TOP).join(file).is_file())
        {
            found.push(format!("{file} is not there"));
        }
        let texts: Vec<String> = files
            .iter()
            .filter_map(|file| std::fs::read_to_string(Path::new(TOP).join(file)).ok())
            .collect();
        for name in names {
            // An ending of the name before it, as in `refused-unchanged`, `-feed`.
            let ending = name.starts_with('-');
            let word = |text: &String| {
                if ending {
                    text.contains(&name)
                } else {
                    has(text, &name)
                }
            };
            if !texts.iter().any(word) {
                found.push(format!("{name} is not in {}", files.join(", ")));
            }
        }
    }
    found
}

#[test]
fn promised_names_stand_in_their_files() {
    let text = document("docs/PROMISES.md");
    let names: usize = named(&text).iter().map(|named| named.names.len()).sum();
    assert!(names > 250, "{names}");
    let found = missing(&text);
    assert!(found.is_empty(), "{}", found.join("\n"));
}

#[test]
fn a_name_or_a_file_that_is_not_there_is_seen() {
    let said =
        "| a | `line_of`, `bad_place` and `x` (log_lines/specs/Line.antt, Other.antt); `y` |";
    let expected = Named {
        names: vec!["x".into(), "bad_place".into(), "line_of".into()],
        files: vec![
            "crates/log_lines/specs/Line.antt".into(),
            "crates/log_lines/specs/Other.antt".into(),
        ],
    };
    assert_eq!(named(said), [expected]);
    let other = "crates/log_lines/specs/Other.antt";
    let files = format!("crates/log_lines/specs/Line.antt, {other}");
    assert_eq!(
        missing(said),
        [
            format!("{other} is not there"),
            format!("x is not in {files}")
        ]
    );
    assert_eq!(missing("`line_o` (log_lines/specs/Line.antt)").len(), 1);
    assert_eq!(missing("`line_of` (log_lines/specs/Line.antt)").len(), 0);
}
