//! No line of the code and of its definitions has over 132 columns, counted in bytes: then none has, however a tool counts.

use crate::TOP;
use std::fs::{read_dir, read_to_string};
use std::path::{Path, PathBuf};

/// The most columns of a line.
const COLUMNS: usize = 132;

/// The files of a folder.
fn files(folder: &Path) -> Vec<PathBuf> {
    let entries = read_dir(folder).expect("the folder is there");
    entries.map(|entry| entry.unwrap().path()).collect()
}

/// The numbers of a text's lines that are too wide, from 1.
fn wide(text: &str) -> Vec<usize> {
    let lines = text.lines().zip(1..);
    lines
        .filter(|(line, _)| line.len() > COLUMNS)
        .map(|(_, number)| number)
        .collect()
}

#[test]
fn lines_of_code_and_definitions_are_not_too_wide() {
    let mut seen = 0;
    for folder in files(&Path::new(TOP).join("crates")) {
        for file in ["src", "specs"]
            .iter()
            .flat_map(|part| files(&folder.join(part)))
        {
            let found = wide(&read_to_string(&file).expect("it is a text"));
            assert!(found.is_empty(), "{}: {found:?}", file.display());
            seen += 1;
        }
    }
    assert!(seen > 100, "{seen}");
}

#[test]
fn a_line_that_is_too_wide_is_seen() {
    let widest = "x".repeat(COLUMNS);
    assert!(wide(&format!("{widest}\n{widest}")).is_empty());
    assert_eq!(wide(&format!("{widest}\n{widest}x\n")), [2]);
    assert_eq!(wide(&format!("≡{}", &widest[2..])), [1]);
}
