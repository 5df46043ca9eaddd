//! Documents of the repository, and the tables in them.

use std::path::Path;

/// A document, by its path from the top.
pub fn document(path: &str) -> String {
    std::fs::read_to_string(Path::new(crate::TOP).join(path)).expect("the document is there")
}

/// The rows of a document's table, which is found by the names of its columns.
#[track_caller]
pub fn rows<const COLUMNS: usize>(text: &str, columns: [&str; COLUMNS]) -> Vec<[String; COLUMNS]> {
    let mut lines = text.lines().map(cells);
    let head = lines.find(|line| line.as_ref().is_some_and(|line| *line == columns));
    assert!(head.is_some(), "no table has the columns {columns:?}");
    let rows = lines.skip(1).map_while(|line| line);
    rows.map(|row| row.try_into().expect("a row has a cell for each column"))
        .collect()
}

/// The cells of a table's line.
fn cells(line: &str) -> Option<Vec<String>> {
    let inner = line.strip_prefix('|')?.strip_suffix('|')?;
    // A bar of the cell's own text stands behind a backslash.
    let inner = inner.replace("\\|", "\0");
    let cell = |cell: &str| cell.trim().replace('\0', "|");
    Some(inner.split('|').map(cell).collect())
}

/// What stands between commas.
pub fn parts(list: &str) -> Vec<String> {
    list.split(", ").map(String::from).collect()
}
