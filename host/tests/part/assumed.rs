//! What docs/PROMISES.md says is assumed is what the toolchain said of the program and of the library.

use crate::shared::documents::{document, rows};
use std::path::Path;

/// What the toolchain said of a crate when it was last built.
fn said(name: &str) -> String {
    let path = Path::new(crate::TOP).join(format!("target/log/{name}.say"));
    std::fs::read_to_string(path).expect("run `tools/build` at the top first")
}

/// The C functions that the proof of a crate rests on.
///
/// Of each crate that declares some there is a head, as `axioms libc: 3 reached of the 128 declared`, or `none reached ..`; below it
/// stands each of them in a line of its own, which ends in `reached` where the proof rests on its contract.
fn reached(said: &str) -> Vec<String> {
    let lines: Vec<&str> = said.lines().collect();
    let mut found = Vec::new();
    for (at, line) in lines.iter().enumerate() {
        let Some(head) = line.strip_prefix("axioms ") else {
            continue;
        };
        let (_, counts) = head.split_once(": ").expect("a crate and its counts");
        let (count, declared) = counts.split_once(" reached of the ").expect("two counts");
        let count = if count == "none" { "0" } else { count };
        let declared = declared.strip_suffix(" declared").expect("a count");
        let [count, declared] = [count, declared].map(|digits| digits.parse::<usize>().unwrap());
        let listed: Vec<&str> = lines[at + 1..]
            .iter()
            .map_while(|line| line.strip_prefix("  "))
            .collect();
        assert_eq!(listed.len(), declared, "{line}");
        let of_crate: Vec<String> = listed
            .iter()
            .filter_map(|line| Some(line.strip_suffix(" reached")?.trim_end().into()))
            .collect();
        assert_eq!(of_crate.len(), count, "{line}");
        found.extend(of_crate);
    }
    found
}

/// The line with its verdict: the last, since crates below may have been proved on the way.
fn verdict(said: &str) -> &str {
    let lines = said.lines();
    let last = lines.filter(|line| line.starts_with("logic=")).last();
    let verdict = last.expect("it has a verdict");
    assert!(verdict.starts_with("logic=proved "), "{verdict}");
    verdict
}

/// The value of a word of that line, as 3 in `axioms=3`.
fn value<'v>(verdict: &'v str, name: &str) -> Option<&'v str> {
    let mut words = verdict.split(' ').filter_map(|word| word.split_once('='));
    words
        .find(|(word, _)| *word == name)
        .map(|(_, value)| value)
}

#[test]
fn the_program_assumes_what_the_table_names() {
    let columns = ["C function", "What it does", "What its contract says"];
    let table: Vec<String> = rows(&document("docs/PROMISES.md"), columns)
        .into_iter()
        .map(|[function, _, _]| function.trim_matches('`').into())
        .collect();
    let said = said("bench");
    assert_eq!(reached(&said), table);
    let (verdict, count) = (verdict(&said), table.len().to_string());
    assert_eq!(value(verdict, "axioms"), Some(count.as_str()), "{verdict}");
    assert_eq!(value(verdict, "foreign"), None, "{verdict}");
}

#[test]
fn the_library_and_the_crates_under_it_assume_nothing() {
    for name in "numbers rule log_lines verdict checker dillplatter".split(' ') {
        let said = said(name);
        assert_eq!(reached(&said), Vec::<String>::new(), "{name}");
        let verdict = verdict(&said);
        for word in ["axioms", "foreign"] {
            assert_eq!(value(verdict, word), None, "{name}: {verdict}");
        }
    }
    // Of the library the list is of all that it is linked from.
    assert!(said("dillplatter").contains("\naxioms libc: none reached "));
}

#[test]
fn what_is_assumed_is_read_and_counted() {
    let said = "axioms c: 1 reached of the 2 declared\n  c::read   reached\n  c::write\naxioms d: none reached of the 1 declared\n  \
        d::close\nlogic=not-proved\nlogic=proved functions=1 axioms=1 sum=0";
    assert_eq!(reached(said), ["c::read"]);
    assert_eq!(value(verdict(said), "axioms"), Some("1"));
    assert_eq!(value(verdict(said), "foreign"), None);
}
