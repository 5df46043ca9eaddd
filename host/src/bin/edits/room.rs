//! A copy of the crates, in which edits are tried.

use crate::answers;
use crate::edit::Edit;
use crate::facts::{self, Fact};
use crate::{entries, read};
use std::collections::BTreeMap;
use std::path::{Path, PathBuf};
use std::process::Command;

/// The copy. It lies outside the checkout, where `rt ci` takes no sources but its crates', and goes when it is dropped.
pub struct Room {
    top: PathBuf,
}

impl Room {
    pub fn new(top: &Path, number: usize) -> Room {
        let name = format!("dillplatter-edits-{}-{number}", std::process::id());
        let room = Room {
            top: std::env::temp_dir().join(name),
        };
        for name in ["crates.txt", "HANDLES"] {
            copy(&top.join(name), &room.top.join(name));
        }
        for folder in entries(&top.join("crates")) {
            let name = folder.file_name().expect("a name");
            let to = room.top.join("crates").join(name);
            for part in ["src", "specs", "proofs"] {
                copy(&folder.join(part), &to.join(part));
            }
        }
        room
    }

    /// Checks a crate as it stands, so that the checks of its edits begin with that. It panics where the crate is not proved.
    pub fn begin(&self, name: &str) {
        let log = self.check(name);
        let is_proved = log.lines().any(|line| line.starts_with("logic=proved "));
        assert!(is_proved, "{name} is not proved:\n{log}");
    }

    /// The facts that the prover refuses of a crate with all edits of a file. A goal's name can have words of a condition in it:
    /// where an edit changes these, the goal's answer is given the new name. An answer that names what is no longer known
    /// there is taken out, so that the prover goes on to the other goals; that a search then fails at its goal is no fact.
    pub fn tried(&self, name: &str, edits: &[Edit]) -> Vec<Fact> {
        let mut was: BTreeMap<String, String> = BTreeMap::new();
        for change in edits.iter().flat_map(|edit| &edit.changes) {
            let text = self.text(name, &change.file);
            let times = text.matches(&change.old).count();
            assert_eq!(times, 1, "{name}, {}: `{}`", change.file, change.old);
            self.write(name, &change.file, &text.replace(&change.old, &change.new));
            was.entry(change.file.clone()).or_insert(text);
        }
        let mut log = self.check(name);
        let steps = facts::steps(&log);
        if !steps.is_empty() {
            for (file, names) in &steps {
                self.change(name, file, &mut was, |text| {
                    answers::with_conditions(text, names)
                });
            }
            log = self.check(name);
        }
        let gone = facts::gone(&log);
        if !gone.is_empty() {
            let mut texts = BTreeMap::new();
            for file in gone.keys() {
                let text = self.text(name, file);
                std::fs::remove_file(self.path(name, file)).expect("a file of answers");
                was.entry(file.clone()).or_insert(text.clone());
                texts.insert(file, text);
            }
            let open = facts::facts(&self.check(name));
            for (file, answers) in &gone {
                let goals: Vec<&str> = open
                    .iter()
                    .filter(|fact| fact.file == *file)
                    .map(|fact| fact.name.as_str())
                    .collect();
                self.write(name, file, &answers::renamed(&texts[file], answers, &goals));
            }
            log = self.check(name);
        }
        let unfit = facts::unfit(&log);
        if !unfit.is_empty() {
            for (file, answers) in &unfit {
                self.change(name, file, &mut was, |text| answers::without(text, answers));
            }
            log = self.check(name);
        }
        for (file, text) in &was {
            self.write(name, file, text);
        }
        let mut facts = facts::facts(&log);
        facts.retain(|fact| {
            !unfit
                .get(&fact.file)
                .is_some_and(|answers| answers.contains(&fact.name))
        });
        facts
    }

    /// Changes a file's text; the text that it had first is kept.
    fn change(
        &self,
        name: &str,
        file: &str,
        was: &mut BTreeMap<String, String>,
        new: impl Fn(&str) -> String,
    ) {
        let text = self.text(name, file);
        self.write(name, file, &new(&text));
        was.entry(file.to_string()).or_insert(text);
    }

    /// What `rt check` says of a crate. A check that comes to no verdict, as one that is killed, is made once more.
    fn check(&self, name: &str) -> String {
        let once = || {
            let ran = Command::new("rt")
                .arg("check")
                .current_dir(self.top.join("crates").join(name))
                .output()
                .expect("rt");
            [ran.stdout, ran.stderr].map(|text| String::from_utf8_lossy(&text).into_owned())
        };
        let is_verdict = |log: &str| log.lines().any(|line| line.starts_with("logic="));
        let [mut log, mut told] = once();
        if !is_verdict(&log) {
            [log, told] = once();
        }
        assert!(is_verdict(&log), "{name}: no verdict:\n{log}{told}");
        log
    }

    fn path(&self, name: &str, file: &str) -> PathBuf {
        self.top.join("crates").join(name).join(file)
    }

    fn text(&self, name: &str, file: &str) -> String {
        read(&self.path(name, file))
    }

    fn write(&self, name: &str, file: &str, text: &str) {
        let path = self.path(name, file);
        std::fs::write(&path, text).unwrap_or_else(|error| panic!("{}: {error}", path.display()));
    }
}

impl Drop for Room {
    fn drop(&mut self) {
        // What is left lies in the folder for temporary files.
        let _ = std::fs::remove_dir_all(&self.top);
    }
}

/// Copies a file or a folder, if it is there.
fn copy(from: &Path, to: &Path) {
    let failed = |error| panic!("{}: {error}", from.display());
    if from.is_dir() {
        for entry in entries(from) {
            copy(&entry, &to.join(entry.file_name().expect("a name")));
        }
    } else if from.is_file() {
        std::fs::create_dir_all(to.parent().expect("a folder")).unwrap_or_else(failed);
        std::fs::copy(from, to).map_or_else(failed, |_| ());
    }
}
