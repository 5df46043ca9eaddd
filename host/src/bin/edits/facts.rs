//! What the prover refused, from its log.

use std::collections::{BTreeMap, BTreeSet};
use std::fmt;

/// A part of a proof that the prover refused.
#[derive(Debug, PartialEq)]
pub struct Fact {
    /// The proof's file in the crate.
    pub file: String,
    /// The declaration: a goal of a function, or a law.
    pub name: String,
    /// `:LINE:COLUMN`, or nothing where a search found no proof.
    pub place: String,
}

impl fmt::Display for Fact {
    fn fmt(&self, f: &mut fmt::Formatter) -> fmt::Result {
        write!(f, "{}{}, `{}`", self.file, self.place, self.name)
    }
}

/// What says that a declaration only waits for another one, or that a proof no longer fits the code.
const NO_FACT: [&str; 8] = [
    "was not admitted",
    "has no `",
    "has no field",
    "is not in scope",
    "replace that `_`",
    "was not determined",
    "unsolved",
    "write the clause",
];

/// The facts of a log, each declaration once.
pub fn facts(log: &str) -> Vec<Fact> {
    let mut all: Vec<Fact> = Vec::new();
    let found = log
        .lines()
        .flat_map(|line| refused(line).into_iter().chain(unfound(line)));
    for fact in found {
        if !all
            .iter()
            .any(|other| other.file == fact.file && other.name == fact.name)
        {
            all.push(fact);
        }
    }
    all
}

/// The answers of a log to goals that there are no longer, by their files.
pub fn gone(log: &str) -> BTreeMap<String, Vec<String>> {
    answers(log, |name, why| {
        why.starts_with(&format!("`goal.{name}`: module "))
    })
}

/// The answers of a log that name what is no longer known there, by their files.
pub fn unfit(log: &str) -> BTreeMap<String, Vec<String>> {
    answers(log, |_, why| why.contains("has no field"))
}

/// The conditions that the answers of a log name and that are no longer known there, each with the one that is nearest to it, by
/// files: `record `R` has no field `if-OLD` (nearest: .if-NEW, ..)`.
pub fn steps(log: &str) -> BTreeMap<String, BTreeSet<(String, String)>> {
    let mut all: BTreeMap<String, BTreeSet<(String, String)>> = BTreeMap::new();
    for (file, _, _, why) in log.lines().filter_map(error) {
        let names = why.split_once("has no field `if-").and_then(|(_, why)| {
            let (old, why) = why.split_once('`')?;
            let new = why.strip_prefix(" (nearest: .if-")?;
            Some((old, &new[..new.find([',', ')'])?]))
        });
        if let (true, Some((old, new))) = (file.ends_with("/Answers.antt"), names) {
            let names = (old.to_string(), new.to_string());
            all.entry(file.to_string()).or_default().insert(names);
        }
    }
    all
}

/// The answers of a log that are refused for a reason of a kind.
fn answers(log: &str, is_so: impl Fn(&str, &str) -> bool) -> BTreeMap<String, Vec<String>> {
    let mut all: BTreeMap<String, Vec<String>> = BTreeMap::new();
    for (file, _, name, why) in log.lines().filter_map(error) {
        if file.ends_with("/Answers.antt") && is_so(name, why) {
            all.entry(file.to_string())
                .or_default()
                .push(name.to_string());
        }
    }
    all
}

/// `./FILE:LINE:COLUMN: error: `NAME`: why`: the file, `:LINE:COLUMN`, the name and why.
fn error(line: &str) -> Option<(&str, &str, &str, &str)> {
    let (at, why) = line.strip_prefix("./")?.split_once(": error: `")?;
    let (name, why) = why.split_once('`')?;
    let (file, place) = at.split_at(at.find(':')?);
    Some((file, place, name, why.strip_prefix(": ")?))
}

/// An error in a proof.
fn refused(line: &str) -> Option<Fact> {
    let (file, place, name, why) = error(line)?;
    let is_fact = file.starts_with("proofs/") && !NO_FACT.iter().any(|says| why.contains(says));
    is_fact.then(|| Fact {
        file: file.to_string(),
        name: name.to_string(),
        place: place.to_string(),
    })
}

/// `fn F: no proof: expected answers in ./FILE; `search` did not prove `NAME`, `NAME``, of goals that have no answer.
fn unfound(line: &str) -> Vec<Fact> {
    let goals = line
        .strip_prefix("fn ")
        .and_then(|line| line.split_once("; `search` did not prove "))
        .and_then(|(at, names)| Some((at.split_once(" in ./")?.1, names)));
    let Some((file, names)) = goals else {
        return Vec::new();
    };
    names
        .split('`')
        .skip(1)
        .step_by(2)
        .map(|name| Fact {
            file: file.to_string(),
            name: name.to_string(),
            place: String::new(),
        })
        .collect()
}

#[cfg(test)]
mod tests {
    use super::*;

    const LOG: &str = "so far: ./proofs/a/f/Answers.antt:7:13: error: `returns`: the two types differ\n\
        ./proofs/a/f/Answers.antt:7:13: error: `returns`: the two types differ\n\
        ./proofs/a/f/Answers.antt:9:1: error: `returns`: once more\n\
        ./proofs/a/g/Answers.antt:3:1: error: 2 declarations that depend on `near`, which was rejected, were not checked: far, `x`: y\n\
        ./proofs/a/g/Answers.antt:4:1: error: `near` is not admitted: rejected\n\
        ./proofs/a/h/Answers.antt:3:1: error: `rem-w2`: `goal.rem-w2`: module `Rattle.c.proofs.a.h.Goals` has no `rem-w2` that can be named from here\n\
        ./proofs/a/h/Answers.antt:9:1: error: `rem-w`: `c.args` has no field `w`\n\
        ./specs/D.antt:5:1: error: `deep`: expected type `ℕ`\n\
        fn c::b::k: no proof: expected answers in ./proofs/b/k/Answers.antt; `search` did not prove `add-w`, `returns`\n\
        fn c::b::m: no proof: it calls `c::b::k`, which is not proved\n";

    #[test]
    fn what_waits_or_does_not_fit_is_no_fact() {
        let fact = |file: &str, name: &str, place: &str| Fact {
            file: file.to_string(),
            name: name.to_string(),
            place: place.to_string(),
        };
        let expected = [
            fact("proofs/a/f/Answers.antt", "returns", ":7:13"),
            fact("proofs/b/k/Answers.antt", "add-w", ""),
            fact("proofs/b/k/Answers.antt", "returns", ""),
        ];
        assert_eq!(facts(LOG), expected);
    }

    #[test]
    fn a_condition_can_have_another_name() {
        let log = "./proofs/f/Answers.antt:2:1: error: `r`: record `c.F` has no field `if-n-last` (nearest: .if-n-low, .if-n)\n\
            ./proofs/f/Answers.antt:3:1: error: `s`: record `c.F` has no field `loop-n` (nearest: .loop-m)\n";
        let expected = BTreeSet::from([("n-last".to_string(), "n-low".to_string())]);
        assert_eq!(
            steps(log),
            BTreeMap::from([("proofs/f/Answers.antt".to_string(), expected)])
        );
    }

    #[test]
    fn an_answer_can_lose_its_goal_or_what_it_names() {
        let one = |name: &str| {
            BTreeMap::from([(
                "proofs/a/h/Answers.antt".to_string(),
                vec![name.to_string()],
            )])
        };
        assert_eq!(gone(LOG), one("rem-w2"));
        assert_eq!(unfit(LOG), one("rem-w"));
    }
}
