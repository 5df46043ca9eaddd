//! Answers to goals whose names an edit changed.

use std::collections::BTreeSet;

/// A proof's text without some answers: each from the line with its type to the next empty line.
pub fn without(text: &str, answers: &[String]) -> String {
    let begins = |line: &str| {
        let name = line
            .strip_prefix("pub ")
            .and_then(|line| line.split_once(" : "));
        name.is_some_and(|(name, _)| answers.iter().any(|answer| answer == name))
    };
    let mut inside = false;
    let mut kept = String::new();
    for line in text.split_inclusive('\n') {
        inside = begins(line) || inside && !line.trim().is_empty();
        if !inside {
            kept.push_str(line);
        }
    }
    kept
}

/// A proof's text with answers under the names of goals that have none in it: of one that differs from theirs in numbers alone, else
/// of the next one behind another condition.
pub fn renamed(text: &str, answers: &[String], goals: &[&str]) -> String {
    let mut left = goals.to_vec();
    left.retain(|goal| !text.contains(&format!("pub {goal} : ")));
    let mut text = text.to_string();
    for answer in answers {
        if let Some(at) = left.iter().position(|goal| is_alike(goal, answer)) {
            let (old, new) = difference(answer, left.remove(at));
            text = with_words(&text, &old, &new);
        } else if let Some((branch, old)) = condition(answer) {
            let is_branch = |goal: &&str| condition(goal).is_some_and(|(other, _)| other == branch);
            if let Some(at) = left.iter().position(is_branch) {
                let goal = left.remove(at);
                text = with_words(&text, old, &goal[branch.len()..]);
            }
        }
    }
    text
}

/// A proof's text with other conditions for those that it names; one that it names already is not put for another.
pub fn with_conditions(text: &str, names: &BTreeSet<(String, String)>) -> String {
    let mut made = text.to_string();
    for (old, new) in names {
        if !text.contains(&format!("if-{new}")) {
            made = with_words(&made, old, new);
        }
    }
    made
}

/// A goal's name up to the words of a condition, as `returns-then-`, and these words.
fn condition(name: &str) -> Option<(&str, &str)> {
    let end = ["-then-", "-else-"]
        .iter()
        .find_map(|part| name.find(part).map(|at| at + part.len()))?;
    Some(name.split_at(end))
}

/// Whether two names are the same but for the numbers in them.
fn is_alike(one: &str, other: &str) -> bool {
    let letters = |name: &str| -> String { name.chars().filter(|c| !c.is_ascii_digit()).collect() };
    letters(one) == letters(other)
}

/// The words in which two such names differ, with the word before: that is what the names of conditions have too.
fn difference(old: &str, new: &str) -> (String, String) {
    let (old, new): (Vec<&str>, Vec<&str>) = (old.split('-').collect(), new.split('-').collect());
    let differ: Vec<usize> = (0..old.len()).filter(|&k| old[k] != new[k]).collect();
    let (Some(first), Some(last)) = (differ.first(), differ.last()) else {
        return (old.join("-"), new.join("-"));
    };
    let part = first.saturating_sub(1)..last + 1;
    (old[part.clone()].join("-"), new[part].join("-"))
}

/// A text with some words for others, each occurrence that is no part of a longer word; a dash is no part of a word.
fn with_words(text: &str, old: &str, new: &str) -> String {
    let inside = |c: char| c.is_alphanumeric() || c == '_';
    let mut made = String::new();
    let mut done = 0;
    for (at, _) in text.match_indices(old) {
        let end = at + old.len();
        let is_word = !text[..at].chars().next_back().is_some_and(inside)
            && !text[end..].chars().next().is_some_and(inside);
        if is_word {
            made.push_str(&text[done..at]);
            made.push_str(new);
            done = end;
        }
    }
    made.push_str(&text[done..]);
    made
}

#[cfg(test)]
mod tests {
    use super::*;

    const TEXT: &str = "use c.proofs.f.Goals as goal\n\n\
        pub returns-then-k-eq2 : goal.returns-then-k-eq2\nreturns-then-k-eq2 c =\n    rw (c.if-k-eq2.true)\n\n\
        pub returns-else-k-eq2 : goal.returns-else-k-eq2\nreturns-else-k-eq2 c = rw (c.if-k-eq2.false, c.if-k-eq21.true)\n";

    fn names() -> Vec<String> {
        ["returns-then-k-eq2", "returns-else-k-eq2"]
            .map(str::to_string)
            .into()
    }

    #[test]
    fn answers_are_taken_out_whole() {
        assert_eq!(
            without(TEXT, &names()),
            "use c.proofs.f.Goals as goal\n\n\n"
        );
    }

    #[test]
    fn a_new_number_goes_into_answers_and_conditions() {
        let goals = ["add-k", "returns-then-k-eq13", "returns-else-k-eq13"];
        let expected = TEXT.replace("k-eq2", "k-eq13").replace("k-eq131", "k-eq21");
        assert_eq!(renamed(TEXT, &names(), &goals), expected);
        assert_eq!(renamed(TEXT, &names(), &["loop-preserved"]), TEXT);
    }

    #[test]
    fn another_condition_goes_into_answers_and_steps() {
        let goals = ["add-k", "returns-then-j-LEAST", "returns-else-j-LEAST"];
        let expected = TEXT
            .replace("k-eq2", "j-LEAST")
            .replace("j-LEAST1", "k-eq21");
        assert_eq!(renamed(TEXT, &names(), &goals), expected);
    }

    #[test]
    fn a_condition_that_is_named_already_is_not_put_for_another() {
        let names = |new: &str| BTreeSet::from([("k-eq2".to_string(), new.to_string())]);
        assert_eq!(
            with_conditions(TEXT, &names("k-m")),
            TEXT.replace("k-eq2", "k-m").replace("k-m1", "k-eq21")
        );
        assert_eq!(with_conditions(TEXT, &names("k-eq21")), TEXT);
    }
}
