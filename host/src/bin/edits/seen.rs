//! Which edits of a file are seen to be refused.

use crate::edit::Edit;
use crate::facts::Fact;
use crate::source::{Owner, Sources};

/// For each edit of a file a fact that it alone can have refused, and no other edit of the file.
pub fn seen<'a>(sources: &Sources, edits: &[Edit], facts: &'a [Fact]) -> Vec<Option<&'a Fact>> {
    let owners: Vec<Vec<Owner>> = edits
        .iter()
        .map(|edit| {
            edit.changes
                .iter()
                .filter_map(|change| sources.owner(change))
                .collect()
        })
        .collect();
    let edits_behind = |fact: &Fact| -> Vec<usize> {
        (0..edits.len())
            .filter(|&k| owners[k].iter().any(|owner| sources.rests_on(fact, owner)))
            .collect()
    };
    let behind: Vec<Vec<usize>> = facts.iter().map(edits_behind).collect();
    (0..edits.len())
        .map(|k| behind.iter().position(|all| *all == [k]).map(|f| &facts[f]))
        .collect()
}

#[cfg(test)]
mod tests {
    use super::*;
    use crate::edit;

    /// A crate with a function, another that calls it and uses a constant, two definitions, of which one uses the other, with a
    /// comment between them that has a name as a word, a record, and a law of the second definition and one of the record.
    fn sources() -> Sources {
        let files = [
            (
                "src/a.rt",
                "ghost use Rattle.c.specs.D.{deep, flat};\nconst LEAST: u8 = 1;\n\n\
                 // Words.\npub fn f(x: u8) -> u8\n    ensures { result ≡ flat x }\n{\n    x + 1\n}\n\n\
                 fn g(x: u8) -> u8\n{\n    f(x) + LEAST\n}\n",
            ),
            (
                "specs/D.antt",
                "use Rattle.std.specs.Prelude.{ℕ, ◌+◌}\n\nabbrev pub flat : ℕ → ℕ\nflat n = n + 1\n\n-- one that is deep\nabbrev pub deep : ℕ → ℕ\ndeep n =\n    flat n + 2\n\npub record Low (n : ℕ) : Type 0 where\n  -- few\n  pub few : n ≤ 2\n",
            ),
            (
                "proofs/Law.antt",
                "use Rattle.c.specs.D.{deep, Low}\nlaw : (n : ℕ) → deep n ≡ n + 3\nlaw n = refl\n\nlow : Low 1\nlow = record { few = le }\n",
            ),
        ];
        Sources::new(
            "c",
            files.map(|(name, text)| (name.to_string(), text.to_string())),
        )
    }

    /// What is said of each edit, where facts of these proofs and names are refused.
    fn places(edits: &str, refused: &[(&str, &str)]) -> Vec<Option<String>> {
        let fact = |&(file, name): &(&str, &str)| Fact {
            file: file.to_string(),
            name: name.to_string(),
            place: String::new(),
        };
        let facts: Vec<Fact> = refused.iter().map(fact).collect();
        seen(&sources(), &edit::edits(edits), &facts)
            .into_iter()
            .map(|found| found.map(|fact| fact.name.clone()))
            .collect()
    }

    const F: &str = "F.\nfile: src/a.rt\nold:     x + 1\nnew:     x + 2\n";
    const ENSURES: &str = "Ensures.\nfile: src/a.rt\nold: result ≡ flat x\nnew: result ≡ flat 0\n";
    const LEAST: &str =
        "Least.\nfile: src/a.rt\nold: const LEAST: u8 = 1;\nnew: const LEAST: u8 = 2;\n";
    const FLAT: &str = "Flat.\nfile: specs/D.antt\nold: flat n = n + 1\nnew: flat n = n + 2\n";
    const DEEP: &str = "Deep.\nfile: specs/D.antt\nold: flat n + 2\nnew: flat n + 3\n";
    const FEW: &str = "Few.\nfile: specs/D.antt\nold: few : n ≤ 2\nnew: few : n ≤ 0\n";
    const OF_F: (&str, &str) = ("proofs/a/f/Answers.antt", "returns-f");
    const OF_G: (&str, &str) = ("proofs/a/g/Answers.antt", "returns-g");
    const OF_LAW: (&str, &str) = ("proofs/Law.antt", "law");
    const OF_LOW: (&str, &str) = ("proofs/Law.antt", "low");

    fn some(name: &str) -> Option<String> {
        Some(name.to_string())
    }

    #[test]
    fn each_edit_wants_its_own_proof() {
        let both = format!("{F}{LEAST}");
        assert_eq!(
            places(&both, &[OF_F, OF_G]),
            [some("returns-f"), some("returns-g")]
        );
        assert_eq!(places(&both, &[OF_F]), [some("returns-f"), None]);
        assert_eq!(places(&both, &[OF_G, OF_LAW]), [None, some("returns-g")]);
        assert_eq!(places(&both, &[]), [None, None]);
    }

    #[test]
    fn a_definition_is_seen_where_it_is_used() {
        assert_eq!(places(FLAT, &[OF_F]), [some("returns-f")]);
        assert_eq!(places(FLAT, &[OF_LAW]), [some("law")]);
        assert_eq!(places(FLAT, &[OF_G]), [None]);
        assert_eq!(places(DEEP, &[OF_LAW]), [some("law")]);
        assert_eq!(places(DEEP, &[OF_F]), [None]);
    }

    #[test]
    fn a_field_is_its_records() {
        assert_eq!(places(FEW, &[OF_LOW]), [some("low")]);
        assert_eq!(places(FEW, &[OF_LAW]), [None]);
        let both = format!("{DEEP}{FEW}");
        assert_eq!(places(&both, &[OF_LAW, OF_LOW]), [some("law"), some("low")]);
    }

    #[test]
    fn a_line_that_only_brings_names_in_is_passed_over() {
        let names = "file: specs/D.antt\nold: {ℕ, ◌+◌}\nnew: {ℕ, ◌+◌, ◌-◌}\n";
        assert_eq!(places(&format!("{DEEP}{names}"), &[OF_LAW]), [some("law")]);
        assert_eq!(places(&format!("Names.\n{names}"), &[OF_LAW]), [None]);
    }

    #[test]
    fn a_contract_is_of_the_callers_too() {
        assert_eq!(places(ENSURES, &[OF_F]), [some("returns-f")]);
        assert_eq!(places(ENSURES, &[OF_G]), [some("returns-g")]);
        assert_eq!(
            places(&format!("{ENSURES}{LEAST}"), &[OF_F, OF_G]),
            [some("returns-f"), None]
        );
        assert_eq!(
            places(&format!("{F}{LEAST}"), &[OF_F, OF_G]),
            [some("returns-f"), some("returns-g")]
        );
    }

    #[test]
    fn what_two_edits_can_refuse_shows_neither() {
        assert_eq!(places(&format!("{F}{FLAT}"), &[OF_F]), [None, None]);
        assert_eq!(places(&format!("{FLAT}{DEEP}"), &[OF_LAW]), [None, None]);
        assert_eq!(
            places(&format!("{FLAT}{DEEP}"), &[OF_LAW, OF_F]),
            [some("returns-f"), None]
        );
        assert_eq!(places(&format!("{LEAST}{LEAST}"), &[OF_G]), [None, None]);
    }
}
