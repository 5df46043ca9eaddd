//! The place of refusal 3, against a hand-written automaton over tokens.

use crate::shared::random::{rule, text, Random};
use dillplatter_second::read;

/// One spelling of each token, and of tokens that no rule has.
const TOKENS: [&str; 32] = [
    "events", "notes", "i", "abs", "x", "7", ";", "->", "||", "&&", "!", "{", "}", "=", "!=", "<",
    "<=", ">", ">=", "+", "-", "*", "(", ")", "[", "]", "|", "&", "?", "scale", "2.50", ".",
];

#[derive(Clone, Copy, PartialEq)]
enum Stage {
    Events,
    FirstEvent,
    MoreEvents,
    Notes,
    FirstNote,
    MoreNotes,
    /// Behind the notes, where the clause may begin.
    AfterNotes,
    /// Behind the word `scale` there: the clause's number comes, or the parenthesis of a note with that name.
    Scale,
    ScaleEnd,
    Unit,
    Operand,
    AbsGroup,
    RefGroup,
    RefEvent,
    RefBracket,
    Index,
    IndexTimes,
    IndexI,
    IndexSign,
    IndexNumber,
    IndexEnd,
    RefEnd,
    AfterOperand,
    AfterUnit,
}

struct Automaton {
    stage: Stage,
    /// Open braces and parentheses of sums.
    groups: Vec<&'static str>,
    /// Whether the relation of the unit at hand was seen.
    related: bool,
    /// Whether the clause was seen, so that points are taken.
    points: bool,
}

/// The sort of a token: itself, or that it is a name or a number.
fn sort(token: &str) -> &str {
    let first = token.as_bytes()[0];
    match token {
        "events" | "notes" | "i" | "abs" => token,
        _ if first.is_ascii_lowercase() => "name",
        _ if first.is_ascii_digit() && token.contains('.') => "decimal",
        _ if first.is_ascii_digit() => "number",
        _ => token,
    }
}

/// The next stage in the two declared lists.
fn declared(stage: Stage, sort: &str) -> Option<Stage> {
    use Stage::*;
    match (stage, sort) {
        (Events, "events") => Some(FirstEvent),
        (FirstEvent | MoreEvents, "name") => Some(MoreEvents),
        (MoreEvents, ";") => Some(Notes),
        (Notes, "notes") => Some(FirstNote),
        (FirstNote | MoreNotes, "name") => Some(MoreNotes),
        (MoreNotes, ";") => Some(AfterNotes),
        (Scale, "number") => Some(ScaleEnd),
        (ScaleEnd, ";") => Some(Unit),
        (Scale, "(") => Some(RefEvent),
        _ => None,
    }
}

/// The next stage in a reference.
fn referenced(stage: Stage, sort: &str) -> Option<Stage> {
    use Stage::*;
    match (stage, sort) {
        (RefGroup, "(") => Some(RefEvent),
        (RefEvent, "name") => Some(RefBracket),
        (RefBracket, "[") => Some(Index),
        (Index, "number") => Some(IndexTimes),
        (IndexTimes, "*") => Some(IndexI),
        (Index | IndexI, "i") => Some(IndexSign),
        (IndexSign, "+" | "-") => Some(IndexNumber),
        (IndexNumber, "number") => Some(IndexEnd),
        (IndexSign | IndexEnd, "]") => Some(RefEnd),
        (RefEnd, ")") => Some(AfterOperand),
        _ => None,
    }
}

impl Automaton {
    /// Takes one token; the answer is where in it the list ceases to begin a rule.
    fn take(&mut self, token: &str) -> Option<usize> {
        match token.split_once('.') {
            // Without the clause these are digits, a point and digits.
            Some((digits, _)) if !self.points && !digits.is_empty() => {
                let wrong = !self.take_whole(digits);
                Some(if wrong { 0 } else { digits.len() })
            }
            _ => (!self.take_whole(token)).then_some(0),
        }
    }

    /// Takes one token that is one whether points are taken or not; false if the list then begins no rule.
    fn take_whole(&mut self, token: &str) -> bool {
        if self.stage == Stage::AfterNotes {
            if token == "scale" {
                self.related = false;
                self.stage = Stage::Scale;
                return true;
            }
            self.stage = Stage::Unit;
        }
        self.points |= self.stage == Stage::ScaleEnd;
        let sort = sort(token);
        let next = declared(self.stage, sort)
            .or_else(|| referenced(self.stage, sort))
            .or_else(|| self.before_operand(sort))
            .or_else(|| self.after_operand(sort));
        self.stage = next.unwrap_or(self.stage);
        next.is_some()
    }

    /// The next stage where a unit or an operand may begin.
    fn before_operand(&mut self, sort: &str) -> Option<Stage> {
        use Stage::*;
        if self.stage == Unit && !matches!(sort, "!" | "{") {
            self.related = false;
            self.stage = Operand;
        }
        match (self.stage, sort) {
            (Unit, "!") => Some(Unit),
            (Unit, "{") => {
                self.groups.push("{");
                Some(Unit)
            }
            (Operand, "number" | "decimal" | "i") => Some(AfterOperand),
            (Operand | AbsGroup, "(") => {
                self.groups.push("(");
                Some(Operand)
            }
            (Operand, "abs") => Some(AbsGroup),
            (Operand, "name") => Some(RefGroup),
            _ => None,
        }
    }

    /// The next stage behind an operand or a unit.
    fn after_operand(&mut self, sort: &str) -> Option<Stage> {
        use Stage::*;
        let relation = ["=", "!=", "<", "<=", ">", ">="].contains(&sort);
        let group = self.groups.last().copied();
        match (self.stage, sort) {
            (AfterOperand, "+" | "-" | "*") => Some(Operand),
            (AfterOperand, ")") if group == Some("(") => {
                self.groups.pop();
                Some(AfterOperand)
            }
            (AfterOperand, _) if relation && !self.related && group != Some("(") => {
                self.related = true;
                Some(Operand)
            }
            (AfterOperand | AfterUnit, "&&" | "||" | "->") if self.unit_may_end() => Some(Unit),
            (AfterOperand | AfterUnit, "}") if self.unit_may_end() && group == Some("{") => {
                self.groups.pop();
                Some(AfterUnit)
            }
            _ => None,
        }
    }

    fn unit_may_end(&self) -> bool {
        let relation =
            self.stage == Stage::AfterOperand && self.related && self.groups.last() != Some(&"(");
        self.stage == Stage::AfterUnit || relation
    }
}

/// The place where tokens at given places cease to begin a rule, or an end if only the end is wrong; nothing if all is in order.
fn misfit(tokens: &[&str], places: &[usize], end: usize) -> Option<usize> {
    let mut automaton = Automaton {
        stage: Stage::Events,
        groups: Vec::new(),
        related: false,
        points: false,
    };
    for (token, place) in tokens.iter().zip(places) {
        if let Some(within) = automaton.take(token) {
            return Some(place + within);
        }
    }
    let whole = automaton.unit_may_end() && automaton.groups.is_empty();
    (!whole).then_some(end)
}

/// Compares the place of 3 in a text whose tokens stand at given places; the answer is whether 3 came.
fn compare(text: &str, tokens: &[&str], places: &[usize]) -> bool {
    let expected = misfit(tokens, places, text.len());
    let found = match read(text.as_bytes(), 512) {
        Err(refusal) if refusal.number == 3 => Some(refusal.place),
        _ => None,
    };
    assert_eq!(found, expected, "{text}");
    found.is_some()
}

#[test]
fn all_short_lists_behind_some_beginnings() {
    let beginnings = [
        ("", 2),
        ("events a", 2),
        ("events a ; notes t", 2),
        ("events a ; notes t ;", 3),
        ("events a ; notes t ; scale", 3),
        ("events a ; notes t ; scale 7 ;", 3),
        ("events a ; notes t ; scale 7 ; i", 2),
        ("events a ; notes t ; scale 7 ; i = 2.50", 2),
        ("events a ; notes t ; scale 7 ; t ( a [", 3),
        ("events a ; notes t ; i", 2),
        ("events a ; notes t ; i = 1", 3),
        ("events a ; notes t ; { i = 1", 2),
        ("events a ; notes t ; { i = 1 }", 2),
        ("events a ; notes t ; { ( i + 1", 2),
        ("events a ; notes t ; ! abs (", 2),
        ("events a ; notes t ; i < ( 1", 2),
        ("events a ; notes t ; t", 2),
        ("events a ; notes t ; t ( a [", 3),
        ("events a ; notes t ; { t ( a [ i ]", 2),
        ("events a ; notes t ; i = 1 -> { { i = 1", 2),
    ];
    let mut rules = 0;
    for (beginning, longest) in beginnings {
        for length in 0..=longest {
            for code in 0..TOKENS.len().pow(length) {
                let mut tokens: Vec<&str> = beginning.split_whitespace().collect();
                let digits = (0..length).map(|k| code / TOKENS.len().pow(k) % TOKENS.len());
                tokens.extend(digits.map(|k| TOKENS[k]));
                let text = tokens.join(" ");
                if text.is_empty() {
                    continue;
                }
                let places: Vec<usize> = (0..tokens.len())
                    .map(|k| tokens[..k].iter().map(|token| token.len() + 1).sum())
                    .collect();
                rules += usize::from(!compare(&text, &tokens, &places));
            }
        }
    }
    // By hand: 24 of the form 'i = i', 12 behind 'i', 7 behind 'i = 1', and 1 behind four others; with a clause, where a decimal is
    // an operand too, 54, 18 and 10.
    assert_eq!(rules, 47 + 82);
}

#[test]
fn damaged_rules() {
    let (mut wrong, mut right) = (0, 0);
    for seed in 0..20_000 {
        let random = &mut Random::new(seed + 1_000_000);
        let size = random.pick(&[2, 8, 20]);
        let mut tokens = rule(random, size).tokens;
        for _ in 0..random.pick(&[0, 1, 1, 2, 5]) {
            let place = random.below(tokens.len());
            let other = random.below(tokens.len());
            let token = random.pick(&TOKENS).to_string();
            match random.below(6) {
                0 if tokens.len() > 1 => drop(tokens.remove(place)),
                1 => tokens.insert(place, token),
                2 => tokens[place] = token,
                3 => tokens.swap(place, other),
                4 => tokens.truncate(place + 1),
                _ => tokens.insert(place, tokens[other].clone()),
            }
        }
        let (text, places) = text(random, &tokens);
        if text.len() > 1_024 {
            continue;
        }
        let tokens: Vec<&str> = tokens.iter().map(String::as_str).collect();
        match compare(&text, &tokens, &places) {
            true => wrong += 1,
            false => right += 1,
        }
    }
    assert!(
        wrong > 5_000 && right > 3_000,
        "{wrong} wrong, {right} right"
    );
}
