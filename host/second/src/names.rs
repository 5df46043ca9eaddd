//! Names of a rule: which are declared, and the first that refusal 4 names.

use super::text::{Token, NAME};

const LONGEST: usize = 12;
const EVENTS: usize = 8;
const NOTES: usize = 4;

/// A rule's tokens in parts: the two declared lists, the clause's number and the condition.
pub struct Sections<'a, 't> {
    pub events: &'a [Token<'t>],
    pub notes: &'a [Token<'t>],
    /// Nothing if the rule has no clause of a scale.
    pub scale: Option<&'a Token<'t>>,
    pub condition: &'a [Token<'t>],
}

/// The sections of a token list that is a rule: its only semicolons end the lists and the clause.
pub fn sections<'a, 't>(tokens: &'a [Token<'t>]) -> Sections<'a, 't> {
    let parts: Vec<&[Token]> = tokens.split(|token| token.symbol == ";").collect();
    // Each list and the clause's number stand behind their word.
    let (events, notes, scale, condition) = match parts[..] {
        [events, notes, condition] => (events, notes, None, condition),
        [events, notes, clause, condition] => (events, notes, Some(&clause[1]), condition),
        _ => panic!("a rule has two semicolons or three"),
    };
    Sections {
        events: &events[1..],
        notes: &notes[1..],
        scale,
        condition,
    }
}

/// The number of a name in its list.
pub fn number(list: &[Token], name: &Token) -> Option<usize> {
    list.iter().position(|known| known.bytes == name.bytes)
}

/// The place of the first bad name.
pub fn bad_name(rule: &Sections) -> Option<usize> {
    bad_declared(rule.events, EVENTS)
        .or_else(|| bad_declared(rule.notes, NOTES))
        .or_else(|| bad_used(rule))
}

fn bad_declared(list: &[Token], most: usize) -> Option<usize> {
    (0..list.len())
        .find(|k| {
            let name = &list[*k];
            let long = name.bytes.len() > LONGEST;
            long || *k >= most || number(&list[..*k], name).is_some()
        })
        .map(|k| list[k].place)
}

fn bad_used(rule: &Sections) -> Option<usize> {
    rule.condition
        .windows(2)
        .find(|pair| {
            let (name, after) = (&pair[0], &pair[1]);
            // In a reference the note stands before "(" and the event before "[".
            let list = if after.symbol == "(" {
                rule.notes
            } else {
                rule.events
            };
            name.symbol == NAME && number(list, name).is_none()
        })
        .map(|pair| pair[0].place)
}
