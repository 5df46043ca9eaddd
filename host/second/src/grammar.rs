//! Which token lists are rules, and where one that is none goes wrong.
//!
//! The method is Earley's: for each place in the list, all productions that may be under way there. The list
//! begins a rule exactly as long as some production is under way.

use super::text::Token;
use std::sync::OnceLock;

/// Document 01's grammar, with the clause of a scale and decimals (document 02, point 1), one production a line. A repeat is
/// grouped to the left and an option is written out.
pub const PRODUCTIONS: &str = "
    rule : events names ; notes names ; cond
    rule : events names ; notes names ; scale number ; cond
    names : name
    names : names name
    cond : disj
    cond : disj -> cond
    disj : conj
    disj : disj || conj
    conj : unit
    conj : conj && unit
    unit : ! unit
    unit : { cond }
    unit : sum rel sum
    rel : =
    rel : !=
    rel : <
    rel : <=
    rel : >
    rel : >=
    sum : prod
    sum : sum + prod
    sum : sum - prod
    prod : factor
    prod : prod * factor
    factor : number
    factor : decimal
    factor : i
    factor : ( sum )
    factor : abs ( sum )
    factor : reference
    reference : name ( name [ index ] )
    index : times
    index : times + number
    index : times - number
    times : i
    times : number * i
";

/// What stands next at one slot of a production.
#[derive(Clone, Copy, PartialEq, Eq)]
enum Next {
    Token(&'static str),
    Part(usize),
    End(usize),
}

/// All productions laid out one after the other, a slot before each symbol and one at the end.
struct Table {
    slots: Vec<Next>,
    /// Per part, the first slot of each of its productions. Part 0 is the rule.
    starts: Vec<Vec<usize>>,
}

/// A production under way: how far it is, and the place where it began.
#[derive(Clone, Copy)]
struct Item {
    slot: usize,
    origin: usize,
}

/// The first token that with those before it begins no rule, as its number in the list; the list's length if the
/// list only ends early; nothing if it is a rule.
pub fn misfit(tokens: &[Token]) -> Option<usize> {
    let mut sets = Sets::new(table(), tokens.len());
    sets.begin(0);
    for (at, token) in tokens.iter().enumerate() {
        sets.close();
        sets.take(token);
        if sets.current.is_empty() {
            return Some(at);
        }
    }
    sets.close();
    (!sets.whole()).then_some(tokens.len())
}

/// The items of each place so far, and those of the place at hand.
struct Sets {
    table: &'static Table,
    done: Vec<Vec<Item>>,
    current: Vec<Item>,
    /// Per origin and slot, 1 plus the last place where that item was added.
    added: Vec<u32>,
}

impl Sets {
    fn new(table: &'static Table, tokens: usize) -> Sets {
        Sets {
            table,
            done: Vec::new(),
            current: Vec::new(),
            added: vec![0; table.slots.len() * (tokens + 1)],
        }
    }

    /// Adds an item to the place at hand, once.
    fn add(&mut self, slot: usize, origin: usize) {
        let mark = self.done.len() as u32 + 1;
        let last = &mut self.added[origin * self.table.slots.len() + slot];
        if *last != mark {
            *last = mark;
            self.current.push(Item { slot, origin });
        }
    }

    /// Adds the productions of a part that begins at the place at hand.
    fn begin(&mut self, part: usize) {
        let here = self.done.len();
        for slot in &self.table.starts[part] {
            self.add(*slot, here);
        }
    }

    /// Adds the items of an earlier place that waited for what has now ended, one slot further.
    fn go_on(&mut self, place: usize, ended: Next) {
        for k in 0..self.done[place].len() {
            let item = self.done[place][k];
            if self.table.slots[item.slot] == ended {
                self.add(item.slot + 1, item.origin);
            }
        }
    }

    /// Adds what follows without a token: parts that begin here, and productions whose last part ended here.
    fn close(&mut self) {
        let mut k = 0;
        while let Some(item) = self.current.get(k).copied() {
            match self.table.slots[item.slot] {
                Next::Token(_) => {}
                Next::Part(part) => self.begin(part),
                // No production is empty, so this one began at an earlier place.
                Next::End(part) => self.go_on(item.origin, Next::Part(part)),
            }
            k += 1;
        }
    }

    /// Goes to the next place, behind a token, which may be the clause's word and a name at once.
    fn take(&mut self, token: &Token) {
        let place = self.done.len();
        self.done.push(std::mem::take(&mut self.current));
        for symbol in token.symbols() {
            self.go_on(place, Next::Token(symbol));
        }
    }

    /// Whether a rule ends at the place at hand.
    fn whole(&self) -> bool {
        let ends = |item: &Item| self.table.slots[item.slot] == Next::End(0);
        self.current.iter().any(ends)
    }
}

/// The left and the right side of each production.
fn productions() -> impl Iterator<Item = (&'static str, &'static str)> {
    let lines = PRODUCTIONS.lines();
    lines.filter_map(|line| line.trim().split_once(" : "))
}

/// The parts, by their numbers: the productions of each stand together.
fn parts() -> Vec<&'static str> {
    let mut parts: Vec<&str> = productions().map(|(left, _)| left).collect();
    parts.dedup();
    parts
}

/// The table of `PRODUCTIONS`, made once.
fn table() -> &'static Table {
    static TABLE: OnceLock<Table> = OnceLock::new();
    TABLE.get_or_init(|| {
        let parts = parts();
        let number = |symbol: &str| parts.iter().position(|part| *part == symbol);
        let next = |symbol| number(symbol).map_or(Next::Token(symbol), Next::Part);
        let mut slots = Vec::new();
        let mut starts = vec![Vec::new(); parts.len()];
        for (left, right) in productions() {
            let part = number(left).expect("each left side is a part");
            starts[part].push(slots.len());
            slots.extend(right.split(' ').map(next));
            slots.push(Next::End(part));
        }
        Table { slots, starts }
    })
}

#[cfg(test)]
mod tests {
    use super::super::text::{DECIMAL, MARKS, NAME, NUMBER, RESERVED, SCALE};
    use super::*;

    #[test]
    fn every_symbol_is_a_part_or_a_token_and_every_token_is_used() {
        let mut known: Vec<&str> = MARKS.to_vec();
        known.extend(RESERVED);
        known.extend([NAME, NUMBER, DECIMAL, SCALE]);
        let used: Vec<&str> = table()
            .slots
            .iter()
            .filter_map(|next| match next {
                Next::Token(symbol) => Some(*symbol),
                _ => None,
            })
            .collect();
        for symbol in &used {
            assert!(known.contains(symbol), "{symbol} is no token");
        }
        for symbol in &known {
            assert!(used.contains(symbol), "{symbol} is in no production");
        }
    }
}
