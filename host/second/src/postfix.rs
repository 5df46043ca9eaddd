//! Frames of a rule, from its tokens, with an explicit stack of operators.

use super::names::{number, Sections};
use super::numbers::{decimals, value};
use super::text::{Token, DECIMAL, NAME, NUMBER};

/// A rule's frames and the greatest depth in it.
pub struct Postfix {
    pub frames: Vec<[u8; 8]>,
    pub depth: usize,
}

/// The frames of a rule whose tokens, names and numbers are in order: that of its scale, if it has one, then its condition's.
pub fn postfix(rule: &Sections) -> Postfix {
    let scale = |number: &Token| [0x04, value(number.bytes) as u8, 0, 0, 0, 0, 0, 0];
    let mut work = Work {
        frames: rule.scale.map(scale).into_iter().collect(),
        depth: 0,
        stack: Vec::new(),
    };
    let tokens = rule.condition;
    let mut at = 0;
    while at < tokens.len() {
        let token = &tokens[at];
        at += 1;
        match token.symbol {
            NUMBER | DECIMAL => {
                let decimals = decimals(token.bytes) as u8;
                work.operand(0x01, [decimals, 0, 0], value(token.bytes) as i32);
            }
            "i" => work.operand(0x02, [0, 0, 0], 0),
            NAME => {
                let end = at + closing_bracket(&tokens[at..]);
                work.reference(rule, &tokens[at - 1..end]);
                // Past "]" and ")".
                at = end + 2;
            }
            "abs" => {
                work.stack.push("abs");
                // Past its parenthesis.
                at += 1;
            }
            "!" | "{" | "(" => work.stack.push(token.symbol),
            "}" | ")" => work.close(),
            operator => work.binary(operator),
        }
    }
    work.pop_above(0);
    Postfix {
        frames: work.frames,
        depth: work.depth,
    }
}

fn closing_bracket(tokens: &[Token]) -> usize {
    tokens
        .iter()
        .position(|token| token.symbol == "]")
        .expect("a reference has its bracket")
}

struct Work {
    frames: Vec<[u8; 8]>,
    depth: usize,
    /// Operators whose right side is not complete, and open groups.
    stack: Vec<&'static str>,
}

impl Work {
    fn operand(&mut self, kind: u8, fields: [u8; 3], word: i32) {
        // What counts for depth stays on the stack exactly while its inside is read.
        let counts = |symbol: &&&str| matches!(**symbol, "!" | "{" | "(" | "abs" | "->");
        self.depth = self.depth.max(self.stack.iter().filter(counts).count());
        let [event, note, factor] = fields;
        let [a, b, c, d] = word.to_be_bytes();
        self.frames.push([kind, event, note, factor, a, b, c, d]);
    }

    /// A reference, from its note's name to before "]".
    fn reference(&mut self, rule: &Sections, tokens: &[Token]) {
        let note = number(rule.notes, &tokens[0]).expect("the note is declared");
        let event = number(rule.events, &tokens[2]).expect("the event is declared");
        let index = &tokens[4..];
        let factor = match index[0].symbol {
            NUMBER => value(index[0].bytes) as u8,
            _ => 1,
        };
        let offset = match index {
            [.., sign, last] if last.symbol == NUMBER => {
                let size = value(last.bytes) as i32;
                if sign.symbol == "-" {
                    -size
                } else {
                    size
                }
            }
            _ => 0,
        };
        self.operand(0x03, [event as u8, note as u8, factor], offset);
    }

    /// An operator between two operands.
    fn binary(&mut self, symbol: &'static str) {
        // "->" groups to the right, so an earlier one keeps waiting; the others group to the left.
        let level = binding(symbol);
        self.pop_above(if symbol == "->" { level } else { level - 1 });
        self.stack.push(symbol);
    }

    /// The end of a group.
    fn close(&mut self) {
        self.pop_above(0);
        if self.stack.pop() == Some("abs") {
            self.emit("abs");
        }
    }

    /// Completes the operators on top that bind more than a level.
    fn pop_above(&mut self, level: u8) {
        while let Some(top) = self.stack.last().copied() {
            if binding(top) <= level {
                break;
            }
            self.stack.pop();
            self.emit(top);
        }
    }

    fn emit(&mut self, symbol: &str) {
        self.frames.push([kind(symbol), 0, 0, 0, 0, 0, 0, 0]);
    }
}

/// How much an operator binds; an open group has 0.
fn binding(symbol: &str) -> u8 {
    match symbol {
        "->" => 1,
        "||" => 2,
        "&&" => 3,
        "!" => 4,
        "=" | "!=" | "<" | "<=" | ">" | ">=" => 5,
        "+" | "-" => 6,
        "*" => 7,
        _ => 0,
    }
}

fn kind(symbol: &str) -> u8 {
    match symbol {
        "+" => 0x11,
        "-" => 0x12,
        "*" => 0x13,
        "abs" => 0x14,
        "=" => 0x21,
        "!=" => 0x22,
        "<" => 0x23,
        "<=" => 0x24,
        ">" => 0x25,
        ">=" => 0x26,
        "!" => 0x31,
        "&&" => 0x32,
        "||" => 0x33,
        "->" => 0x34,
        _ => unreachable!("{symbol} is no operator"),
    }
}
