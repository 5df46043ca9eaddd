//! Numbers of a rule, and the first that refusals 5 and 18 name.

use super::names::Sections;
use super::text::{Token, DECIMAL, NUMBER};
use std::ops::RangeInclusive;

const FACTOR: RangeInclusive<u64> = 1..=9;
const OFFSET: RangeInclusive<u64> = 0..=9_999;
const LITERAL: RangeInclusive<u64> = 0..=2_147_483_647;
/// The most decimals of a note and of a literal.
pub const DECIMALS: u64 = 6;

/// The value of a number's digits, without the point if it has one; one too large for the type counts as the type's largest.
pub fn value(number: &[u8]) -> u64 {
    let digits = number.iter().filter(|byte| **byte != b'.');
    digits.fold(0, |value: u64, digit| {
        value
            .saturating_mul(10)
            .saturating_add(u64::from(digit - b'0'))
    })
}

/// How many digits of a number stand behind its point.
pub fn decimals(number: &[u8]) -> u64 {
    let from_behind = number.iter().rev().position(|byte| *byte == b'.');
    from_behind.unwrap_or_default() as u64
}

/// The place of the first of more than 6 decimals: in the clause, or in a literal.
pub fn bad_decimals(rule: &Sections) -> Option<usize> {
    let in_clause = rule.scale.filter(|number| value(number.bytes) > DECIMALS);
    let mut literals = rule.condition.iter();
    in_clause
        .or_else(|| {
            literals.find(|token| token.symbol == DECIMAL && decimals(token.bytes) > DECIMALS)
        })
        .map(|token| token.place)
}

/// The place of the first number beyond its limit in a condition.
pub fn bad_number(condition: &[Token]) -> Option<usize> {
    let mut in_index = false;
    for (k, token) in condition.iter().enumerate() {
        match token.symbol {
            "[" => in_index = true,
            "]" => in_index = false,
            NUMBER | DECIMAL => {
                let before_times = condition.get(k + 1).is_some_and(|next| next.symbol == "*");
                let limit = match (in_index, before_times) {
                    (true, true) => FACTOR,
                    (true, false) => OFFSET,
                    (false, _) => LITERAL,
                };
                if !limit.contains(&value(token.bytes)) {
                    return Some(token.place);
                }
            }
            _ => {}
        }
    }
    None
}
