//! The value of a rule at one instance, and when it is settled.

use super::frames::{Condition, Relation, Rule, Sum};
use super::rational::Rational;

/// The three values. In this order, 'and' is the smaller and 'or' the larger of two.
#[derive(Clone, Copy, Debug, PartialEq, Eq, PartialOrd, Ord)]
pub enum Truth {
    False,
    Unknown,
    True,
}

impl From<bool> for Truth {
    fn from(holds: bool) -> Truth {
        if holds {
            Truth::True
        } else {
            Truth::False
        }
    }
}

impl std::ops::Not for Truth {
    type Output = Truth;

    fn not(self) -> Truth {
        match self {
            Truth::False => Truth::True,
            Truth::Unknown => Truth::Unknown,
            Truth::True => Truth::False,
        }
    }
}

/// What a reference is at one instance.
#[derive(Clone, Copy, Debug, PartialEq, Eq)]
pub enum Status {
    Void,
    Pending,
    Present(i32),
}

/// The verdict of instance i, given the status of each reference; nothing if it is not settled.
pub fn verdict(rule: &Rule, i: u32, statuses: &[Status]) -> Option<Truth> {
    let notes = Notes {
        i,
        statuses,
        decimals: rule.note_decimals(),
    };
    let value = notes.condition_value(&rule.condition);
    let pending = statuses.contains(&Status::Pending);
    let present = statuses
        .iter()
        .any(|status| matches!(status, Status::Present(_)));
    let settled = !pending || (present && value != Truth::Unknown);
    settled.then_some(value)
}

/// What the terms of a rule stand for at one instance.
struct Notes<'s> {
    i: u32,
    /// The status of each reference.
    statuses: &'s [Status],
    /// The decimals of each note.
    decimals: u32,
}

impl Notes<'_> {
    fn condition_value(&self, condition: &Condition) -> Truth {
        let value = |inner: &Condition| self.condition_value(inner);
        match condition {
            Condition::Relation(relation, left, right) => {
                match (self.sum_value(left), self.sum_value(right)) {
                    (Some(left), Some(right)) => Truth::from(holds(*relation, &left, &right)),
                    _ => Truth::Unknown,
                }
            }
            Condition::Not(inner) => !value(inner),
            Condition::And(left, right) => value(left).min(value(right)),
            Condition::Or(left, right) => value(left).max(value(right)),
            Condition::Implies(left, right) => (!value(left)).max(value(right)),
        }
    }

    /// The exact value of a sum; nothing if it names a reference that is not present.
    fn sum_value(&self, sum: &Sum) -> Option<Rational> {
        let value = |inner: &Sum| self.sum_value(inner);
        match sum {
            Sum::Literal(value, decimals) => Some(Rational::of(*value, (*decimals).into())),
            Sum::Instance => Some(Rational::of(self.i, 0)),
            Sum::Reference(number) => match self.statuses[*number] {
                Status::Present(note) => Some(Rational::of(note, self.decimals)),
                Status::Void | Status::Pending => None,
            },
            Sum::Add(left, right) => Some(value(left)? + value(right)?),
            Sum::Subtract(left, right) => Some(value(left)? - value(right)?),
            Sum::Multiply(left, right) => Some(value(left)? * value(right)?),
            Sum::Abs(inner) => value(inner).map(|value| value.abs()),
        }
    }
}

fn holds(relation: Relation, left: &Rational, right: &Rational) -> bool {
    match relation {
        Relation::Equal => left == right,
        Relation::Unequal => left != right,
        Relation::Less => left < right,
        Relation::AtMost => left <= right,
        Relation::Greater => left > right,
        Relation::AtLeast => left >= right,
    }
}
