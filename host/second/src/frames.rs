//! Frames as a rule tree, and what opening refuses of them: 9, 10, 7, 8.

use super::integer::Integer;
use super::Refusal;

/// A note of one event, at an occurrence that depends on the instance.
#[derive(Clone, Debug, PartialEq, Eq)]
pub struct Reference {
    pub event: usize,
    pub note: usize,
    pub factor: i64,
    pub offset: i64,
}

impl Reference {
    /// The occurrence number meant by instance i; below 0 there is none.
    pub fn occurrence(&self, i: u32) -> i64 {
        self.factor * i64::from(i) + self.offset
    }

    /// Whether it is void at i.
    pub fn is_void(&self, i: u32) -> bool {
        self.occurrence(i) < 0
    }
}

#[derive(Clone, Debug, PartialEq, Eq)]
pub enum Sum {
    /// Its digits without the point, and how many stand behind the point.
    Literal(i32, u8),
    Instance,
    /// The reference's number in frame order.
    Reference(usize),
    Add(Box<Sum>, Box<Sum>),
    Subtract(Box<Sum>, Box<Sum>),
    Multiply(Box<Sum>, Box<Sum>),
    Abs(Box<Sum>),
}

#[derive(Clone, Copy, Debug, PartialEq, Eq)]
pub enum Relation {
    Equal,
    Unequal,
    Less,
    AtMost,
    Greater,
    AtLeast,
}

#[derive(Clone, Debug, PartialEq, Eq)]
pub enum Condition {
    Relation(Relation, Sum, Sum),
    Not(Box<Condition>),
    And(Box<Condition>, Box<Condition>),
    Or(Box<Condition>, Box<Condition>),
    Implies(Box<Condition>, Box<Condition>),
}

/// A rule: the decimals that its clause gives to notes, its condition, and its references in frame order.
#[derive(Clone, Debug, PartialEq, Eq)]
pub struct Rule {
    /// Nothing if it has no clause of a scale.
    pub scale: Option<u8>,
    pub condition: Condition,
    pub references: Vec<Reference>,
}

impl Rule {
    /// The decimals of each note.
    pub fn note_decimals(&self) -> u32 {
        self.scale.unwrap_or_default().into()
    }

    /// Whether i is an instance: one at which all references are void is none.
    pub fn is_instance(&self, i: u32) -> bool {
        self.references
            .iter()
            .any(|reference| !reference.is_void(i))
    }

    /// The first instance: verdicts begin there.
    pub fn start(&self) -> u32 {
        // With factor 1 and offset -9,999 it is 9,999, and no reference begins later.
        (0..=9_999)
            .find(|i| self.is_instance(*i))
            .expect("a rule has a reference")
    }

    /// The smallest of max(0, factor x p + offset) over an event's references; nothing if it has none.
    pub fn base(&self, event: usize, p: u32) -> Option<i64> {
        self.references
            .iter()
            .filter(|reference| reference.event == event)
            .map(|reference| reference.occurrence(p).max(0))
            .min()
    }
}

/// The rule that bytes hold, unless 9, 10, 7 or 8 refuses them, in this order.
pub fn check(bytes: &[u8]) -> Result<Rule, Refusal> {
    if !(8..=512).contains(&bytes.len()) || !bytes.len().is_multiple_of(8) {
        return Err(Refusal::of(9));
    }
    let frames: Vec<[u8; 8]> = bytes
        .chunks_exact(8)
        .map(|frame| frame.try_into().expect("a frame has 8 bytes"))
        .collect();
    let rule = rule(&frames).map_err(|place| Refusal::at(10, place))?;
    if rule.references.is_empty() {
        return Err(Refusal::of(7));
    }
    if !within_magnitude(&rule) {
        return Err(Refusal::of(8));
    }
    Ok(rule)
}

/// A complete operand.
enum Tree {
    Sum(Sum),
    Condition(Condition),
}

/// The scale of a frame, unless it is none of a scale. One that a scale has not is no frame of any rule.
fn scale(frame: &[u8; 8]) -> Option<u8> {
    match *frame {
        [0x04, decimals @ 0..=6, 0, 0, 0, 0, 0, 0] => Some(decimals),
        _ => None,
    }
}

/// The rule of a list of frames, or the place of refusal 10.
pub fn rule(frames: &[[u8; 8]]) -> Result<Rule, usize> {
    let scale = frames.first().and_then(scale);
    let mut references = Vec::new();
    let mut operands: Vec<Tree> = Vec::new();
    // Behind the scale's frame, every frame ends a tree.
    for (place, frame) in frames.iter().enumerate().skip(scale.iter().len()) {
        let most_decimals = if scale.is_some() { 6 } else { 0 };
        let tree = tree(frame, most_decimals, &mut operands, &mut references).ok_or(place)?;
        operands.push(tree);
        if stuck(&operands) {
            return Err(place);
        }
    }
    match (operands.pop(), operands.pop()) {
        (Some(Tree::Condition(condition)), None) => Ok(Rule {
            scale,
            condition,
            references,
        }),
        _ => Err(frames.len()),
    }
}

/// Whether no further frames make one condition of these operands: no operator takes a sum to its left and a
/// condition to its right.
fn stuck(operands: &[Tree]) -> bool {
    operands
        .windows(2)
        .any(|pair| matches!(pair, [Tree::Sum(_), Tree::Condition(_)]))
}

/// The tree that ends with a frame, a literal with so many decimals at the most; nothing if a field or an operand is wrong.
fn tree(
    frame: &[u8; 8],
    most_decimals: u8,
    operands: &mut Vec<Tree>,
    references: &mut Vec<Reference>,
) -> Option<Tree> {
    let [kind, fields @ ..] = *frame;
    match kind {
        0x01..=0x03 => operand(frame, most_decimals, references).map(Tree::Sum),
        _ if fields != [0; 7] => None,
        0x11..=0x14 => arithmetic(kind, operands).map(Tree::Sum),
        0x21..=0x26 => comparison(kind, operands).map(Tree::Condition),
        0x31..=0x34 => connective(kind, operands).map(Tree::Condition),
        _ => None,
    }
}

/// A literal, the instance, or a reference, which is added to the list.
fn operand(frame: &[u8; 8], most_decimals: u8, references: &mut Vec<Reference>) -> Option<Sum> {
    let [kind, event, note, factor, a, b, c, d] = *frame;
    let fields = [event, note, factor];
    let word = i32::from_be_bytes([a, b, c, d]);
    match kind {
        0x01 => {
            // Byte 1 has its decimals.
            let fits = event <= most_decimals && fields[1..] == [0; 2] && word >= 0;
            fits.then_some(Sum::Literal(word, event))
        }
        0x02 if fields == [0; 3] && word == 0 => Some(Sum::Instance),
        0x03 => {
            references.push(reference(fields, word)?);
            Some(Sum::Reference(references.len() - 1))
        }
        _ => None,
    }
}

/// The reference of a frame's fields, unless one is beyond its limits.
fn reference([event, note, factor]: [u8; 3], offset: i32) -> Option<Reference> {
    let fits =
        event <= 7 && note <= 3 && (1..=9).contains(&factor) && (-9_999..=9_999).contains(&offset);
    fits.then(|| Reference {
        event: usize::from(event),
        note: usize::from(note),
        factor: i64::from(factor),
        offset: i64::from(offset),
    })
}

/// An operator between sums, or `abs`.
fn arithmetic(kind: u8, operands: &mut Vec<Tree>) -> Option<Sum> {
    if kind == 0x14 {
        return sum(operands).map(Sum::Abs);
    }
    let (left, right) = two_sums(operands)?;
    match kind {
        0x11 => Some(Sum::Add(left, right)),
        0x12 => Some(Sum::Subtract(left, right)),
        0x13 => Some(Sum::Multiply(left, right)),
        _ => None,
    }
}

/// A relation of two sums.
fn comparison(kind: u8, operands: &mut Vec<Tree>) -> Option<Condition> {
    let relation = match kind {
        0x21 => Relation::Equal,
        0x22 => Relation::Unequal,
        0x23 => Relation::Less,
        0x24 => Relation::AtMost,
        0x25 => Relation::Greater,
        0x26 => Relation::AtLeast,
        _ => return None,
    };
    let (left, right) = two_sums(operands)?;
    Some(Condition::Relation(relation, *left, *right))
}

/// 'Not', or an operator between conditions.
fn connective(kind: u8, operands: &mut Vec<Tree>) -> Option<Condition> {
    if kind == 0x31 {
        return condition(operands).map(Condition::Not);
    }
    let (left, right) = two_conditions(operands)?;
    match kind {
        0x32 => Some(Condition::And(left, right)),
        0x33 => Some(Condition::Or(left, right)),
        0x34 => Some(Condition::Implies(left, right)),
        _ => None,
    }
}

fn sum(operands: &mut Vec<Tree>) -> Option<Box<Sum>> {
    match operands.pop() {
        Some(Tree::Sum(sum)) => Some(Box::new(sum)),
        _ => None,
    }
}

fn two_sums(operands: &mut Vec<Tree>) -> Option<(Box<Sum>, Box<Sum>)> {
    let right = sum(operands)?;
    Some((sum(operands)?, right))
}

fn condition(operands: &mut Vec<Tree>) -> Option<Box<Condition>> {
    match operands.pop() {
        Some(Tree::Condition(condition)) => Some(Box::new(condition)),
        _ => None,
    }
}

fn two_conditions(operands: &mut Vec<Tree>) -> Option<(Box<Condition>, Box<Condition>)> {
    let right = condition(operands)?;
    Some((condition(operands)?, right))
}

/// Whether no magnitude in a rule exceeds 2^62.
pub fn within_magnitude(rule: &Rule) -> bool {
    no_excess(&rule.condition, rule.note_decimals())
}

/// The same of a condition, with so many decimals of each note. The two sides of a relation are those of one count.
fn no_excess(condition: &Condition, of_notes: u32) -> bool {
    match condition {
        Condition::Relation(_, left, right) => {
            let sides = Magnitude::of(left, of_notes).zip(Magnitude::of(right, of_notes));
            sides.is_some_and(|(left, right)| {
                let (left, right, _) = brought(&left, &right);
                fits(&left) && fits(&right)
            })
        }
        Condition::Not(inner) => no_excess(inner, of_notes),
        Condition::And(left, right)
        | Condition::Or(left, right)
        | Condition::Implies(left, right) => {
            no_excess(left, of_notes) && no_excess(right, of_notes)
        }
    }
}

/// The magnitude of a sum, with its count of decimals.
struct Magnitude {
    size: Integer,
    count: u32,
}

impl Magnitude {
    /// That of a sum, unless it or one inside exceeds 2^62.
    fn of(sum: &Sum, of_notes: u32) -> Option<Magnitude> {
        let inside = |inner: &Sum| Magnitude::of(inner, of_notes);
        let (size, count) = match sum {
            Sum::Literal(value, decimals) => (i128::from(*value).into(), u32::from(*decimals)),
            Sum::Instance => ((1 << 20).into(), 0),
            Sum::Reference(_) => ((1 << 31).into(), of_notes),
            Sum::Add(left, right) | Sum::Subtract(left, right) => {
                let (left, right, count) = brought(&inside(left)?, &inside(right)?);
                (&left + &right, count)
            }
            Sum::Multiply(left, right) => {
                let (left, right) = (inside(left)?, inside(right)?);
                (&left.size * &right.size, left.count + right.count)
            }
            Sum::Abs(inner) => return inside(inner),
        };
        fits(&size).then_some(Magnitude { size, count })
    }
}

/// Two magnitudes brought to the greater count, and that count.
fn brought(left: &Magnitude, right: &Magnitude) -> (Integer, Integer, u32) {
    let count = left.count.max(right.count);
    let [left, right] = [left, right].map(|one| &one.size * &Integer::ten_to(count - one.count));
    (left, right, count)
}

/// Whether a magnitude does not exceed 2^62.
fn fits(size: &Integer) -> bool {
    *size <= (1 << 62).into()
}
