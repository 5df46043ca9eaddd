//! An awk script that does for one rule what the bench program does: the same lines in, the same lines out.

use dillplatter_second::frames::{Condition, Reference, Relation, Rule, Sum};
use std::collections::BTreeSet;

const FUNCTIONS: &str = r#"
function min(a, b) { return a < b ? a : b }
function max(a, b) { return a > b ? a : b }
function abs(a) { return a < 0 ? -a : a }
function word(at) {
    v = H[substr($0, at, 2)] * 16777216 + H[substr($0, at + 2, 2)] * 65536
    v += H[substr($0, at + 4, 2)] * 256 + H[substr($0, at + 6, 2)]
    return v > 2147483647 ? v - 4294967296 : v
}
function unsigned(a) { return a < 0 ? a + 4294967296 : a }
function digit(k) { return k > 16 ? k - 7 : k - 1 }
BEGIN {
    digits = "0123456789ABCDEFabcdef"
    for (j = 1; j <= 22; j++) for (k = 1; k <= 22; k++)
        H[substr(digits, j, 1) substr(digits, k, 1)] = 16 * digit(j) + digit(k)
    while (pull());
}
length($0) != 34 || /[^0-9A-Fa-f]/ { refused++; while (pull()); next }
{ feed(H[substr($0, 1, 2)]); while (pull()); }
END { printf "%08X%08X%08X%08X%08X%08X\n", T[2], T[0], T[1], accepted, ignored, refused }
"#;

/// The script of a rule, with W 64. Values are 0 false, 1 unknown, 2 true; s, k, v are a reference's mark, occurrence, note.
pub fn script(rule: &Rule) -> String {
    [begin(rule).as_str(), FUNCTIONS, &feed(rule), &pull(rule)].concat()
}

/// Counts and lows are numbers before the first line, so that they name places of arrays.
fn begin(rule: &Rule) -> String {
    let zeros: String = events(rule)
        .into_iter()
        .map(|event| format!("c{event} = 0; low{event} = 0; "))
        .collect();
    format!("BEGIN {{ {zeros}p = {} }}", rule.start())
}

fn events(rule: &Rule) -> BTreeSet<usize> {
    rule.references
        .iter()
        .map(|reference| reference.event)
        .collect()
}

fn notes(rule: &Rule, event: usize) -> BTreeSet<usize> {
    let of_event = rule
        .references
        .iter()
        .filter(|reference| reference.event == event);
    of_event.map(|reference| reference.note).collect()
}

fn occurrence(reference: &Reference) -> String {
    format!("({} * p + {})", reference.factor, reference.offset)
}

/// The base of an event at p.
fn base(rule: &Rule, event: usize) -> String {
    let of_event = rule
        .references
        .iter()
        .filter(|reference| reference.event == event);
    let lows = of_event.map(|reference| format!("max(0, {})", occurrence(reference)));
    let lowest = lows.collect::<BTreeSet<String>>().into_iter();
    lowest
        .reduce(|a, b| format!("min({a}, {b})"))
        .expect("the event is referenced")
}

fn feed(rule: &Rule) -> String {
    let mut script = "function feed(e) {\n".to_string();
    for event in events(rule) {
        let store = |note: usize| format!("n{event}_{note}[c{event}] = word({}); ", 3 + 8 * note);
        let stores: String = notes(rule, event).into_iter().map(store).collect();
        script += &format!(
            "    if (e == {event}) {{\n        \
             if (c{event} >= 1000000 || c{event} >= low{event} + 64) {{ refused++; return }}\n        \
             {stores}c{event}++; accepted++; return\n    }}\n"
        );
    }
    script + "    ignored++\n}\n"
}

fn pull(rule: &Rule) -> String {
    let mut script = "function pull() {\n".to_string();
    for (r, reference) in rule.references.iter().enumerate() {
        let (event, note, k) = (reference.event, reference.note, occurrence(reference));
        script += &format!("    k = {k}; s{r} = k < 0 ? 2 : (k < c{event} ? 0 : 1); v{r} = s{r} ? 0 : n{event}_{note}[k]\n");
    }
    let all = |sign: &str, between: &str| {
        let each = (0..rule.references.len()).map(|r| format!("s{r} {sign}"));
        each.collect::<Vec<String>>().join(between)
    };
    let value = condition(&rule.condition, rule.note_decimals());
    script += &format!("    value = {value}\n");
    script += &format!(
        "    if ({}) if (value == 1 || !({})) return 0\n",
        all("== 1", " || "),
        all("== 0", " || ")
    );
    script += &format!(
        "    if (value == 0) {{ printf \"%08X00%02X\", p, {}",
        rule.references.len()
    );
    for r in 0..rule.references.len() {
        script += &format!("; printf \"%02X%08X\", s{r}, unsigned(v{r})");
    }
    script += "; print \"\" }\n    T[value]++; p++\n";
    for event in events(rule) {
        let deletes: String = notes(rule, event)
            .into_iter()
            .map(|note| format!("delete n{event}_{note}[low{event}]; "))
            .collect();
        script += &format!(
            "    b = {}; while (low{event} < b) {{ {deletes}low{event}++ }}\n",
            base(rule, event)
        );
    }
    script + "    return 1\n}\n"
}

/// A condition, with so many decimals of each note.
fn condition(tree: &Condition, of_notes: u32) -> String {
    let value = |inner: &Condition| condition(inner, of_notes);
    match tree {
        Condition::Relation(relation, left, right) => {
            let mut used = BTreeSet::new();
            let (left, right) = (
                sum(left, of_notes, &mut used),
                sum(right, of_notes, &mut used),
            );
            let holds = format!("({} ? 2 : 0)", together(left, sign(*relation), right).0);
            let missing: Vec<String> = used.into_iter().map(|r| format!("s{r}")).collect();
            if missing.is_empty() {
                return holds;
            }
            format!("({} ? 1 : {holds})", missing.join(" || "))
        }
        Condition::Not(inner) => format!("(2 - {})", value(inner)),
        Condition::And(left, right) => format!("min({}, {})", value(left), value(right)),
        Condition::Or(left, right) => format!("max({}, {})", value(left), value(right)),
        Condition::Implies(left, right) => {
            format!("max(2 - {}, {})", value(left), value(right))
        }
    }
}

fn sign(relation: Relation) -> &'static str {
    match relation {
        Relation::Equal => "==",
        Relation::Unequal => "!=",
        Relation::Less => "<",
        Relation::AtMost => "<=",
        Relation::Greater => ">",
        Relation::AtLeast => ">=",
    }
}

/// A sum as a whole number, and how many of its digits are decimals.
type Scaled = (String, u32);

/// A sum; the references that it names are added to a set. Awk's numbers are exact up to 2^53.
fn sum(tree: &Sum, of_notes: u32, used: &mut BTreeSet<usize>) -> Scaled {
    let mut two = |left: &Sum, right: &Sum| {
        let left = sum(left, of_notes, used);
        (left, sum(right, of_notes, used))
    };
    match tree {
        Sum::Literal(value, decimals) => (value.to_string(), u32::from(*decimals)),
        Sum::Instance => ("p".into(), 0),
        Sum::Reference(number) => {
            used.insert(*number);
            (format!("v{number}"), of_notes)
        }
        Sum::Add(left, right) => {
            let (left, right) = two(left, right);
            in_group(together(left, "+", right))
        }
        Sum::Subtract(left, right) => {
            let (left, right) = two(left, right);
            in_group(together(left, "-", right))
        }
        Sum::Multiply(left, right) => {
            let (left, right) = two(left, right);
            (format!("({} * {})", left.0, right.0), left.1 + right.1)
        }
        Sum::Abs(inner) => {
            let (inner, decimals) = sum(inner, of_notes, used);
            (format!("abs({inner})"), decimals)
        }
    }
}

fn in_group((text, decimals): Scaled) -> Scaled {
    (format!("({text})"), decimals)
}

/// Two sums with a sign between them, both with the decimals of the one that has more.
fn together(left: Scaled, sign: &str, right: Scaled) -> Scaled {
    let decimals = left.1.max(right.1);
    let [left, right] = [left, right].map(|(text, fewer)| match decimals - fewer {
        0 => text,
        more => format!("({text} * {})", 10_u64.pow(more)),
    });
    (format!("{left} {sign} {right}"), decimals)
}
