//! What the documents say of refusals is what the table in docs/REFUSALS.md says: number, calls, what is wrong, place, and the order
//! in which a call tests.

use crate::shared::documents::{document, parts, rows};
use dillplatter_second::{read, Refusal};

/// A refusal as a document has it.
#[derive(Clone, Debug, PartialEq, Eq)]
struct Said {
    number: String,
    from: String,
    /// What is wrong, and the place if there is one.
    wrong: String,
}

/// A call, and its numbers in the order of test.
type Order = (String, Vec<String>);

/// A document, and how it is compared with the table.
type Compared = (&'static str, fn(&str) -> Vec<String>);

const COMPARED: [Compared; 4] = [
    ("include/dillplatter.h", header),
    ("docs/RULES.md", rules),
    ("docs/MAKERS.md", makers),
    ("docs/PROMISES.md", promises),
];

/// The table, with the name of each refusal in C.
fn table() -> Vec<(String, Said)> {
    let columns = ["Number", "In C", "From", "What is wrong", "Place"];
    let all = rows(&document("docs/REFUSALS.md"), columns);
    all.into_iter()
        .map(|[number, name, from, what, place]| {
            let wrong = match place.as_str() {
                "" => what,
                place => format!("{what}; place: {place}"),
            };
            let said = Said {
                number,
                from,
                wrong,
            };
            (name.trim_matches('`').to_string(), said)
        })
        .collect()
}

/// The orders of test below the table.
fn orders() -> Vec<Order> {
    let all = rows(&document("docs/REFUSALS.md"), ["Call", "Order of test"]);
    let order = |[call, numbers]: [String; 2]| (call, parts(&numbers));
    all.into_iter().map(order).collect()
}

/// The refusals of a table, without their names in C.
fn refusals() -> Vec<Said> {
    table().into_iter().map(|(_, said)| said).collect()
}

/// Where two lists differ, in words.
pub fn differences<T: PartialEq + std::fmt::Debug>(said: &[T], expected: &[T]) -> Vec<String> {
    let longer = said.len().max(expected.len());
    let pairs = (0..longer).map(|k| (said.get(k), expected.get(k)));
    pairs
        .filter(|(said, expected)| said != expected)
        .map(|(said, expected)| format!("{said:?}\nin place of\n{expected:?}"))
        .collect()
}

/// docs/RULES.md has the refusals of reading, in their order.
fn rules(text: &str) -> Vec<String> {
    let columns = ["Number", "What is wrong", "Example", "Its place"];
    let said: Vec<[String; 2]> = rows(text, columns)
        .into_iter()
        .map(|[number, wrong, _, _]| [number, wrong])
        .collect();
    let expected: Vec<[String; 2]> = refusals()
        .into_iter()
        .filter(|said| parts(&said.from).contains(&"read".into()))
        .map(|said| [said.number, said.wrong])
        .collect();
    differences(&said, &expected)
}

/// docs/MAKERS.md has all.
fn makers(text: &str) -> Vec<String> {
    let columns = ["Number", "From", "What is wrong", "What to do"];
    let all = rows(text, columns);
    let mut found = differences(&said(&all), &refusals());
    // What to do names the place where there is one, and only there.
    for [number, _, wrong, to_do] in all {
        if to_do.contains("`place`") != wrong.contains("; place: ") {
            found.push(format!("{number}: {to_do}"));
        }
    }
    found
}

/// docs/PROMISES.md has all, and the orders.
fn promises(text: &str) -> Vec<String> {
    let all = rows(text, ["Number", "From", "What is wrong", "Kept by"]);
    let kept = rows(text, ["Call", "Order of test", "Kept by"]);
    let order = |[call, numbers, _]: [String; 3]| (call, parts(&numbers));
    let said_orders: Vec<Order> = kept.into_iter().map(order).collect();
    let mut found = differences(&said(&all), &refusals());
    found.extend(differences(&said_orders, &orders()));
    found
}

/// The first three columns of a table.
fn said(rows: &[[String; 4]]) -> Vec<Said> {
    let said = |[number, from, wrong, _]: &[String; 4]| Said {
        number: number.clone(),
        from: from.clone(),
        wrong: wrong.clone(),
    };
    rows.iter().map(said).collect()
}

/// The header has all, with its name, and at each call the order.
fn header(text: &str) -> Vec<String> {
    let text = flowing(text);
    let mut found = differences(&enumerators(&text), &expected_enumerators());
    let said: Vec<Order> = orders()
        .into_iter()
        .map(|(call, _)| (call.clone(), order_at(&text, &call)))
        .collect();
    found.extend(differences(&said, &orders()));
    found
}

/// A text of C without its line breaks, and without the marks before the lines of a comment.
pub fn flowing(text: &str) -> String {
    let words = |line: &str| -> Vec<String> {
        let line = line.trim();
        let line = line.strip_prefix("* ").unwrap_or(line);
        line.split_whitespace().map(String::from).collect()
    };
    text.lines().flat_map(words).collect::<Vec<_>>().join(" ")
}

/// Each refusal of the header as `NAME = NUMBER`, and its comment up to the first full stop.
fn enumerators(text: &str) -> Vec<[String; 2]> {
    let inside = between(text, "enum dillplatter_refusal { ", " };");
    let mut rest = inside.strip_prefix("DILLPLATTER_NO_REFUSAL = 0, ");
    let mut found = Vec::new();
    while let Some((value, after)) = rest.and_then(|rest| rest.split_once(" /* ")) {
        let (comment, next) = after.split_once(" */").expect("a comment ends");
        let first = comment.split(". ").next().unwrap_or_default();
        found.push([value.trim_matches([' ', ',']).into(), first.into()]);
        rest = Some(next);
    }
    found
}

fn expected_enumerators() -> Vec<[String; 2]> {
    let enumerator = |(name, said): (String, Said)| {
        let Said {
            number,
            from,
            wrong,
        } = said;
        // C has no other sign for a product.
        let comment = format!("{from}: {wrong}").replace('×', "*");
        [format!("{name} = {number}"), comment]
    };
    table().into_iter().map(enumerator).collect()
}

/// The comment before a call.
pub fn comment_of<'t>(text: &'t str, call: &str) -> &'t str {
    let (before, _) = text
        .split_once(&format!(" dillplatter_{call}("))
        .expect("the call is declared");
    before.rsplit_once("/*").expect("it has a comment").1
}

/// The numbers that it says it is refused with.
fn order_at(text: &str, call: &str) -> Vec<String> {
    let (_, list) = comment_of(text, call)
        .split_once("refused with ")
        .expect("it says with what it is refused");
    let end = list.find(|c: char| !(c.is_ascii_digit() || " ,or".contains(c)));
    let list = list[..end.unwrap_or(list.len())].replace(" or ", ", ");
    let numbers = list.split(", ").map(|number| number.trim_matches(','));
    numbers
        .filter(|number| !number.is_empty())
        .map(String::from)
        .collect()
}

/// What stands between two texts.
pub fn between<'t>(text: &'t str, begin: &str, end: &str) -> &'t str {
    let (_, after) = text.split_once(begin).expect("it begins");
    after.split_once(end).expect("it ends").0
}

#[test]
fn the_documents_agree_on_refusals() {
    for (name, compare) in COMPARED {
        let found = compare(&document(name));
        assert!(found.is_empty(), "{name}\n{}", found.join("\n"));
    }
}

#[test]
fn the_table_has_the_calls_of_its_orders() {
    for said in refusals() {
        let calls: Vec<String> = orders()
            .into_iter()
            .filter(|(_, numbers)| numbers.contains(&said.number))
            .map(|(call, _)| call)
            .collect();
        assert_eq!(parts(&said.from), calls, "{}", said.number);
    }
    let listed = |number: &String| refusals().iter().any(|said| said.number == *number);
    for (call, numbers) in orders() {
        assert!(numbers.iter().all(listed), "{call}");
    }
}

#[test]
fn the_examples_in_the_rules_are_refused_as_said() {
    let columns = ["Number", "What is wrong", "Example", "Its place"];
    let mut texts = 0;
    for [number, _, example, place] in rows(&document("docs/RULES.md"), columns) {
        let Some(text) = example.strip_prefix('`').and_then(|e| e.strip_suffix('`')) else {
            continue;
        };
        let number = number.parse().unwrap();
        let place = place.split(':').next().unwrap().parse().unwrap();
        let refusal = Refusal { number, place };
        assert_eq!(read(text.as_bytes(), 512), Err(refusal), "{text}");
        texts += 1;
    }
    assert_eq!(texts, 7);
}

#[test]
fn the_texts_around_decimals_are_refused_as_said() {
    let all = rows(&document("docs/RULES.md"), ["Text", "Refused", "Why"]);
    assert_eq!(all.len(), 12);
    for [text, refused, _] in all {
        let text = format!("events a; notes t; {}", text.trim_matches('`'));
        let (number, rest) = refused.split_once(" at ").expect("it has a place");
        let place = rest.split(',').next().unwrap();
        let [number, place]: [usize; 2] = [number, place].map(|digits| digits.parse().unwrap());
        let refusal = Refusal {
            number: number as u8,
            place,
        };
        assert_eq!(read(text.as_bytes(), 512), Err(refusal), "{text}");
    }
}

/// The text of a document, the header's without its line breaks.
fn text_of(name: &str) -> String {
    let text = document(name);
    match name {
        "include/dillplatter.h" => flowing(&text),
        _ => text,
    }
}

/// What a document has of a refusal, as one piece of its text; nothing if it leaves it out.
fn piece(name: &str, in_c: &str, said: &Said) -> Option<String> {
    let Said {
        number,
        from,
        wrong,
    } = said;
    match name {
        "include/dillplatter.h" => {
            let last = table().last().is_some_and(|(last, _)| last == in_c);
            let comma = if last { "" } else { "," };
            let piece = format!("{in_c} = {number}{comma} /* {from}: {wrong}");
            Some(piece.replace('×', "*"))
        }
        "docs/RULES.md" => from
            .contains("read")
            .then(|| format!("| {number} | {wrong} |")),
        _ => Some(format!("| {number} | {from} | {wrong} |")),
    }
}

/// What a document has of an order, as one piece of its text; nothing if it has no orders.
fn order_piece(name: &str, call: &str, numbers: &[String]) -> Option<String> {
    match (name, numbers.split_last()?) {
        ("include/dillplatter.h", (last, [])) => Some(format!("refused with {last}")),
        ("include/dillplatter.h", (last, others)) => {
            Some(format!("refused with {} or {last}", others.join(", ")))
        }
        ("docs/PROMISES.md", _) => Some(format!("| {call} | {} |", numbers.join(", "))),
        _ => None,
    }
}

/// A document with one piece of it changed is found to differ.
fn is_seen((name, compare): Compared, text: &str, old: &str, new: &str) {
    assert_eq!(text.matches(old).count(), 1, "{name}: {old}");
    assert!(
        !compare(&text.replace(old, new)).is_empty(),
        "{name}: {new}"
    );
}

#[test]
fn a_change_of_any_word_is_seen() {
    let mut changes = 0;
    for compared in COMPARED {
        let text = text_of(compared.0);
        for (in_c, said) in table() {
            let Some(piece) = piece(compared.0, &in_c, &said) else {
                continue;
            };
            // One letter or digit more at the end of each word and number.
            let in_word = |c: char| c.is_ascii_alphanumeric();
            let ends = (1..=piece.len())
                .filter(|end| piece.is_char_boundary(*end))
                .filter(|end| {
                    piece[..*end].ends_with(in_word) && !piece[*end..].starts_with(in_word)
                });
            for end in ends {
                let changed = [&piece[..end], "1", &piece[end..]].concat();
                is_seen(compared, &text, &piece, &changed);
                changes += 1;
            }
        }
    }
    assert!(changes > 1_000, "{changes}");
}

#[test]
fn a_change_of_any_order_is_seen() {
    let mut changes = 0;
    for compared in COMPARED {
        let text = text_of(compared.0);
        for (call, numbers) in orders() {
            let Some(piece) = order_piece(compared.0, &call, &numbers) else {
                continue;
            };
            let mut others = vec![[&numbers[..], &["99".to_string()]].concat()];
            if numbers.len() > 1 {
                others.push(numbers.iter().rev().cloned().collect());
                others.push(numbers[1..].to_vec());
            }
            for other in others {
                let changed = order_piece(compared.0, &call, &other).expect("it has a number");
                is_seen(compared, &text, &piece, &changed);
                changes += 1;
            }
        }
    }
    assert!(changes > 30, "{changes}");
}
