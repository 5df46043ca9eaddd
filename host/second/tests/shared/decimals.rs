//! Decimals in rules (document 02, point 1), by any checker.

use super::damage::damage_decimals;
use super::driven::{Driven, FALSE, TRUE};
use super::forged::number;
use super::log::line;
use super::random::{self, rule, with_point, Random};
use dillplatter_second::{Fed, Profile, Pulled, Refusal, State, Totals, Truth};
use std::cmp::Ordering;

/// What comes before the clause, or before the condition.
const HEAD: &str = "events a b; notes t u; ";
/// The greatest magnitude.
const MOST: u128 = 1 << 62;
/// The greatest literal.
const LARGEST: u128 = 2_147_483_647;

/// The relations, by their kind less 21, as the order of their sides has them.
fn holds(relation: usize, order: Ordering) -> bool {
    match relation {
        0 => order.is_eq(),
        1 => order.is_ne(),
        2 => order.is_lt(),
        3 => order.is_le(),
        4 => order.is_gt(),
        _ => order.is_ge(),
    }
}

const RELATIONS: [&str; 6] = ["=", "!=", "<", "<=", ">", ">="];

fn pulled(holds: bool) -> Pulled {
    Pulled::Verdict(Truth::from(holds))
}

/// The number of frames of a text, or number and place of its refusal.
#[track_caller]
fn answer<C: Driven>(text: &str) -> Result<usize, (u8, usize)> {
    C::frames_of(text.as_bytes())
        .map(|frames| frames.len() / 8)
        .map_err(|Refusal { number, place }| (number, place))
}

/// A checker with W 1 at instance i, which has a line of a, and a reading of all words of its window.
#[track_caller]
fn at_instance<C: Driven>(frames: &[u8], i: u32, window: [i32; 32]) -> C {
    let fresh = C::of_frames(Profile::Desk, frames, 1);
    let mut state: State = fresh.state().clone();
    assert_eq!(state.p, 0);
    for frame in frames.chunks_exact(8).filter(|frame| frame[0] == 3) {
        state.counts[usize::from(frame[1])] = i + 1;
    }
    state.p = i;
    state.totals = Totals {
        held: i,
        ..Totals::default()
    };
    C::summed(state, window.to_vec())
}

/// The verdict of each line of event a, as note t and the others 0, with the rule's text and W 16.
#[track_caller]
fn verdicts<C: Driven>(text: &str, notes: &[[i32; 2]]) -> Vec<Pulled> {
    let mut checker = C::of_text(text, 16);
    for [t, u] in notes {
        assert_eq!(checker.feed(&line(0, [*t, *u, 0, 0])), Fed::Accepted);
    }
    notes.iter().map(|_| checker.pull(&mut [0; 166])).collect()
}

/// An allowance of 12.5 mm: its frames, its verdicts, and a report with the note as the line has it.
pub fn the_allowance<C: Driven>() {
    let text = "events cut; notes mm; scale 1; mm(cut[i]) <= 12.5";
    let expected = [
        [4, 1, 0, 0, 0, 0, 0, 0],
        [3, 0, 0, 1, 0, 0, 0, 0],
        [1, 1, 0, 0, 0, 0, 0, 125],
        [0x24, 0, 0, 0, 0, 0, 0, 0],
    ];
    assert_eq!(C::frames_of(text.as_bytes()), Ok(expected.concat()));
    let notes = [[124, 0], [125, 0], [126, 0], [i32::MIN, 0], [i32::MAX, 0]];
    assert_eq!(
        verdicts::<C>(text, &notes),
        [TRUE, TRUE, FALSE, TRUE, FALSE]
    );
    let mut checker = C::of_text(text, 1);
    assert_eq!(checker.feed(&line(0, [126, 0, 0, 0])), Fed::Accepted);
    let mut report = [0xA5; 166];
    assert_eq!(checker.pull(&mut report), FALSE);
    assert_eq!(report[..11], [0, 0, 0, 0, 0, 1, 0, 0, 0, 0, 126]);
    assert!(report[11..].iter().all(|byte| *byte == 0xA5));
}

/// A note of each scale against literals of each number of decimals, on both sides of equal, by each relation. What holds is found
/// by multiplying either side with the other's power of ten.
pub fn relations_of_every_scale<C: Driven>() {
    let mut equal = 0;
    for scale in 0..=6_u32 {
        for decimals in 0..=6_u32 {
            for literal in [0, 1, 25, 1_250, 3_000_000, 2_147_483_647_i128] {
                let near = literal * 10_i128.pow(scale) / 10_i128.pow(decimals);
                let near = near.min(i128::from(i32::MAX) - 1) as i32;
                let notes = [near - 1, near, near + 1, -near, i32::MIN, i32::MAX];
                for (k, relation) in RELATIONS.into_iter().enumerate() {
                    let number = with_point(literal as usize, decimals as usize, 0);
                    let text = format!("{HEAD}scale {scale}; t(a[i]) {relation} {number}");
                    let order = |note: i32| {
                        let left = i128::from(note) * 10_i128.pow(decimals);
                        left.cmp(&(literal * 10_i128.pow(scale)))
                    };
                    let expected = notes.map(|note| pulled(holds(k, order(note))));
                    let found = verdicts::<C>(&text, &notes.map(|note| [note, 0]));
                    assert_eq!(found, expected, "{text} {notes:?}");
                    equal += notes.iter().filter(|note| order(**note).is_eq()).count();
                }
            }
        }
    }
    assert!(equal > 1_000, "{equal}");
}

/// Numbers that are equal stay so with each scale, whatever zeros stand at their end.
pub fn equal_numbers<C: Driven>() {
    for scale in 0..=6 {
        for condition in [
            "12.50 = 12.5",
            "12.500000 = 12.5",
            "0012.5 = 12.500",
            "3.0 = 3",
            "0.000000 = 0",
            "1.5 * 1.5 = 2.25",
            "0.1 + 0.02 = 0.12",
            "0.1 - 0.02 = 0.08",
            "abs(0.02 - 0.1) = 0.08",
            "0.5 * 2 = 1",
            "i + 0.5 = 0.50",
            "!{12.50 != 12.5}",
            "12.50 < 12.500001",
            "t(a[i]) * 0.5 = t(a[i]) - t(a[i]) * 0.50",
            "t(a[i]) + 0.000000 = t(a[i])",
        ] {
            let text = format!("{HEAD}scale {scale}; t(a[i]) = t(a[i]) && {condition}");
            let notes = [[i32::MIN, 0]];
            assert_eq!(verdicts::<C>(&text, &notes), [TRUE], "{text}");
        }
    }
    // A product of two notes with 6 decimals: 1 x 0.000001, and more.
    let text = format!("{HEAD}scale 6; t(a[i]) * u(a[i]) = 0.000001");
    let notes = [[1_000_000, 1], [1_000_000, 2], [1, 1], [1_000, 1_000]];
    assert_eq!(verdicts::<C>(&text, &notes), [TRUE, FALSE, FALSE, TRUE]);
    // i has no decimals: instance 1 is 1.0.
    let text = format!("{HEAD}scale 1; t(a[i]) = i");
    assert_eq!(
        verdicts::<C>(&text, &[[0, 0], [10, 0], [2, 0]]),
        [TRUE, TRUE, FALSE]
    );
}

/// A sum of magnitude n and no decimals, with n up to (2^31 - 1) x (2^31 - 1) and a little more.
fn whole(n: u128) -> String {
    if n <= LARGEST {
        return n.to_string();
    }
    let times = (n / LARGEST).min(LARGEST);
    let mut rest = n - times * LARGEST;
    let mut text = format!("{LARGEST}*{times}");
    while rest > 0 {
        let part = rest.min(LARGEST);
        text += &format!("+{part}");
        rest -= part;
    }
    format!("({text})")
}

/// A product of literals, the first n and the others some digit, with so many decimals together.
fn literals(n: u128, others: usize, mut decimals: usize) -> String {
    let first = decimals.min(6);
    let mut text = with_point(n as usize, first, 0);
    decimals -= first;
    while decimals > 0 {
        let some = decimals.min(6);
        text += &format!("*{}", with_point(others, some, 0));
        decimals -= some;
    }
    text
}

/// The magnitude 2^62 from both sides, of a sum, a difference and either side of a relation, after they are brought to more
/// decimals by every power of ten that leaves anything; a power over 18 leaves only 0.
pub fn magnitudes<C: Driven>() {
    let [mut within, mut over] = [0; 2];
    let mut check = |scale: usize, condition: &str, fits: bool| {
        let text = format!("{HEAD}scale {scale}; t(a[i]) = t(a[i]) && {condition}");
        let number = answer::<C>(&text).map(|_| ());
        assert_eq!(number, if fits { Ok(()) } else { Err((8, 0)) }, "{text}");
        *(if fits { &mut within } else { &mut over }) += 1;
    };
    for power in 0..=40_usize {
        let most = 10_u128
            .checked_pow(power as u32)
            .map_or(0, |ten| MOST / ten);
        let zero = literals(0, 0, power);
        for n in [0, most, most + 1] {
            let (n, fits) = (whole(n), n <= most);
            for scale in [0, 6] {
                check(scale, &format!("{n} = {zero}"), fits);
                check(scale, &format!("{zero} <= {n}"), fits);
                check(scale, &format!("{n} + {zero} > 0"), fits);
                check(scale, &format!("0 != {zero} - {n}"), fits);
                check(scale, &format!("abs({n} - {zero}) > 0"), fits);
                check(scale, &format!("({n} + {zero}) * 0 > 0"), fits);
            }
        }
    }
    // A note of 2^31, and i of 2^20, times a literal.
    for scale in 0..=6_usize {
        for power in 0..=13_usize {
            let ten = 10_u128.pow(power as u32);
            for (term, size, count) in [("u(b[i])", 1 << 31, scale), ("i", 1 << 20, 0)] {
                let most = MOST / (ten * size);
                for n in [most, most + 1] {
                    if n > LARGEST {
                        continue;
                    }
                    let zero = literals(0, 0, count + power);
                    check(scale, &format!("{term}*{n} = {zero}"), n == most);
                    check(
                        scale,
                        &format!("0 > 0*i + ({zero} - {n}*{term})"),
                        n == most,
                    );
                }
            }
        }
    }
    // A product adds the counts: two notes take no power more, whatever the scale.
    for scale in 0..=6_usize {
        for more in [0, 1] {
            let zero = literals(0, 0, 2 * scale + more);
            check(scale, &format!("t(a[i])*u(b[i]) = {zero}"), more == 0);
            check(scale, &format!("t(a[i])*u(b[i]) + {zero} = 0"), more == 0);
        }
    }
    assert!(within > 1_000 && over > 500, "{within} {over}");
}

/// Counts of decimals far over 18, where both sides have them or the other is 0.
pub fn counts_beyond_18<C: Driven>() {
    let notes = [[i32::MIN, 0], [i32::MAX, 0], [7, 0]];
    let mut judged = 0;
    for decimals in [18, 19, 24, 37, 38, 39, 40, 60, 84] {
        // One over 10 to so many decimals, and two.
        let (one, two) = (literals(1, 1, decimals), literals(2, 1, decimals));
        let zero = literals(0, 0, decimals);
        for (condition, expected) in [
            (format!("{one} < {two}"), TRUE),
            (format!("{one} = {two}"), FALSE),
            (format!("{one} + {one} = {two}"), TRUE),
            (format!("{one} - {two} < 0*t(a[i])"), TRUE),
            (format!("abs({one} - {two}) = {one}"), TRUE),
            (format!("{zero} = 0*t(a[i])"), TRUE),
            (format!("0*t(a[i]) + {zero} >= {one}"), FALSE),
        ] {
            let text = format!("{HEAD}scale 3; t(a[i]) = t(a[i]) && {condition}");
            match answer::<C>(&text) {
                Ok(_) => {
                    assert_eq!(verdicts::<C>(&text, &notes), [expected; 3], "{text}");
                    judged += 1;
                }
                // Some are too long.
                refused => assert_eq!(refused, Err((6, 0)), "{text}"),
            }
        }
    }
    assert!(judged > 50, "{judged}");
}

/// Texts with a clause, points and the word.
pub fn texts<C: Driven>() {
    // The number of the refusal, 0 for a text that is read; a bar stands before its place.
    let cases: [(u8, &str); 68] = [
        // The word is the clause only before a number.
        (0, "events a; notes t; scale 2; t(a[i]) > 0"),
        (0, "events a; notes t;scale2;t(a[i])>0"),
        (0, "events a; notes t;\nscale\n2\n;\nt(a[i]) > 0"),
        (0, "events a; notes scale; scale(a[i]) > 0"),
        (0, "events a; notes scale; scale (a[i]) > 0"),
        (0, "events scale; notes t; t(scale[i]) > 0"),
        (
            0,
            "events scale; notes scale; scale 2; scale(scale[i]) > 0.5",
        ),
        (
            0,
            "events scale a; notes t scale; scale 0; scale(a[i]) > t(scale[i])",
        ),
        (3, "events a; notes t; scale|"),
        (3, "events a; notes t; scale |x"),
        (3, "events a; notes t; scale |; t(a[i]) > 0"),
        (3, "events a; notes t; scale |= 2"),
        (3, "events a; notes t; scale 2|"),
        (3, "events a; notes t; scale 2 |3; t(a[i]) > 0"),
        (3, "events a; notes t; scale 2;|"),
        (3, "events a; notes t; scale 2; scale |3; t(a[i]) > 0"),
        (3, "events a; notes t; scalex |2; t(a[i]) > 0"),
        (3, "events a; notes t; 2|; t(a[i]) > 0"),
        (3, "events scale |5"),
        (3, "events scale |2; notes t; t(scale[i]) > 0"),
        (3, "events a; |scale 2; notes t; t(a[i]) > 0"),
        (3, "|scale 2; events a; notes t; t(a[i]) > 0"),
        (3, "events a; notes t; t(a[i]) > 0 |scale 2;"),
        (3, "events a; notes t; t(a[i]) > 0|; scale 2;"),
        (3, "events a; notes t; {scale |2; t(a[i]) > 0}"),
        (4, "events a; notes t; |scale(a[i]) > 0"),
        (4, "events a; notes t; scale 1; |scale(a[i]) > 0"),
        (4, "events a; notes t; scale 1; t(|scale[i]) > 0"),
        // The point.
        (0, "events a; notes t; scale 1; t(a[i]) > 0.5"),
        (0, "events a; notes t; scale 1; 1.5*t(a[i]) > 1.5-2.5+(0.5)"),
        (3, "events a; notes t; t(a[i]) > 0|.5"),
        (3, "events a; notes scale; scale(a[i]) > 0|.5"),
        (3, "events a; notes t; scale 2|.5; t(a[i]) > 0"),
        (3, "events a; notes t; scale 2|.; t(a[i]) > 0"),
        (3, "events a; notes t; scale |.5; t(a[i]) > 0"),
        (3, "events a|.b; notes t; scale 1; t(a[i]) > 0"),
        (3, "events a; notes t; scale 1; t(a[i]) > 0|."),
        (3, "events a; notes t; scale 1; t(a[i]) > |.5"),
        (3, "events a; notes t; scale 1; t(a[i]) > 0.5|."),
        (3, "events a; notes t; scale 1; t(a[i]) > 1.2|.3"),
        (3, "events a; notes t; scale 1; t(a[i]) > 1.2|.3.4"),
        (3, "events a; notes t; scale 1; t(a[i]) > 0|..5"),
        (3, "events a; notes t; scale 1; t(a[i]) > 0 |.5"),
        (3, "events a; notes t; scale 1; t(a[i]) > 0|. 5"),
        (3, "events a; notes t; scale 1; t(a[i]) > 0|.x"),
        (3, "events a; notes t; scale 1; t|.5(a[i]) > 0"),
        (3, "events a; notes t; scale 1; t(a[|2.0*i]) > 0"),
        (3, "events a; notes t; scale 1; t(a[i+|1.0]) > 0"),
        (3, "events a; notes t; scale 1; t(a[i]) |1.5 > 0"),
        (3, "events a; notes t; scale 1; i|.5 > t(a[i])"),
        // 18, and 5 of a literal's digits without the point.
        (0, "events a; notes t; scale 6; t(a[i]) > 0.000000"),
        (
            0,
            "events a; notes t; scale 0000000000000000000000006; t(a[i]) > 0",
        ),
        (18, "events a; notes t; scale |7; t(a[i]) > 0"),
        (18, "events a; notes t; scale |0007; t(a[i]) > 0"),
        (
            18,
            "events a; notes t; scale |18446744073709551616; t(a[i]) > 0",
        ),
        (18, "events a; notes t; scale 6; t(a[i]) > |0.0000000"),
        (18, "events a; notes t; scale |7; t(a[i]) > 0.0000000"),
        (
            18,
            "events a; notes t; scale 0; 1.000000 > |1.0000000 && t(a[i]) > 2.0000000",
        ),
        (18, "events a; notes t; scale 1; t(a[i]) > |2.147483647"),
        (0, "events a; notes t; scale 1; t(a[i]) > 2147.483647"),
        (5, "events a; notes t; scale 1; t(a[i]) > |2147.483648"),
        (5, "events a; notes t; scale 1; t(a[i]) > |2147483647.0"),
        (5, "events a; notes t; scale 1; t(a[i]) > |2.147483648"),
        (5, "events a; notes t; scale 7; 1.0000000 > |2147483648"),
        (5, "events a; notes t; scale 7; t(a[|0*i]) > 1.0000000"),
        (4, "events a |a; notes t; scale 7; t(a[i]) > 0"),
        (18, "events a; notes t; scale |7; i > 0"),
        (7, "events a; notes t; scale 6; i > 0.5"),
    ];
    for (number, barred) in cases {
        let text = barred.replace('|', "");
        let found = answer::<C>(&text).map(|_| ());
        let expected = match (number, barred.find('|')) {
            (0, _) => Ok(()),
            (_, place) => Err((number, place.unwrap_or_default())),
        };
        assert_eq!(found, expected, "{barred}");
    }
    orders::<C>();
}

/// 18 comes before 6, 7 and 8; the frame of the scale counts among the 64.
fn orders<C: Driven>() {
    let sum = |n: usize| vec!["t(a[i])"; n].join("+");
    for (condition, clause, expected) in [
        (format!("{} = 1", sum(31)), "scale 2;", Ok(64)),
        (format!("!{} = 1", sum(31)), "", Ok(64)),
        (format!("!{} = 1", sum(31)), "scale 2;", Err((6, 0))),
        (format!("!{} = 1", sum(31)), "scale 7;", Err((18, 29))),
        (
            format!("{}t(a[i]) = 1", "!".repeat(17)),
            "scale 2;",
            Err((6, 0)),
        ),
        (
            format!("{}t(a[i]) = 1", "!".repeat(17)),
            "scale 7;",
            Err((18, 29)),
        ),
        ("t(a[i])*t(a[i])*2 = 1".into(), "scale 7;", Err((18, 29))),
        ("t(a[i])*t(a[i])*2 = 1".into(), "scale 6;", Err((8, 0))),
        ("i*i*i*i = 1".into(), "scale 6;", Err((7, 0))),
    ] {
        let text = format!("{HEAD}{clause}{condition}");
        assert_eq!(answer::<C>(&text), expected, "{text}");
    }
}

/// Every value of every byte of a rule with a scale, and lists that only begin one.
pub fn frames<C: Driven>() {
    let rule = [
        [4, 2, 0, 0, 0, 0, 0, 0],
        [3, 0, 0, 1, 0, 0, 0, 0],
        [1, 1, 0, 0, 0, 0, 0, 5],
        [0x24, 0, 0, 0, 0, 0, 0, 0],
    ];
    let opened = |frames: &[[u8; 8]]| {
        let opened = C::open(&frames.concat(), 1, &[9; 32]).err();
        opened.map(|refusal| (refusal.number, refusal.place))
    };
    for place in 0..rule.len() {
        for byte in 0..8 {
            for value in 0..=255_u8 {
                let mut changed = rule;
                changed[place][byte] = value;
                let word = i32::from_be_bytes(changed[place][4..].try_into().unwrap());
                let fits = match (place, byte) {
                    (0, 0) => value == 4,
                    (0 | 2, 1) => value <= 6,
                    (1, 0) => value == 3,
                    (1, 1) => value < 8,
                    (1, 2) => value < 4,
                    (1, 3) => (1..=9).contains(&value),
                    (1, _) => word.unsigned_abs() < 10_000,
                    (2, 0) => value == 1,
                    (2, 4..) => word >= 0,
                    (3, 0) => (0x21..=0x26).contains(&value),
                    _ => value == 0,
                };
                // One operand more, or one sum, and the end is wrong.
                let end = (place, byte) == (3, 0) && matches!(value, 1 | 2 | 0x11..=0x14);
                let expected = match (fits, end) {
                    (true, _) => None,
                    (_, true) => Some((10, 4)),
                    _ => Some((10, place)),
                };
                assert_eq!(opened(&changed), expected, "{place} {byte} {value}");
            }
        }
    }
    let [scale, reference, literal, relation] = rule;
    let decimals = |decimals: u8| [1, decimals, 0, 0, 0, 0, 0, 5];
    for (frames, expected) in [
        (vec![scale], Some((10, 1))),
        (vec![scale, scale], Some((10, 1))),
        (vec![scale, relation], Some((10, 1))),
        (vec![scale, reference], Some((10, 2))),
        (
            vec![scale, reference, scale, literal, relation],
            Some((10, 2)),
        ),
        (vec![reference, scale, literal, relation], Some((10, 1))),
        (vec![reference, literal, relation, scale], Some((10, 1))),
        (vec![reference, decimals(0), relation], None),
        (vec![reference, decimals(0), relation, scale], Some((10, 3))),
        (vec![reference, decimals(1), relation], Some((10, 1))),
        (vec![decimals(1), reference, relation], Some((10, 0))),
        (vec![scale, decimals(6), reference, relation], None),
        (vec![scale, decimals(7), reference, relation], Some((10, 1))),
        (vec![scale, literal, literal, relation], Some((7, 0))),
    ] {
        assert_eq!(opened(&frames), expected, "{frames:?}");
    }
    // A board takes 16 frames, that of the scale among them.
    for (nots, fits) in [(12, true), (13, false)] {
        let nots = [[0x31, 0, 0, 0, 0, 0, 0, 0]].repeat(nots);
        let frames = [&rule[..], &nots].concat().concat();
        let opened = C::open_as(Profile::Board, &frames, 1, &[9; 32]).err();
        assert_eq!(opened.is_none(), fits);
        assert!(fits || opened == Some(Refusal::of(26)));
    }
}

/// A term with its magnitude, its count of decimals and its value, both over 10 to that count.
#[derive(Clone)]
struct Term {
    text: String,
    magnitude: u128,
    count: u32,
    value: i128,
    /// Whether it or a term in it exceeds 2^62; then its value means nothing.
    over: bool,
}

impl Term {
    fn of(text: impl Into<String>, magnitude: u128, count: u32, value: i128) -> Term {
        Term {
            text: text.into(),
            magnitude,
            count,
            value,
            over: magnitude > MOST,
        }
    }

    /// Brought to a count that is not less.
    fn brought(mut self, count: u32) -> Term {
        let ten = 10_u128.checked_pow(count - self.count);
        let larger = ten.and_then(|ten| self.magnitude.checked_mul(ten));
        let larger = if self.magnitude == 0 { Some(0) } else { larger };
        self.magnitude = larger.filter(|size| *size <= 1 << 100).unwrap_or(1 << 100);
        self.over |= self.magnitude > MOST;
        self.value = match ten {
            Some(ten) if !self.over => self.value * ten as i128,
            _ => 0,
        };
        self.count = count;
        self
    }

    /// Both brought to the greater count.
    fn together(self, other: Term) -> (Term, Term) {
        let count = self.count.max(other.count);
        (self.brought(count), other.brought(count))
    }

    fn plus(self, sign: i128, other: Term) -> Term {
        let text = format!(
            "{} {} {}",
            self.text,
            if sign < 0 { '-' } else { '+' },
            other.text
        );
        let (one, two) = self.together(other);
        let over = one.over || two.over;
        let value = if over {
            0
        } else {
            one.value + sign * two.value
        };
        let mut sum = Term::of(text, one.magnitude + two.magnitude, one.count, value);
        sum.over |= over;
        sum
    }

    fn times(self, other: Term) -> Term {
        let text = format!("{}*{}", self.text, other.text);
        let magnitude = self.magnitude.saturating_mul(other.magnitude);
        let over = self.over || other.over || magnitude > MOST;
        let value = if over { 0 } else { self.value * other.value };
        let mut product = Term::of(
            text,
            magnitude.min(1 << 100),
            self.count + other.count,
            value,
        );
        product.over = over;
        product
    }
}

/// A literal with so many decimals; over 6 it is a product of several.
fn literal(n: u128, decimals: u32) -> Term {
    Term::of(literals(n, 1, decimals as usize), n, decimals, n as i128)
}

/// Relations of terms whose magnitudes, brought to one count, are near 2^62 from both sides, with notes at their ends: what is
/// refused with 8, and the verdict of the others, which differ by one or not at all.
pub fn near_the_limit<C: Driven>() {
    let [mut refused, mut held, mut failed, mut near, mut far] = [0; 5];
    for seed in 0..12_000 {
        let random = &mut Random::new(seed + 480_000_000);
        let scale = random.below(7) as u32;
        let i = random.pick(&[0, 1, 999_999]);
        let any = random.pick(&[i32::MIN, i32::MIN + 1, i32::MAX, i32::MAX - 1, -1, 0, 7]);
        let [t, u] = [any, any.saturating_add(random.pick(&[0, 0, 1, -1]))];
        // What is large: a note or i.
        let (one, two, size) = if random.once_in(4) {
            let instance = Term::of("i", 1 << 20, 0, i.into());
            (instance.clone(), instance, 1 << 20)
        } else {
            let note = |text: &str, value: i32| Term::of(text, 1 << 31, scale, value.into());
            (note("t(a[i])", t), note("u(a[i])", u), 1 << 31)
        };
        // What is little, with more decimals.
        let power = random.below(14) as u32;
        let few = random.below(3) as u128;
        let factor_decimals = random.below(4) as u32;
        let little = literal(few, one.count + factor_decimals + power);
        let most = (MOST - few) / (size * 10_u128.pow(power));
        let factor = (most + random.below(2) as u128).clamp(1, LARGEST);
        let factor = literal(factor, factor_decimals);
        let sign = random.pick(&[1, -1]);
        let (one, two) = (one.times(factor.clone()), two.times(factor));
        let (left, right) = match random.below(3) {
            0 => (one.plus(sign, little), two),
            1 => (two, one.plus(sign, little)),
            _ => (one, little),
        };
        let relation = random.below(6);
        let text = format!(
            "{HEAD}scale {scale}; t(a[i]) = t(a[i]) && {} {} {}",
            left.text, RELATIONS[relation], right.text
        );
        let (left, right) = left.together(right);
        let most = left.magnitude.max(right.magnitude);
        if left.over || right.over {
            assert_eq!(answer::<C>(&text), Err((8, 0)), "{text}");
            refused += 1;
            far += usize::from(most > MOST + (MOST >> 1));
            continue;
        }
        let frames = C::frames_of(text.as_bytes()).unwrap_or_else(|_| panic!("{text}"));
        let mut window = [0; 32];
        window[..2].copy_from_slice(&[t, u]);
        let holds = holds(relation, left.value.cmp(&right.value));
        let mut checker: C = at_instance(&frames, i, window);
        assert_eq!(checker.pull(&mut [0; 166]), pulled(holds), "{text} {t} {u}");
        *(if holds { &mut held } else { &mut failed }) += 1;
        near += usize::from(most > MOST >> 1);
    }
    assert!(
        refused - far > 1_000 && near > 1_000,
        "{refused} {far} {near}"
    );
    assert!(held > 1_000 && failed > 1_000, "{held} {failed}");
}

/// The value of a rule with all references present, by its frames in turn, every value an integer over 10 to its count, brought to
/// one count where document 02 says so. The answer is also whether a relation's sides had two counts.
fn by_one_count(frames: &[u8], i: u32, note: impl Fn(usize, usize) -> i32) -> (bool, bool) {
    let mut sums: Vec<(i128, u32)> = Vec::new();
    let mut truths: Vec<bool> = Vec::new();
    let (mut scale, mut two_counts) = (0, false);
    for frame in frames.chunks_exact(8) {
        let word = i32::from_be_bytes(frame[4..].try_into().unwrap());
        if matches!(frame[0], 0x11 | 0x12 | 0x21..=0x26) {
            let [.., one, two] = &mut sums[..] else {
                panic!("two sums");
            };
            let count = one.1.max(two.1);
            two_counts |= frame[0] >= 0x21 && one.1 != two.1;
            for side in [one, two] {
                // What a power over 18 would not keep within 2^62 is 0.
                if side.0 != 0 {
                    side.0 *= 10_i128.pow(count - side.1);
                }
                side.1 = count;
            }
        }
        match frame[0] {
            0x01 => sums.push((word.into(), frame[1].into())),
            0x02 => sums.push((i.into(), 0)),
            0x03 => sums.push((note(frame[1].into(), frame[2].into()).into(), scale)),
            0x04 => scale = frame[1].into(),
            0x14 => {
                let last = sums.last_mut().unwrap();
                last.0 = last.0.abs();
            }
            kind @ 0x11..=0x26 => {
                let (two, one) = (sums.pop().unwrap(), sums.pop().unwrap());
                match kind {
                    0x11 => sums.push((one.0 + two.0, one.1)),
                    0x12 => sums.push((one.0 - two.0, one.1)),
                    0x13 => sums.push((one.0 * two.0, one.1 + two.1)),
                    _ => truths.push(holds(usize::from(kind) - 0x21, one.0.cmp(&two.0))),
                }
            }
            0x31 => {
                let last = truths.last_mut().unwrap();
                *last = !*last;
            }
            kind => {
                let (two, one) = (truths.pop().unwrap(), truths.pop().unwrap());
                truths.push(match kind {
                    0x32 => one && two,
                    0x33 => one || two,
                    _ => !one || two,
                });
            }
        }
    }
    (truths[0], two_counts)
}

/// Random rules with all references present, against their value by one count.
pub fn values<C: Driven>() {
    let [mut held, mut failed, mut scaled, mut two_counts] = [0; 4];
    let mut seed = 490_000_000;
    while held + failed < 6_000 {
        seed += 1;
        let random = &mut Random::new(seed);
        let size = random.pick(&[4, 10, 30]);
        let mut frames = rule(random, size).frames;
        for frame in frames.iter_mut().filter(|frame| frame[0] == 3) {
            frame[3..].copy_from_slice(&[1, 0, 0, 0, 0]);
        }
        let frames = frames.concat();
        if C::open(&frames, 1, &[0; 32]).is_err() {
            continue;
        }
        let i = random.pick(&[0, 1, 2, 20, 300, 999_999]);
        let mut window = [0; 32];
        for word in &mut window {
            let small = random.below(40) as i32 - 20;
            let round = small * 10_i32.pow(random.below(7) as u32);
            *word = random.pick(&[small, small, round, round, i32::MIN, i32::MAX]);
        }
        let (holds, two) = by_one_count(&frames, i, |event, note| window[4 * event + note]);
        let mut checker: C = at_instance(&frames, i, window);
        assert_eq!(checker.pull(&mut [0; 166]), pulled(holds), "seed {seed}");
        *(if holds { &mut held } else { &mut failed }) += 1;
        scaled += usize::from(frames[0] == 4);
        two_counts += usize::from(two);
    }
    assert!(held > 2_000 && failed > 2_000, "{held} {failed}");
    assert!(scaled > 500 && two_counts > 300, "{scaled} {two_counts}");
}

/// States whose frames got or lost a scale or decimals: 12 refuses those whose frames opening would refuse, and no others.
pub fn forged_states<C: Driven>() {
    let [mut scaled, mut refused_scaled, mut others, mut refused_others] = [0; 4];
    for seed in 0..4_000 {
        let random = &mut Random::new(seed + 500_000_000);
        let mut frames = random::frames(random);
        let mut state = C::of_frames(Profile::Desk, &frames, 1).state().clone();
        for _ in 0..random.pick(&[1, 1, 1, 2]) {
            damage_decimals(random, &mut frames);
        }
        if frames.len() > 512 {
            continue;
        }
        state.len = frames.len() as u32 / 8;
        // Bytes after the last frame are not looked at.
        state.frames = [4; 512];
        state.frames[..frames.len()].copy_from_slice(&frames);
        let expected = C::open(&frames, 1, &[3; 32]).err().map_or(0, |_| 12);
        assert_eq!(number::<C>(&state, 32), expected, "seed {seed}");
        *(match (frames[0], expected) {
            (4, 0) => &mut scaled,
            (4, _) => &mut refused_scaled,
            (_, 0) => &mut others,
            _ => &mut refused_others,
        }) += 1;
    }
    let all = [scaled, refused_scaled, others, refused_others];
    assert!(all.iter().all(|times| *times > 100), "{all:?}");
}
