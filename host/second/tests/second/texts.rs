//! Edge cases of reading.

use crate::common::{reads, refused};
use crate::shared::vectors::hex;
use dillplatter_second::text::tokens;
use dillplatter_second::{read, read_into, Refusal};

const HEAD: &str = "events a b; notes t u;";

/// A condition behind the head that declares a, b, t, u.
fn rule(condition: &str) -> String {
    format!("{HEAD}{condition}")
}

/// The refusal of a condition, its place counted from the condition's beginning.
fn refused_condition(condition: &str) -> (u8, usize) {
    let (number, place) = refused(&rule(condition));
    (number, place - HEAD.len())
}

fn frames_of(condition: &str) -> String {
    hex(&reads(&rule(condition)).unwrap_or_else(|_| panic!("{condition} is read")))
}

#[test]
fn buffer_of_another_length() {
    let text = rule("t(a[i]) = 1");
    for length in [0, 511, 513, 1_024] {
        assert_eq!(read(text.as_bytes(), length), Err(Refusal::of(1)));
        // 1 comes before 2.
        assert_eq!(read(b"", length), Err(Refusal::of(1)));
    }
    let mut buffer = [7; 511];
    assert_eq!(read_into(text.as_bytes(), &mut buffer), Err(Refusal::of(1)));
    assert_eq!(buffer, [7; 511]);
}

#[test]
fn lengths_of_the_text() {
    assert_eq!(refused(""), (2, 0));
    assert_eq!(refused(&" ".repeat(1_025)), (2, 0));
    let text = rule("t(a[i]) = 1");
    let full = format!("{text}{}", " ".repeat(1_024 - text.len()));
    assert_eq!(reads(&full), reads(&text));
    assert_eq!(refused(&format!("{full} ")), (2, 0));
}

#[test]
fn blank_only_text_ends_early() {
    for text in [" ", "\n", " \n \n"] {
        assert_eq!(refused(text), (3, text.len()));
    }
    assert_eq!(refused(&" ".repeat(1_024)), (3, 1_024));
}

#[test]
fn braces_to_the_end_of_the_text() {
    assert_eq!(refused(&"{".repeat(1_024)), (3, 0));
    let open = "{".repeat(1_024 - HEAD.len());
    assert_eq!(refused(&rule(&open)), (3, 1_024));
    let nots = "!".repeat(1_024 - HEAD.len());
    assert_eq!(refused(&rule(&nots)), (3, 1_024));
    let groups = "(".repeat(1_024 - HEAD.len());
    assert_eq!(refused(&rule(&groups)), (3, 1_024));
}

#[test]
fn every_beginning_of_a_rule_ends_early() {
    let text = rule(" {t(a[2*i-10]) >= abs(i) -> !u(b[i+1]) != (3)}");
    assert_eq!(reads(&text).map(|frames| frames.len() / 8), Ok(9));
    let tokens = tokens(text.as_bytes());
    for token in &tokens[..tokens.len() - 1] {
        let end = token.place + token.bytes.len();
        assert_eq!(refused(&text[..end]), (3, end), "{}", &text[..end]);
    }
}

#[test]
fn every_byte_value_behind_a_rule() {
    let text = rule("t(a[i]) = 1").into_bytes();
    let end = text.len();
    for byte in 0..=255_u8 {
        let longer = [text.as_slice(), &[byte]].concat();
        let answer = read(&longer, 512);
        let last = |frames: Vec<u8>| frames[8..16].to_vec();
        match byte {
            b' ' | b'\n' => assert_eq!(answer, read(&text, 512), "{byte}"),
            b'0'..=b'9' => {
                let literal = [1, 0, 0, 0, 0, 0, 0, 10 + byte - b'0'];
                assert_eq!(answer.map(last), Ok(literal.to_vec()), "{byte}");
            }
            b'+' | b'-' | b'*' => assert_eq!(answer, Err(Refusal::at(3, end + 1)), "{byte}"),
            _ => assert_eq!(answer, Err(Refusal::at(3, end)), "{byte}"),
        }
    }
}

#[test]
fn every_byte_value_before_a_rule() {
    let text = rule("t(a[i]) = 1").into_bytes();
    for byte in 0..=255_u8 {
        let longer = [&[byte], text.as_slice()].concat();
        let answer = read(&longer, 512);
        match byte {
            b' ' | b'\n' => assert_eq!(answer, read(&text, 512), "{byte}"),
            _ => assert_eq!(answer, Err(Refusal::at(3, 0)), "{byte}"),
        }
    }
}

#[test]
fn marks_take_the_longest_match() {
    assert_eq!(frames_of("t(a[i])<=1"), frames_of("t(a[i]) <= 1"));
    assert_eq!(refused_condition("t(a[i])< =1"), (3, 9));
    assert_eq!(refused_condition("t(a[i])=>1"), (3, 8));
    assert_eq!(refused_condition("t(a[i])=<1"), (3, 8));
    assert_eq!(refused_condition("t(a[i])! =1"), (3, 7));
    assert_eq!(refused_condition("t(a[i])!==1"), (3, 9));
    assert_eq!(refused_condition("t(a[i])<=-1"), (3, 9));
    assert_eq!(refused_condition("t(a[i])=1-->1=1"), (3, 10));
    assert_eq!(refused_condition("t(a[i])=1- >1=1"), (3, 11));
    assert_eq!(refused_condition("t(a[i])=1|||1=1"), (3, 11));
    assert_eq!(refused_condition("t(a[i])=1| |1=1"), (3, 9));
    assert_eq!(refused_condition("t(a[i])=1&1=1"), (3, 9));
    assert_eq!(refused_condition("t(a[i])=1&&&1=1"), (3, 11));
}

#[test]
fn words_and_numbers_need_no_blank_between_them() {
    assert_eq!(refused("eventsa;"), (3, 0));
    assert_eq!(frames_of("t(a[2*i])=1"), frames_of("t ( a [ 2 * i ] ) = 1"));
    assert_eq!(refused_condition("t(a[2i])=1"), (3, 5));
    assert_eq!(refused_condition("t(a[i])=1i"), (3, 9));
    // A word of reserved letters and more is a name.
    let text = "events ii eventsx; notes absi notess; absi(ii[i]) = notess(eventsx[i])";
    assert_eq!(
        reads(text).map(|frames| hex(&frames)),
        Ok("030000010000000003010101000000002100000000000000".into())
    );
    for word in ["events", "notes", "i", "abs"] {
        assert_eq!(refused(&format!("events a {word}; notes t; i = 1")), (3, 9));
        assert_eq!(refused(&format!("events a; notes {word}; i = 1")), (3, 16));
        assert_eq!(refused_condition(&format!("t({word}[i]) = 1")), (3, 2));
    }
    // An upper-case letter, a tab, a CR are foreign.
    assert_eq!(refused("Events a; notes t; i = 1"), (3, 0));
    assert_eq!(refused("events\ta; notes t; i = 1"), (3, 6));
    assert_eq!(refused("events a; notes t;\r\n i = 1"), (3, 18));
}

#[test]
fn lists_need_a_name() {
    assert_eq!(refused("events ; notes t; i = 1"), (3, 7));
    assert_eq!(refused("events a; notes ; i = 1"), (3, 16));
    assert_eq!(refused("events a, b; notes t; i = 1"), (3, 8));
    assert_eq!(refused("notes t; events a; i = 1"), (3, 0));
}

#[test]
fn groups_do_not_mix() {
    assert_eq!(refused_condition("(t(a[i]) = 1)"), (3, 9));
    assert_eq!(refused_condition("{t(a[i])} = 1"), (3, 8));
    assert_eq!(refused_condition("{t(a[i]) = 1} = 1"), (3, 14));
    assert_eq!(refused_condition("t(a[i]) = 1 = 1"), (3, 12));
    assert_eq!(refused_condition("t(a[i]) = {1}"), (3, 10));
    assert_eq!(refused_condition("t(a[i]) + !i = 1"), (3, 10));
    assert_eq!(refused_condition("abs t(a[i]) = 1"), (3, 4));
    assert_eq!(refused_condition("t(a[(i)]) = 1"), (3, 4));
    assert_eq!(refused_condition("t(a[i*2]) = 1"), (3, 5));
    assert_eq!(refused_condition("t(a[1+i]) = 1"), (3, 5));
    assert_eq!(refused_condition("t(a[i+1+1]) = 1"), (3, 7));
    assert_eq!(refused_condition("t(a[i+-1]) = 1"), (3, 6));
    assert_eq!(refused_condition("t(a[1]) = 1"), (3, 5));
    assert_eq!(refused_condition("-t(a[i]) = 1"), (3, 0));
    assert_eq!(refused_condition("t(a[i]) = 1}"), (3, 11));
    assert_eq!(refused_condition("t(a[i]) = 1;"), (3, 11));
}

#[test]
fn names_in_lists() {
    let twelve = "abcdefghijkl";
    let text = format!("events {twelve}; notes {twelve}; {twelve}({twelve}[i]) = 1");
    assert_eq!(reads(&text).map(|frames| frames.len() / 8), Ok(3));
    assert_eq!(refused("events a abcdefghijklm; notes t; i = 1"), (4, 9));
    assert_eq!(refused("events a; notes t abcdefghijklm; i = 1"), (4, 18));
    assert_eq!(refused("events a b a; notes t; i = 1"), (4, 11));
    assert_eq!(refused("events a; notes t u u t; i = 1"), (4, 20));
    let eight = "events a b c d e f g h; notes t u v w; w(h[i]) = 1";
    assert_eq!(
        reads(eight).map(|frames| frames[..4].to_vec()),
        Ok(vec![3, 7, 3, 1])
    );
    assert_eq!(refused("events a b c d e f g h j; notes t; i = 1"), (4, 23));
    assert_eq!(refused("events a; notes t u v w x; i = 1"), (4, 24));
    // The first bad name decides, whatever its fault.
    assert_eq!(
        refused("events a b c d e f g h a j; notes t; i = 1"),
        (4, 23)
    );
    assert_eq!(
        refused("events a a abcdefghijklm; notes t t; i = 1"),
        (4, 9)
    );
}

#[test]
fn names_in_use() {
    assert_eq!(refused_condition("t(c[i]) = 1"), (4, 2));
    assert_eq!(refused_condition("v(a[i]) = 1"), (4, 0));
    assert_eq!(refused_condition("a(t[i]) = 1"), (4, 0));
    assert_eq!(refused_condition("t(t[i]) = 1"), (4, 2));
    assert_eq!(refused_condition("t(a[i]) = abcdefghijklm(a[i])"), (4, 10));
    assert_eq!(refused_condition("t(a[i]) = t(abcdefghijklm[i])"), (4, 12));
    // An event and a note may share a name.
    let text = "events a b; notes b a; a(a[i]) = b(b[i])";
    assert_eq!(
        reads(text).map(|frames| hex(&frames[..16])),
        Ok("03000101000000000301000100000000".into())
    );
}

#[test]
fn factors() {
    assert_eq!(frames_of("t(a[9*i]) = 1")[..16], *"0300000900000000");
    assert_eq!(frames_of("t(a[1*i]) = 1"), frames_of("t(a[i]) = 1"));
    assert_eq!(frames_of("t(a[0009*i]) = 1"), frames_of("t(a[9*i]) = 1"));
    assert_eq!(refused_condition("t(a[0*i]) = 1"), (5, 4));
    assert_eq!(refused_condition("t(a[00*i]) = 1"), (5, 4));
    assert_eq!(refused_condition("t(a[10*i]) = 1"), (5, 4));
}

#[test]
fn offsets() {
    assert_eq!(frames_of("u(b[9*i+9999]) = 1")[..16], *"030101090000270f");
    assert_eq!(frames_of("u(b[9*i-9999]) = 1")[..16], *"03010109ffffd8f1");
    assert_eq!(frames_of("t(a[i-0]) = 1"), frames_of("t(a[i]) = 1"));
    assert_eq!(
        frames_of("t(a[i-09999]) = 1"),
        frames_of("t(a[i-9999]) = 1")
    );
    assert_eq!(refused_condition("t(a[i+10000]) = 1"), (5, 6));
    assert_eq!(refused_condition("t(a[i-10000]) = 1"), (5, 6));
    assert_eq!(refused_condition("t(a[2*i-10000]) = 1"), (5, 8));
    // Factor and literal limits do not hold for an offset, nor its limit for them.
    assert_eq!(frames_of("t(a[2*i+10]) = 10000")[..16], *"030000020000000a");
}

#[test]
fn literals() {
    assert_eq!(
        frames_of("t(a[i]) = 2147483647")[16..32],
        *"010000007fffffff"
    );
    assert_eq!(refused_condition("t(a[i]) = 2147483648"), (5, 10));
    let zeros = "0".repeat(900);
    assert_eq!(
        frames_of(&format!("t(a[i]) = {zeros}25")),
        frames_of("t(a[i]) = 25")
    );
    let nines = "9".repeat(900);
    assert_eq!(refused_condition(&format!("t(a[i]) = {nines}")), (5, 10));
    // 2^64 and 2^128 do not come round to 0.
    for text in [
        "18446744073709551616",
        "340282366920938463463374607431768211456",
    ] {
        assert_eq!(refused_condition(&format!("t(a[i]) = {text}")), (5, 10));
    }
    // A number before "*" is a factor only in an index.
    assert_eq!(frames_of("10 * t(a[i]) = 1")[..16], *"010000000000000a");
}

#[test]
fn refusals_of_reading_come_in_order() {
    // A wrong token later in the text goes before a bad name, number, depth or count.
    let deep = "!".repeat(17);
    let wide = "+1".repeat(64);
    assert_eq!(refused_condition("c(a[i]) = 1 ?"), (3, 12));
    assert_eq!(refused_condition("2147483648 = i ?"), (3, 15));
    assert_eq!(refused_condition(&format!("{deep} i = 1 ?")), (3, 24));
    assert_eq!(refused_condition(&format!("i{wide} = 1 ?")), (3, 134));
    // Then a bad name before a number, a number before depth and count, these before 7 and 8.
    assert_eq!(refused_condition("2147483648 = c(a[i])"), (4, 13));
    assert_eq!(refused_condition(&format!("{deep} i = c(a[i])")), (4, 22));
    assert_eq!(
        refused_condition(&format!("{deep} i = 2147483648")),
        (5, 22)
    );
    assert_eq!(
        refused_condition(&format!("i{wide} = 2147483648")),
        (5, 132)
    );
    assert_eq!(refused(&rule(&format!("{deep} i = 1"))), (6, 0));
    assert_eq!(refused(&rule(&format!("{deep} i*i*i*i = 1"))), (6, 0));
    assert_eq!(refused(&rule(&format!("i{wide} = 1"))), (6, 0));
    assert_eq!(refused(&rule("i*i*i*i = 1")), (7, 0));
    assert_eq!(refused(&rule("i*i*i*i = t(a[i])")), (8, 0));
}

#[test]
fn depth_16_is_the_last() {
    let relation = "t(a[i]) = 1";
    let cases = [
        ("!", relation, "", ""),
        ("{", relation, "}", ""),
        ("(", "t(a[i])", ")", " = 1"),
        ("abs(", "t(a[i])", ")", " = 1"),
    ];
    for (before, inner, after, end) in cases {
        let text = |n| rule(&[&before.repeat(n), inner, &after.repeat(n), end].concat());
        assert!(reads(&text(16)).is_ok(), "{before}");
        assert_eq!(refused(&text(17)), (6, 0), "{before}");
    }
    // 16 times "->" would be over 64 frames.
    let arrows = |nots: &str| rule(&format!("{}{nots}{relation}", "1 = 1 -> ".repeat(14)));
    assert_eq!(
        reads(&arrows("!!")).map(|frames| frames.len() / 8),
        Ok(14 * 4 + 3 + 2)
    );
    assert_eq!(refused(&arrows("!!!")), (6, 0));
    // All kinds together: 3 of each, and one more "!".
    let mixed = |nots: &str| {
        let arrows = "1 = 1 -> ".repeat(3);
        let groups = "{{{(((abs(abs(abs(t(a[i]))))))) = 1}}}";
        rule(&[&arrows, "!!!", nots, groups].concat())
    };
    assert!(reads(&mixed("!")).is_ok());
    assert_eq!(refused(&mixed("!!")), (6, 0));
}

#[test]
fn depth_counts_only_what_is_around_a_point() {
    // Beside each other, more than 16 of a kind are not deep.
    let beside = |unit: &str, times: usize, between: &str| vec![unit; times].join(between);
    let groups = beside("(i)", 30, "+");
    assert!(reads(&rule(&format!("{groups} = t(a[i])"))).is_ok());
    let sizes = beside("abs(i)", 20, "+");
    assert!(reads(&rule(&format!("{sizes} = t(a[i])"))).is_ok());
    let nots = beside("{!!i = t(a[i])}", 10, "&&");
    assert!(reads(&rule(&nots)).is_ok());
    // The left side of "->" is not inside it; its right side is.
    let fifteen = "!".repeat(15);
    let sixteen = "!".repeat(16);
    assert!(reads(&rule(&format!("{sixteen}t(a[i]) = 1 -> {fifteen}i = 1"))).is_ok());
    assert_eq!(
        refused(&rule(&format!("t(a[i]) = 1 -> {sixteen}i = 1"))),
        (6, 0)
    );
    // A brace ends the "->" inside it.
    let left = "{i = 1 -> i = 2} && ".repeat(4);
    assert!(reads(&rule(&format!("{left} {fifteen}!t(a[i]) = 1"))).is_ok());
    // The parentheses and brackets of a reference do not count.
    let groups = format!("{}t(a[i]){} = 1", "(".repeat(16), ")".repeat(16));
    assert!(reads(&rule(&groups)).is_ok());
}

#[test]
fn frames_64_are_the_most() {
    // n operands and one to compare with: 2n + 1 frames.
    let sum = |n: usize| vec!["t(a[i])"; n].join("+");
    let count = |text: &str| reads(&rule(text)).map(|frames| frames.len() / 8);
    assert_eq!(count(&format!("{} = 1", sum(31))), Ok(63));
    assert_eq!(count(&format!("!{} = 1", sum(31))), Ok(64));
    assert_eq!(refused(&rule(&format!("!!{} = 1", sum(31)))), (6, 0));
    assert_eq!(refused(&rule(&format!("{} = 1", sum(32)))), (6, 0));
}

#[test]
fn magnitudes() {
    let ok = |condition: &str| assert!(reads(&rule(condition)).is_ok(), "{condition}");
    let over = |condition: &str| assert_eq!(refused(&rule(condition)), (8, 0), "{condition}");
    ok("t(a[i]) * t(b[i]) = 1");
    over("t(a[i]) * t(b[i]) + 1 = 1");
    over("t(a[i]) * t(b[i]) - 1 = 1");
    over("1 = t(a[i]) * t(b[i]) - 1");
    ok("t(a[i]) * t(b[i]) + 0 = 1");
    ok("i * i * i + t(a[i]) = 1");
    // i * i * i * 4 is 2^62 exactly.
    ok("i * i * i * 4 = t(a[i])");
    over("i * i * i * 5 = t(a[i])");
    over("abs(i * i * i * 4) + abs(1) = t(a[i])");
    // A factor 0 does not undo what is too large inside.
    over("0 * (t(a[i]) * t(b[i]) * 2) = 1");
    ok("0 * t(a[i]) * t(b[i]) * 2 = 1");
    // A product that goes far over.
    over(&format!("{} = 1", vec!["t(a[i])"; 30].join("*")));
    // Every relation is looked at.
    over("t(a[i]) = 1 && {i = 1 || !{i = 2 -> t(a[i]) * t(b[i]) * 2 = 1}}");
}

#[test]
fn operators_bind_as_the_grammar_says() {
    let same = |left: &str, right: &str| assert_eq!(frames_of(left), frames_of(right), "{left}");
    let differ = |left: &str, right: &str| assert_ne!(frames_of(left), frames_of(right), "{left}");
    let (p, q, r) = ("t(a[i])=1", "i=2", "i=3");
    same(&format!("{p}||{q}&&{r}"), &format!("{p}||{{{q}&&{r}}}"));
    same(&format!("{p}&&{q}||{r}"), &format!("{{{p}&&{q}}}||{r}"));
    same(&format!("{p}->{q}||{r}"), &format!("{p}->{{{q}||{r}}}"));
    same(&format!("{p}->{q}->{r}"), &format!("{p}->{{{q}->{r}}}"));
    differ(&format!("{p}->{q}->{r}"), &format!("{{{p}->{q}}}->{r}"));
    same(&format!("{p}||{q}||{r}"), &format!("{{{p}||{q}}}||{r}"));
    differ(&format!("{p}||{q}||{r}"), &format!("{p}||{{{q}||{r}}}"));
    same(&format!("{p}&&{q}&&{r}"), &format!("{{{p}&&{q}}}&&{r}"));
    differ(&format!("{p}&&{q}&&{r}"), &format!("{p}&&{{{q}&&{r}}}"));
    same(&format!("!{p}&&{q}"), &format!("{{!{p}}}&&{q}"));
    differ(&format!("!{p}&&{q}"), &format!("!{{{p}&&{q}}}"));
    same(&format!("!!{p}->{q}"), &format!("{{!{{!{p}}}}}->{q}"));
    same("t(a[i])-2-3=1", "(t(a[i])-2)-3=1");
    differ("t(a[i])-2-3=1", "t(a[i])-(2-3)=1");
    same("t(a[i])-2*3+4=1", "(t(a[i])-(2*3))+4=1");
    same("t(a[i])*2*3=1", "(t(a[i])*2)*3=1");
    differ("t(a[i])*2*3=1", "t(a[i])*(2*3)=1");
    same("1+t(a[i])<2-i", "(1+t(a[i]))<(2-i)");
    differ("abs(t(a[i]))+1=1", "abs(t(a[i])+1)=1");
}

#[test]
fn every_kind_of_frame() {
    let condition = "!{ i+1-2*3 = abs(t(a[i])) && i != 1 || i < 2 -> i <= 3 }\
        && { i > 4 || u(b[3*i-7]) >= 5 }";
    let kinds: Vec<u8> = reads(&rule(condition))
        .unwrap()
        .chunks(8)
        .map(|frame| frame[0])
        .collect();
    let expected = [
        0x02, 0x01, 0x11, 0x01, 0x01, 0x13, 0x12, 0x03, 0x14, 0x21, 0x02, 0x01, 0x22, 0x32, 0x02,
        0x01, 0x23, 0x33, 0x02, 0x01, 0x24, 0x34, 0x31, 0x02, 0x01, 0x25, 0x03, 0x01, 0x26, 0x33,
        0x32,
    ];
    assert_eq!(kinds, expected);
}
