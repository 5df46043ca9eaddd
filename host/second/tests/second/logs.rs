//! Edge cases of feeding and pulling.

use crate::common::{feed, feed_all, machine, pull};
use crate::shared::driven::{FALSE, FULL, TRUE, UNKNOWN};
use crate::shared::log::line;
use crate::shared::vectors::hex;
use dillplatter_second::line::{lines, read_line};
use dillplatter_second::{Fed, Pulled, Refusal, Totals, Truth};

#[test]
fn a_line_has_its_event_and_notes() {
    let answer = read_line(b"0A7FFFFFFF80000000FFFFFFFF0123ABCD");
    assert_eq!(answer, Ok((10, [i32::MAX, i32::MIN, -1, 0x0123_ABCD])));
    assert_eq!(read_line(&line(255, [-1; 4])), Ok((255, [-1; 4])));
}

#[test]
fn letters_in_both_cases() {
    let notes = [0x0123_4567, 0x89AB_CDEF_u32 as i32, -1, 0x0BAD_CAFE];
    for bytes in [
        b"AB0123456789ABCDEFFFFFFFFF0BADCAFE",
        b"ab0123456789abcdefffffffff0badcafe",
        b"aB0123456789aBcDeFfFFffFfF0BaDcAfe",
    ] {
        assert_eq!(read_line(bytes), Ok((0xAB, notes)));
    }
    // A small letter is not the place of 15: g is, and the end is.
    assert_eq!(read_line(b"abcdefg"), Err(6));
    assert_eq!(read_line(b"abcdef"), Err(6));
    assert_eq!(read_line(&[b'f'; 35]), Err(34));
}

#[test]
fn every_byte_value_at_every_place_of_a_line() {
    let good = line(0, [0x1234_5678; 4]);
    for place in 0..34 {
        for byte in 0..=255_u8 {
            let mut bytes = good.clone();
            bytes[place] = byte;
            let digit = b"0123456789ABCDEFabcdef".contains(&byte);
            let answer = read_line(&bytes).map(|_| ());
            let expected = if digit { Ok(()) } else { Err(place) };
            assert_eq!(answer, expected, "byte {byte} at {place}");
        }
    }
}

#[test]
fn lines_of_every_length() {
    for length in 0..100 {
        let expected = match length {
            34 => Ok((0, [0; 4])),
            _ => Err(length.min(34)),
        };
        assert_eq!(read_line(&vec![b'0'; length]), expected, "{length} digits");
        // A non-digit behind the end of a long line does not count, one before it does.
        for place in 0..length {
            let mut bytes = vec![b'0'; length];
            bytes[place] = b'g';
            assert_eq!(read_line(&bytes), Err(place.min(34)), "{length}, {place}");
        }
    }
}

#[test]
fn lines_of_a_log() {
    let walk = |log: &'static str| -> Vec<&str> {
        lines(log.as_bytes())
            .map(|line| std::str::from_utf8(line).unwrap())
            .collect()
    };
    assert_eq!(walk(""), [""; 0]);
    assert_eq!(walk("\n"), [""]);
    assert_eq!(walk("a"), ["a"]);
    assert_eq!(walk("a\n"), ["a"]);
    assert_eq!(walk("a\n\n"), ["a", ""]);
    assert_eq!(walk("\na\r\nb"), ["", "a\r", "b"]);
}

#[test]
fn only_referenced_events_count() {
    let mut machine = machine("events a b c; notes t; t(b[i]) > 0", 2);
    for event in 0..=255 {
        if event != 1 {
            assert_eq!(feed(&mut machine, event, 1), Fed::Ignored);
        }
    }
    assert_eq!(machine.counts(), [0; 8]);
    assert_eq!(feed(&mut machine, 1, 1), Fed::Accepted);
    assert_eq!(machine.counts(), [0, 1, 0, 0, 0, 0, 0, 0]);
}

#[test]
fn notes_are_chosen_by_number() {
    let rule = "events a; notes t u v w; t(a[i]) = 1 && u(a[i]) = 2 && v(a[i]) = 3 && w(a[i]) = 4";
    let mut machine = machine(rule, 4);
    machine.feed(&line(0, [1, 2, 3, 4]));
    machine.feed(&line(0, [1, 2, 4, 3]));
    assert_eq!(pull(&mut machine), TRUE);
    assert_eq!(pull(&mut machine), FALSE);
    assert_eq!(pull(&mut machine), Pulled::Waiting);
}

#[test]
fn relations_at_the_ends_of_their_ranges() {
    let cases = [
        ("=", [false, true, false]),
        ("!=", [true, false, true]),
        ("<", [true, false, false]),
        ("<=", [true, true, false]),
        (">", [false, false, true]),
        (">=", [false, true, true]),
    ];
    for (relation, expected) in cases {
        let mut machine = machine(&format!("events a; notes t; t(a[i]) {relation} 5"), 3);
        feed_all(&mut machine, 0, &[4, 5, 6]);
        let answers = [0; 3].map(|_| pull(&mut machine));
        assert_eq!(answers, expected.map(|holds| Pulled::Verdict(holds.into())));
    }
}

#[test]
fn kleene_tables() {
    use Truth::{False, True, Unknown};
    // The first and the second relation: b[i-1] is void at instance 0, so it makes them unknown.
    let units = [
        ("t(a[i]) = 0", True),
        ("t(a[i]) = 1", False),
        ("t(b[i-1]) = 0", Unknown),
    ];
    let and = [
        True, False, Unknown, False, False, False, Unknown, False, Unknown,
    ];
    let or = [
        True, True, True, True, False, Unknown, True, Unknown, Unknown,
    ];
    let implies = [
        True, False, Unknown, True, True, True, True, Unknown, Unknown,
    ];
    for (mark, table) in [("&&", and), ("||", or), ("->", implies)] {
        for (k, expected) in table.into_iter().enumerate() {
            let (left, right) = (units[k / 3].0, units[k % 3].0);
            let rule = format!("events a b; notes t; {{{left} {mark} {right}}} && t(a[i]) = 0");
            let mut machine = machine(&rule, 1);
            feed_all(&mut machine, 0, &[0]);
            assert_eq!(pull(&mut machine), Pulled::Verdict(expected), "{rule}");
        }
    }
    for (unit, value) in units {
        let rule = format!("events a b; notes t; !{unit} && t(a[i]) = 0");
        let mut machine = machine(&rule, 1);
        feed_all(&mut machine, 0, &[0]);
        assert_eq!(pull(&mut machine), Pulled::Verdict(!value), "{rule}");
    }
    assert_eq!((!True, !False, !Unknown), (False, True, Unknown));
}

#[test]
fn a_relation_that_names_a_pending_reference_is_unknown_whatever_its_factor() {
    let mut machine = machine("events a b; notes t; 0 * t(b[i]) = 0 || t(a[i]) = 1", 2);
    feed_all(&mut machine, 0, &[2]);
    assert_eq!(pull(&mut machine), Pulled::Waiting);
    feed_all(&mut machine, 1, &[3]);
    assert_eq!(pull(&mut machine), TRUE);
}

#[test]
fn arithmetic_is_exact() {
    let rule = "events a; notes t u; t(a[i]) * u(a[i]) = 2147483647 * 2147483647 + 0 * i";
    let mut first = machine(rule, 4);
    first.feed(&line(0, [i32::MAX, i32::MAX, 0, 0]));
    first.feed(&line(0, [i32::MIN, i32::MIN, 0, 0]));
    assert_eq!([pull(&mut first), pull(&mut first)], [TRUE, FALSE]);
    // The least note times the least note is 2^62.
    let rule = "events a; notes t; t(a[i]) * t(a[i]) = i * i * i * 4 + 0";
    let mut second = machine(rule, 256);
    feed_all(&mut second, 0, &[0, 2]);
    assert_eq!([pull(&mut second), pull(&mut second)], [TRUE, TRUE]);
    let rule = "events a; notes t; abs(t(a[i])) - 2147483647 = 1";
    let mut third = machine(rule, 1);
    feed_all(&mut third, 0, &[i32::MIN]);
    assert_eq!(pull(&mut third), TRUE);
}

#[test]
fn instance_number_in_a_sum() {
    let mut machine = machine("events a; notes t; t(a[i]) = 3 * i - 1", 1);
    for i in 0..100 {
        feed_all(&mut machine, 0, &[3 * i - 1]);
        assert_eq!(pull(&mut machine), TRUE);
    }
}

#[test]
fn report_of_32_references_has_166_bytes() {
    let sum = vec!["t(a[i])"; 31].join("+");
    let mut machine = machine(&format!("events a b; notes t; {sum} = t(b[i])"), 1);
    feed_all(&mut machine, 0, &[-1]);
    feed_all(&mut machine, 1, &[0x0102_0304]);
    let mut report = [0xA5; 170];
    assert_eq!(machine.pull(&mut report), FALSE);
    let expected = format!("000000000020{}0001020304a5a5a5a5", "00ffffffff".repeat(31));
    assert_eq!(hex(&report), expected);
}

#[test]
fn report_marks_and_number() {
    let rule = "events a b; notes t u; u(a[i]) > 0 && t(b[i+3]) > 0 && t(b[i-2]) > 0";
    let mut machine = machine(rule, 8);
    for n in [-1, -2, -3] {
        machine.feed(&line(0, [99, n, 0, 0]));
    }
    let expected = [
        "00000000000300ffffffff01000000000200000000",
        "00000001000300fffffffe01000000000200000000",
        "00000002000300fffffffd01000000000100000000",
    ];
    for report in expected {
        let mut buffer = [0; 166];
        assert_eq!(machine.pull(&mut buffer), FALSE);
        assert_eq!(hex(&buffer[..21]), report);
        assert_eq!(buffer[21..], [0; 145]);
    }
}

#[test]
fn a_verdict_that_is_not_false_leaves_the_report() {
    let mut machine = machine("events a b; notes t; t(a[i-1]) = t(b[i])", 2);
    feed_all(&mut machine, 0, &[1]);
    feed_all(&mut machine, 1, &[1, 1]);
    let mut buffer = [0xA5; 166];
    assert_eq!(machine.pull(&mut buffer), UNKNOWN);
    assert_eq!(machine.pull(&mut buffer), TRUE);
    assert_eq!(buffer, [0xA5; 166]);
}

#[test]
fn factor_9_and_offset_9999() {
    let mut machine = machine("events a; notes t; t(a[9*i+9999]) = i", 1);
    assert_eq!(machine.base(0), Some(9_999));
    // The first 9,999 come below base and are counted; the next is a[9999].
    feed_all(&mut machine, 0, &[7; 9_999]);
    assert_eq!(pull(&mut machine), Pulled::Waiting);
    feed_all(&mut machine, 0, &[0]);
    assert_eq!(feed(&mut machine, 0, 7), FULL);
    assert_eq!(pull(&mut machine), TRUE);
    assert_eq!(machine.base(0), Some(10_008));
    feed_all(&mut machine, 0, &[7, 7, 7, 7, 7, 7, 7, 7, 1]);
    assert_eq!(feed(&mut machine, 0, 7), FULL);
    assert_eq!(pull(&mut machine), TRUE);
    assert_eq!(machine.counts()[0], 10_009);
}

#[test]
fn factor_9_and_offset_minus_9999() {
    let mut machine = machine("events a; notes t; t(a[9*i-9999]) = 5", 1);
    assert_eq!(pull(&mut machine), Pulled::Waiting);
    assert_eq!((machine.p(), machine.base(0)), (1_111, Some(0)));
    feed_all(&mut machine, 0, &[5]);
    assert_eq!(feed(&mut machine, 0, 5), FULL);
    assert_eq!(pull(&mut machine), TRUE);
    assert_eq!((machine.p(), machine.base(0)), (1_112, Some(9)));
    let expected = Totals {
        held: 1,
        failed: 0,
        unknown: 0,
    };
    assert_eq!(machine.totals(), expected);
}

#[test]
fn a_void_side_while_another_is_present() {
    // Instances 2 to 4 have no a; the first with both is 5.
    let mut machine = machine("events a b; notes t; t(a[i-5]) > 0 || t(b[i-2]) > 0", 4);
    assert_eq!(machine.p(), 2);
    feed_all(&mut machine, 1, &[0, 1, 0]);
    let answers = [0; 4].map(|_| pull(&mut machine));
    assert_eq!(answers, [UNKNOWN, TRUE, UNKNOWN, Pulled::Waiting]);
    feed_all(&mut machine, 0, &[0]);
    assert_eq!(pull(&mut machine), Pulled::Waiting);
    feed_all(&mut machine, 1, &[0]);
    assert_eq!(pull(&mut machine), FALSE);
    assert_eq!(machine.p(), 6);
}

#[test]
fn base_at_the_start() {
    // Verdicts begin at instance 2 with a[1]; a[0] comes below base and is counted.
    let mut machine = machine("events a; notes t; t(a[2*i-3]) = 1", 1);
    assert_eq!((machine.p(), machine.base(0)), (2, Some(1)));
    feed_all(&mut machine, 0, &[0]);
    assert_eq!(pull(&mut machine), Pulled::Waiting);
    feed_all(&mut machine, 0, &[1]);
    assert_eq!(feed(&mut machine, 0, 1), FULL);
    assert_eq!(pull(&mut machine), TRUE);
    assert_eq!((machine.p(), machine.base(0)), (3, Some(3)));
}

#[test]
fn base_is_the_smallest_over_the_references_of_an_event() {
    // Factor 2 alone would free too much.
    let mut machine = machine("events a; notes t; t(a[2*i]) = t(a[i])", 4);
    feed_all(&mut machine, 0, &[0, 0, 0, 0]);
    assert_eq!([pull(&mut machine), pull(&mut machine)], [TRUE, TRUE]);
    assert_eq!((machine.p(), machine.base(0)), (2, Some(2)));
    feed_all(&mut machine, 0, &[0, 0]);
    assert_eq!(feed(&mut machine, 0, 0), FULL);
    assert_eq!(pull(&mut machine), TRUE);
    feed_all(&mut machine, 0, &[0]);
    assert_eq!(pull(&mut machine), TRUE);
    // Instance 4 needs a[8]; base 4 and 4 places end at a[7].
    feed_all(&mut machine, 0, &[0]);
    assert_eq!(pull(&mut machine), Pulled::Waiting);
    assert_eq!(feed(&mut machine, 0, 0), FULL);
}

#[test]
fn a_late_event_does_not_hold_another() {
    let mut machine = machine("events a b; notes t; t(a[i]) > 0 || t(b[i]) > 0", 1);
    for n in 1..=100 {
        feed_all(&mut machine, 0, &[n]);
        assert_eq!(pull(&mut machine), TRUE);
    }
    // All of b's lines up to p come below base: counted, never 'window full'.
    assert_eq!(machine.base(1), Some(100));
    feed_all(&mut machine, 1, &[0; 101]);
    assert_eq!(feed(&mut machine, 1, 0), FULL);
    assert_eq!(machine.counts()[..2], [100, 101]);
}

#[test]
fn windows_of_1_and_256() {
    for w in [1, 2, 255, 256] {
        let mut machine = machine("events a b; notes t; t(a[i]) = t(b[i])", w);
        feed_all(&mut machine, 0, &vec![1; w as usize]);
        assert_eq!(feed(&mut machine, 0, 1), FULL);
        feed_all(&mut machine, 1, &vec![1; w as usize]);
        assert_eq!(feed(&mut machine, 1, 1), FULL);
        for _ in 0..w {
            assert_eq!(pull(&mut machine), TRUE);
        }
        assert_eq!(pull(&mut machine), Pulled::Waiting);
        feed_all(&mut machine, 0, &vec![1; w as usize]);
        assert_eq!(feed(&mut machine, 0, 1), FULL);
    }
}

#[test]
fn count_of_1_000_000() {
    let mut machine = machine("events a b; notes t; t(a[i]) >= 0", 1);
    let good = line(0, [0, 0, 0, 0]);
    let mut report = [0; 166];
    for n in 1..=1_000_000 {
        assert_eq!(machine.feed(&good), Fed::Accepted);
        if n < 1_000_000 {
            assert_eq!(machine.pull(&mut report), TRUE);
        }
    }
    // 17 holds as well; 16 comes first, 15 and 'ignored' before it.
    assert_eq!(machine.counts()[0], 1_000_000);
    assert_eq!(machine.base(0), Some(999_999));
    assert_eq!(machine.feed(&good), Fed::Refused(Refusal::of(16)));
    assert_eq!(machine.feed(&good[1..]), Fed::Refused(Refusal::at(15, 33)));
    assert_eq!(feed(&mut machine, 1, 0), Fed::Ignored);
    assert_eq!(machine.pull(&mut report), TRUE);
    assert_eq!(machine.feed(&good), Fed::Refused(Refusal::of(16)));
    assert_eq!(machine.pull(&mut report), Pulled::Waiting);
    assert_eq!((machine.p(), machine.totals().held), (1_000_000, 1_000_000));
    let window = [7; 32];
    assert_eq!(machine.state(&window).refusal(&window), None);
}
