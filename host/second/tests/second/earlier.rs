//! The second checker's converter of lines of the earlier edition, and old lines fed as they are.

use crate::common::{machine, pull};
use crate::shared::driven::{FALSE, TRUE};
use crate::shared::log::{damage, events, line, mix_cases, old_line, random_old_line};
use crate::shared::random::{frames, Random};
use dillplatter_second::line::{lines, read_line};
use dillplatter_second::{bench, bench_old, lower, open, raise, read_old};
use dillplatter_second::{Fed, Machine, OldLine, Pulled, Refusal};

/// Lowers a line of event 0 with some notes.
fn down(notes: [i32; 4]) -> Result<OldLine, Refusal> {
    lower(&line(0, notes))
}

fn refused<T>(number: u8, place: usize) -> Result<T, Refusal> {
    Err(Refusal::at(number, place))
}

#[test]
fn an_old_line_has_its_event_and_notes() {
    let read = read_old(b"0A7FFF8000FFFF");
    assert_eq!(read, Ok((10, [32_767, -32_768, -1])));
    assert_eq!(read_old(b"fF0000000100aB"), Ok((255, [0, 1, 171])));
    assert_eq!(
        read_old(b"80123456789ABC"),
        Ok((128, [0x1234, 0x5678, -25_924]))
    );
}

#[test]
fn lines_up_and_down() {
    for (old, line) in [
        (b"00000000000000", b"0000000000000000000000000000000000"),
        (b"017FFF7fff7fFf", b"0100007FFF00007FFF00007FFF00000000"),
        (b"fe800080008000", b"FEFFFF8000FFFF8000FFFF800000000000"),
        (b"Abffff00010abc", b"ABFFFFFFFF0000000100000ABC00000000"),
        (b"099fff8fff7000", b"09FFFF9FFFFFFF8FFF0000700000000000"),
    ] {
        assert_eq!(raise(old), Ok(*line), "{}", old.escape_ascii());
        let capitals: OldLine = old.to_ascii_uppercase().try_into().unwrap();
        assert_eq!(lower(line), Ok(capitals));
        assert_eq!(lower(&line.to_ascii_lowercase()), Ok(capitals));
    }
}

#[test]
fn ends_of_16_bits() {
    for (note, digits) in [(32_767, "7FFF"), (-32_768, "8000")] {
        for (notes, expected) in [
            ([note, 0, 0, 0], format!("00{digits}00000000")),
            ([0, note, 0, 0], format!("000000{digits}0000")),
            ([0, 0, note, 0], format!("0000000000{digits}")),
        ] {
            assert_eq!(down(notes).unwrap(), expected.as_bytes(), "{notes:?}");
        }
    }
    let beyond = [32_768, -32_769, 65_535, 65_536, -65_536, i32::MAX, i32::MIN];
    for note in beyond.into_iter().chain([0x7FFF_8000, -0x7FFF_8000]) {
        assert_eq!(down([note, 0, 0, 0]), refused(25, 2), "{note}");
        assert_eq!(down([-1, note, 0, 0]), refused(25, 10), "{note}");
        assert_eq!(down([-1, 1, note, 0]), refused(25, 18), "{note}");
        // The place is that of the first such note.
        assert_eq!(down([note, 0, note, 0]), refused(25, 2), "{note}");
        assert_eq!(down([note, note, note, 0]), refused(25, 2), "{note}");
        assert_eq!(down([7, note, note, 0]), refused(25, 10), "{note}");
    }
}

#[test]
fn a_fourth_note_of_0() {
    assert_eq!(down([1, 2, 3, 0]), Ok(*b"00000100020003"));
    for fourth in [1, -1, 0x1_0000, -0x1_0000, 0x1000_0000, i32::MIN, i32::MAX] {
        assert_eq!(down([1, 2, 3, fourth]), refused(24, 0), "{fourth}");
        // 24 comes before 25.
        assert_eq!(down([40_000, 0, 0, fourth]), refused(24, 0), "{fourth}");
    }
}

#[test]
fn what_15_names_comes_first() {
    // The first three notes and the fourth are wrong too.
    let wrong = line(0, [40_000; 4]);
    assert_eq!(lower(&wrong), refused(24, 0));
    for place in 0..34 {
        let mut bytes = wrong.clone();
        bytes[place] = b'G';
        assert_eq!(lower(&bytes), refused(15, place));
        assert_eq!(lower(&wrong[..place]), refused(15, place));
    }
    assert_eq!(lower(&[&wrong[..], b"0"].concat()), refused(15, 34));
}

#[test]
fn lengths() {
    for length in 0..=100 {
        let digits = vec![b'8'; length];
        let zeros = vec![b'0'; length];
        let up = match length {
            14 => Ok(*b"88FFFF8888FFFF8888FFFF888800000000"),
            _ => refused(23, length.min(14)),
        };
        let down = match length {
            34 => Ok([b'0'; 14]),
            _ => refused(15, length.min(34)),
        };
        assert_eq!(raise(&digits), up, "{length}");
        assert_eq!(read_old(&digits).is_ok(), length == 14);
        assert_eq!(lower(&zeros), down, "{length}");
        // A non-digit behind the 14 digits of a long line does not count, one before does.
        for place in 0..length {
            let mut bytes = digits.clone();
            bytes[place] = b'\r';
            assert_eq!(raise(&bytes), refused(23, place.min(14)), "{length}");
            // Of several, the first is the place.
            bytes[place..].fill(b'\n');
            assert_eq!(raise(&bytes), refused(23, place.min(14)), "{length}");
        }
    }
}

#[test]
fn every_byte_value_at_every_place_of_an_old_line() {
    for place in 0..14 {
        for byte in 0..=255_u8 {
            let mut bytes = *b"5A1234FEDC8001";
            bytes[place] = byte;
            if b"0123456789ABCDEFabcdef".contains(&byte) {
                let line = raise(&bytes).expect("the line has 14 digits");
                assert_eq!(
                    lower(&line),
                    Ok(bytes.map(|byte| byte.to_ascii_uppercase()))
                );
            } else {
                assert_eq!(raise(&bytes), refused(23, place), "byte {byte}");
            }
        }
    }
}

#[test]
fn a_raised_line_has_the_same_event_and_notes() {
    for value in i16::MIN..=i16::MAX {
        let event = value as u8;
        for notes in [[value, 1, -1], [-1, value, 1], [1, -1, value]] {
            let [a, b, c] = notes.map(i32::from);
            let old = old_line(event, notes);
            let line = raise(&old).expect("the line has 14 digits");
            assert_eq!(read_line(&line), Ok((event.into(), [a, b, c, 0])));
            assert_eq!(lower(&line).unwrap()[..], old);
        }
    }
}

#[test]
fn down_and_then_up() {
    let random = &mut Random::new(210_000_000);
    let mut kept = 0;
    for _ in 0..20_000 {
        let mut note = |limit: usize| random.below(2 * limit) as i32 - limit as i32;
        let notes = [note(33_000), note(33_000), note(33_000), note(2)];
        let mut bytes = line(random.below(256) as u8, notes);
        mix_cases(random, &mut bytes);
        if random.once_in(4) {
            damage(random, &mut bytes);
        }
        if let Ok(old) = lower(&bytes) {
            assert_eq!(raise(&old).unwrap()[..], bytes.to_ascii_uppercase());
            kept += 1;
        }
    }
    assert!(kept > 2_000, "{kept}");
}

#[test]
fn old_lines_are_fed_as_they_are() {
    let rule = "events a b; notes t u v w; t(a[i]) < u(a[i]) && v(a[i]) = 0 - 1 && w(a[i]) = 0";
    let mut machine = machine(rule, 3);
    assert_eq!(machine.feed_old(b"0080007FFFffff"), Fed::Accepted);
    assert_eq!(machine.feed_old(b"007fff8000FFFF"), Fed::Accepted);
    assert_eq!(machine.feed_old(b"01000000000000"), Fed::Ignored);
    assert_eq!(
        machine.feed_old(b"0000000000000g"),
        Fed::Refused(Refusal::at(23, 13))
    );
    assert_eq!(machine.feed_old(b""), Fed::Refused(Refusal::at(23, 0)));
    let line = b"0000000000000000000000000000000000";
    assert_eq!(machine.feed_old(line), Fed::Refused(Refusal::at(23, 14)));
    assert_eq!(machine.feed_old(b"00000000000000"), Fed::Accepted);
    assert_eq!(
        machine.feed_old(b"00000000000000"),
        Fed::Refused(Refusal::of(17))
    );
    let expected = [[-32_768, 32_767, -1, 0], [32_767, -32_768, -1, 0], [0; 4]];
    assert_eq!(machine.list(0), expected);
    let answers = [0; 4].map(|_| pull(&mut machine));
    assert_eq!(answers, [TRUE, FALSE, FALSE, Pulled::Waiting]);
}

/// One random call of a machine that is fed old lines and of one that is fed their raised lines.
fn call(random: &mut Random, machines: [&mut Machine; 2]) {
    let [old, raised] = machines;
    if random.once_in(2) {
        let mut reports = [[0xA5; 166]; 2];
        let answer = old.pull(&mut reports[0]);
        assert_eq!(raised.pull(&mut reports[1]), answer);
        assert_eq!(reports[0], reports[1]);
        return;
    }
    let bytes = random_old_line(random, &events(old));
    let answer = old.feed_old(&bytes);
    match raise(&bytes) {
        Ok(line) => assert_eq!(raised.feed(&line), answer),
        Err(refusal) => assert_eq!(answer, Fed::Refused(refusal)),
    }
}

#[test]
fn verdicts_over_an_old_log_are_those_over_its_raised_log() {
    let mut verdicts = 0;
    for seed in 0..300 {
        let random = &mut Random::new(seed + 220_000_000);
        let frames = frames(random);
        let w = random.pick(&[1, 2, 5, 64, 256]);
        let mut old = open(&frames, w, 32 * w as usize).unwrap();
        let mut raised = old.clone();
        for _ in 0..200 {
            call(random, [&mut old, &mut raised]);
            assert_eq!(old.state(&[]), raised.state(&[]), "seed {seed}");
        }
        assert!((0..8).all(|event| old.list(event) == raised.list(event)));
        assert_eq!(old.reported(), raised.reported(), "seed {seed}");
        verdicts += old.p() - old.rule().start();
    }
    assert!(verdicts > 8_000, "{verdicts}");
}

#[test]
fn output_for_an_old_log() {
    let rule = b"events in out; notes t; t(out[i]) - t(in[i]) <= 25";
    let old_log =
        "00000A00000000\n01002800000000\n\n00003200000000\r\n00fff60000ffff\n01000f00000000";
    let expected = "\
0000000000020000000028000000000A
000000010000000100000000000000040000000000000002
";
    assert_eq!(bench_old(rule, old_log.as_bytes()), expected);
    let raised = |old| raise(old).map_or(String::new(), |line| line.escape_ascii().to_string());
    let log: Vec<String> = lines(old_log.as_bytes()).map(raised).collect();
    assert_eq!(bench(rule, log.join("\n").as_bytes()), expected);
    assert_eq!(bench_old(b"", old_log.as_bytes()), "EE020000\n");
}
