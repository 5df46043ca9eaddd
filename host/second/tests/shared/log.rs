//! Log lines, random ones too.

use super::random::Random;
use dillplatter_second::Machine;

/// A log line.
pub fn line(event: u8, notes: [i32; 4]) -> Vec<u8> {
    let [a, b, c, d] = notes;
    format!("{event:02X}{a:08X}{b:08X}{c:08X}{d:08X}").into_bytes()
}

/// A log line of the earlier edition.
pub fn old_line(event: u8, notes: [i16; 3]) -> Vec<u8> {
    let [a, b, c] = notes;
    format!("{event:02X}{a:04X}{b:04X}{c:04X}").into_bytes()
}

/// The events that a machine's rule references.
pub fn events(machine: &Machine) -> Vec<usize> {
    let references = &machine.rule().references;
    references.iter().map(|reference| reference.event).collect()
}

/// A random note, small or at an end.
pub fn note(random: &mut Random) -> i32 {
    let small = random.below(40) as i32 - 20;
    random.pick(&[small, small, small, small, i32::MIN, i32::MAX])
}

/// The same of 16 bits.
pub fn old_note(random: &mut Random) -> i16 {
    let small = random.below(40) as i16 - 20;
    random.pick(&[small, small, small, small, i16::MIN, i16::MAX])
}

/// A random line, mostly of one of some events, sometimes damaged.
pub fn random_line(random: &mut Random, events: &[usize]) -> Vec<u8> {
    let event = event(random, events);
    let notes = [0; 4].map(|_: i32| note(random));
    varied(random, line(event, notes))
}

/// The same of the earlier edition.
pub fn random_old_line(random: &mut Random, events: &[usize]) -> Vec<u8> {
    let event = event(random, events);
    let notes = [0; 3].map(|_: i16| old_note(random));
    varied(random, old_line(event, notes))
}

/// A random event, mostly one of some.
fn event(random: &mut Random, events: &[usize]) -> u8 {
    let event = match random.below(12) {
        0 => random.below(256),
        1 => random.below(10),
        _ => random.pick(events),
    };
    event as u8
}

/// A line with other cases, sometimes damaged.
fn varied(random: &mut Random, mut bytes: Vec<u8>) -> Vec<u8> {
    mix_cases(random, &mut bytes);
    if random.once_in(15) {
        damage(random, &mut bytes);
    }
    bytes
}

/// Makes a line's letters capitals, small, or both.
pub fn mix_cases(random: &mut Random, bytes: &mut [u8]) {
    let small = random.below(3);
    for byte in bytes {
        if small == 1 || small == 2 && random.once_in(2) {
            byte.make_ascii_lowercase();
        }
    }
}

/// Damages a line at one place.
pub fn damage(random: &mut Random, bytes: &mut Vec<u8>) {
    let place = random.below(bytes.len());
    match random.below(5) {
        0 => bytes.truncate(place),
        1 => bytes[place] = random.pick(b"gG@`/:\r\n \0\x80\xff"),
        2 => bytes.extend(vec![b'0'; 1 + random.below(40)]),
        3 => bytes[place] = random.below(256) as u8,
        _ => bytes.insert(place, b' '),
    }
}
