//! The library from Rust, with nothing but rustc: reads a rule, opens a checker, feeds four lines and pulls after each; the
//! operator panel sees the view of each report. The last two lines come from a table of the earlier edition, and are raised. At
//! the end rework is charged, and the rule is opened with the limits of the board inside the plotter. host/ has a wrapper with types
//! of its own; this shows the calls themselves.

const WIDTH: usize = 64;

#[repr(C)]
#[derive(Clone, Copy)]
struct Totals {
    held: u32,
    failed: u32,
    unknown: u32,
}

#[repr(C)]
#[derive(Clone, Copy)]
struct State {
    frames: [u8; 512],
    len: u32,
    width: u32,
    profile: u32,
    counts: [u32; 8],
    next: u32,
    totals: Totals,
    sum: u32,
}

#[repr(C)]
struct Reading {
    answer: u32,
    number: u32,
    place: u32,
    frames: u32,
}

#[repr(C)]
struct Outcome {
    state: State,
    answer: u32,
    number: u32,
    place: u32,
}

#[repr(C)]
struct Part {
    bytes: *const u8,
    len: usize,
}

#[repr(C)]
struct Raised {
    number: u32,
    place: u32,
    line: [u8; 34],
}

#[repr(C)]
struct Lowered {
    number: u32,
    place: u32,
    line: [u8; 14],
}

#[repr(C)]
struct Tariff {
    bands: u32,
    lasts: [u32; 4],
    prices: [u32; 4],
    beyond: u32,
    surcharge: u32,
}

#[repr(C)]
struct Charged {
    number: u32,
    place: u32,
    cents: u64,
}

// Nothing checks these against the library: they are include/dillplatter.h, word for word.
extern "C" {
    fn dillplatter_read(text: *const u8, text_len: usize, frames: *mut u8, frames_len: usize) -> Reading;
    fn dillplatter_open(frames: *const u8, frames_len: usize, width: u32, window: *mut i32, window_len: usize) -> Outcome;
    fn dillplatter_open_board(frames: *const u8, frames_len: usize, width: u32, window: *mut i32, window_len: usize) -> Outcome;
    fn dillplatter_feed(state: State, window: *mut i32, window_len: usize, line: *const u8, line_len: usize) -> Outcome;
    fn dillplatter_pull(state: State, window: *const i32, window_len: usize, report: *mut u8, report_len: usize) -> Outcome;
    fn dillplatter_view(part: *mut Part) -> u32;
    fn dillplatter_raise(old_line: *const u8, old_len: usize) -> Raised;
    fn dillplatter_lower(line: *const u8, line_len: usize) -> Lowered;
    fn dillplatter_charge(state: State, tariff: Tariff) -> Charged;
}

// A slice is a pointer and a length; the borrow checker sees to it that what is written overlaps nothing.
fn read(text: &[u8], frames: &mut [u8]) -> Reading {
    unsafe { dillplatter_read(text.as_ptr(), text.len(), frames.as_mut_ptr(), frames.len()) }
}

fn open(frames: &[u8], width: u32, window: &mut [i32]) -> Outcome {
    unsafe { dillplatter_open(frames.as_ptr(), frames.len(), width, window.as_mut_ptr(), window.len()) }
}

fn open_board(frames: &[u8], width: u32, window: &mut [i32]) -> Outcome {
    unsafe { dillplatter_open_board(frames.as_ptr(), frames.len(), width, window.as_mut_ptr(), window.len()) }
}

fn feed(state: State, window: &mut [i32], line: &[u8]) -> Outcome {
    unsafe { dillplatter_feed(state, window.as_mut_ptr(), window.len(), line.as_ptr(), line.len()) }
}

fn pull(state: State, window: &[i32], report: &mut [u8]) -> Outcome {
    unsafe { dillplatter_pull(state, window.as_ptr(), window.len(), report.as_mut_ptr(), report.len()) }
}

// What the operator panel may see of a report: a part of the report itself, empty where the number is not 0.
fn view(report: &[u8]) -> (u32, &[u8]) {
    let mut part = Part { bytes: report.as_ptr(), len: report.len() };
    let number = unsafe { dillplatter_view(&mut part) };
    (number, unsafe { std::slice::from_raw_parts(part.bytes, part.len) })
}

fn raise(old: &[u8]) -> Raised {
    unsafe { dillplatter_raise(old.as_ptr(), old.len()) }
}

fn lower(line: &[u8]) -> Lowered {
    unsafe { dillplatter_lower(line.as_ptr(), line.len()) }
}

fn charge(state: State, tariff: Tariff) -> Charged {
    unsafe { dillplatter_charge(state, tariff) }
}

// The log line of an old line. Lowered again, it is the old line in capitals.
fn from_old(old: &[u8]) -> [u8; 34] {
    let raised = raise(old);
    assert_eq!(raised.number, 0, "an old line is refused at {}", raised.place);
    let lowered = lower(&raised.line);
    assert_eq!((lowered.number, lowered.place), (0, 0), "a raised line can be lowered");
    assert_eq!(&lowered.line, old.to_ascii_uppercase().as_slice());
    raised.line
}

// What the violations cost that this checker has found: 45 cents each to the 10th, 30 to the 100th, 12 beyond, and 7 percent. The
// entries of bands that there are not are not looked at.
fn say_charge(state: State) {
    let charged = charge(state, Tariff { bands: 2, lasts: [10, 100, 0, 0], prices: [45, 30, 0, 0], beyond: 12, surcharge: 7 });
    assert_eq!((charged.number, charged.place), (0, 0), "the tariff and the state are good");
    println!("rework, violations {}: {} cents", state.totals.failed, charged.cents);
}

fn say_false(instance: u32, report: &[u8]) {
    println!("instance {instance} is false, {} references: {:?}", report[5], &report[6..16]);
    match view(report) {
        (0, seen) => println!("the panel sees {seen:?}"),
        (number, _) => panic!("view refused with {number}"),
    }
}

// Pulls until the checker waits.
fn pull_all(mut state: State, window: &[i32], report: &mut [u8]) -> State {
    loop {
        let pulled = pull(state, window, report);
        state = pulled.state;
        match pulled.answer {
            6 => println!("instance {} is true", state.next - 1),
            7 => say_false(state.next - 1, report),
            8 => println!("instance {} is unknown", state.next - 1),
            5 => return state,
            _ => panic!("pull refused with {}", pulled.number),
        }
    }
}

// The same frames on the board inside the plotter, where W is at most 32. Its checkers are fed and pulled by the same calls.
fn say_board(frames: &[u8], window: &mut [i32]) {
    for width in [WIDTH, 32] {
        let opened = open_board(frames, width as u32, &mut window[..32 * width]);
        println!("on the board, W {width}: answer {}, number {}, profile {}", opened.answer, opened.number, opened.state.profile);
    }
}

fn main() {
    assert_eq!((std::mem::size_of::<State>(), std::mem::size_of::<Outcome>(), std::mem::size_of::<Part>()), (576, 588, 16));
    assert_eq!((std::mem::size_of::<Raised>(), std::mem::size_of::<Lowered>()), (44, 24));
    assert_eq!((std::mem::size_of::<Tariff>(), std::mem::size_of::<Charged>()), (44, 16));
    let (mut frames, mut window, mut report) = ([0u8; 512], [0i32; 32 * WIDTH], [0u8; 166]);
    let reading = read(b"events in out; notes t; t(out[i]) - t(in[i]) <= 25", &mut frames);
    if reading.answer != 1 {
        println!("rule refused with {} at {}", reading.number, reading.place);
        return;
    }
    let frames = &frames[..8 * reading.frames as usize];
    let opened = open(frames, WIDTH as u32, &mut window);
    if opened.answer != 2 {
        println!("opening refused with {} at {}", opened.number, opened.place);
        return;
    }
    let mut state = opened.state;
    let today = [*b"000000000A000000000000000000000000", *b"0100000028000000000000000000000000"];
    let raised = [from_old(b"00003200000000"), from_old(b"01004b00000000")];
    for line in today.iter().chain(&raised) {
        let fed = feed(state, &mut window, line);
        println!("fed: answer {}, number {}, place {}", fed.answer, fed.number, fed.place);
        assert_ne!(fed.answer, 0, "a refused line is not counted: mend it, or open anew");
        state = pull_all(fed.state, &window, &mut report);
    }
    println!("true {}, false {}, unknown {}", state.totals.held, state.totals.failed, state.totals.unknown);
    say_charge(state);
    say_board(frames, &mut window);
}
