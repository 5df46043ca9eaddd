//! The logs: a stimulus and a display in turn, one of a hundred displays late.

/// The file's name for a number of lines.
pub fn name(lines: usize) -> String {
    format!("log-{lines}")
}

/// A log of some lines. Display i comes at time 10 x (i + 1), 22 after its stimulus; a late one comes 5 later, which
/// breaks rate, latency, jitter, throughput and burstiness about once in a hundred.
pub fn make(lines: usize) -> Vec<u8> {
    let mut log = Vec::with_capacity(35 * lines);
    for k in 0..lines {
        let i = k / 2;
        let due = 10 * (i as i32 + 1);
        let late = if i % 100 == 70 { 5 } else { 0 };
        let time = if k % 2 == 0 { due - 22 } else { due + late };
        let line = format!("{:02X}{time:08X}{i:08X}{:08X}00000000\n", k % 2, i % 7);
        log.extend(line.into_bytes());
    }
    log
}
