//! Processor time, user and system, which a busy machine changes less than the time on the wall.

use std::time::Duration;

const SELF: i32 = 0;
const CHILDREN: i32 = -1;

/// The C library's `struct rusage` on x86-64 Linux: two times, each in seconds and microseconds, and more.
#[repr(C)]
struct Usage {
    user: [i64; 2],
    system: [i64; 2],
    more: [i64; 14],
}

unsafe extern "C" {
    fn getrusage(who: i32, usage: *mut Usage) -> i32;
}

/// The time of this process.
pub fn own() -> Duration {
    used(SELF)
}

/// The time of its children that have ended.
pub fn children() -> Duration {
    used(CHILDREN)
}

fn used(who: i32) -> Duration {
    let mut usage = Usage {
        user: [0; 2],
        system: [0; 2],
        more: [0; 14],
    };
    // SAFETY: the struct has the size that the call writes.
    let failed = unsafe { getrusage(who, &mut usage) };
    assert_eq!(failed, 0, "getrusage");
    let micros = |[seconds, micros]: [i64; 2]| (1_000_000 * seconds + micros) as u64;
    Duration::from_micros(micros(usage.user) + micros(usage.system))
}
