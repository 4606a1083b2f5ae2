//! Ends the program with a line where a call touches guarded memory, needs more stack or does not end.

use std::ffi::{c_int, c_uint};
use std::ptr::null_mut;
use std::sync::atomic::{AtomicU32, AtomicU64, Ordering::Relaxed};

extern "C" {
    fn sigaction(number: c_int, action: *const Action, before: *mut Action) -> c_int;
    fn alarm(seconds: c_uint) -> c_uint;
    fn write(file: c_int, bytes: *const u8, len: usize) -> isize;
    fn _exit(status: c_int) -> !;
}

/// The C library's struct on x86-64 Linux.
#[repr(C)]
struct Action {
    handler: extern "C" fn(c_int),
    mask: [u64; 16],
    flags: c_int,
    restorer: usize,
}

// Linux's values.
const BUS: c_int = 7;
const SEGMENT: c_int = 11;
const ALARM: c_int = 14;
/// The handler runs on the thread's other stack: the first may be used up.
const ON_STACK: c_int = 0x0800_0000;

static CASE: AtomicU64 = AtomicU64::new(0);
static SEED: AtomicU64 = AtomicU64::new(0);
static TIME_LIMIT: AtomicU32 = AtomicU32::new(0);

/// The status that a caught signal ends with.
const CAUGHT: c_int = 1;

pub fn begin(seed: u64, time_limit: u32) {
    SEED.store(seed, Relaxed);
    TIME_LIMIT.store(time_limit, Relaxed);
    for number in [BUS, SEGMENT, ALARM] {
        let action = Action { handler: caught, mask: [0; 16], flags: ON_STACK, restorer: 0 };
        // SAFETY: the handler only writes a line and ends the program.
        let refused = unsafe { sigaction(number, &action, null_mut()) };
        assert_eq!(refused, 0, "a handler for signal {number}");
    }
}

/// Counts a case and gives it its time.
pub fn next_case() {
    CASE.fetch_add(1, Relaxed);
    // SAFETY: the call sets a timer, whose signal is handled.
    unsafe { alarm(TIME_LIMIT.load(Relaxed)) };
}

pub fn case() -> u64 {
    CASE.load(Relaxed)
}

extern "C" fn caught(number: c_int) {
    let what: &[u8] = match number {
        ALARM => b"a call did not end",
        _ => b"a call touched memory that it was not lent",
    };
    print(b"fault in case ");
    print_number(CASE.load(Relaxed));
    print(b", seed ");
    print_number(SEED.load(Relaxed));
    print(b": ");
    print(what);
    print(b"\n");
    // SAFETY: ends the program without running anything more of it.
    unsafe { _exit(CAUGHT) }
}

/// A handler may not allocate, nor use locked streams.
fn print(text: &[u8]) {
    // SAFETY: the bytes are lent for the call. That it may fail leaves nothing to be done.
    let _ = unsafe { write(1, text.as_ptr(), text.len()) };
}

fn print_number(mut number: u64) {
    let mut digits = [0; 20];
    let mut first = digits.len();
    loop {
        first -= 1;
        digits[first] = b'0' + (number % 10) as u8;
        number /= 10;
        if number == 0 {
            return print(&digits[first..]);
        }
    }
}
