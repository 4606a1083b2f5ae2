//! Counts the large copies and fills in one edit, by side: calls of memcpy, memmove and memset of at
//! least a kilobyte, which the linker leads here first. Not timed.

use bench::bridge::{samples, Sample, SIZES, WORKS};
use std::hint::black_box;
use std::sync::atomic::{AtomicUsize, Ordering::Relaxed};

const LARGE: usize = 1024;

static CALLS: AtomicUsize = AtomicUsize::new(0);
static BYTES: AtomicUsize = AtomicUsize::new(0);

fn count(size: usize) {
    if size >= LARGE {
        CALLS.fetch_add(1, Relaxed);
        BYTES.fetch_add(size, Relaxed);
    }
}

extern "C" {
    fn __real_memcpy(to: *mut u8, from: *const u8, size: usize) -> *mut u8;
    fn __real_memmove(to: *mut u8, from: *const u8, size: usize) -> *mut u8;
    fn __real_memset(to: *mut u8, value: i32, size: usize) -> *mut u8;
}

/// # Safety
/// As for `memcpy`.
#[no_mangle]
pub unsafe extern "C" fn __wrap_memcpy(to: *mut u8, from: *const u8, size: usize) -> *mut u8 {
    count(size);
    __real_memcpy(to, from, size)
}

/// # Safety
/// As for `memmove`.
#[no_mangle]
pub unsafe extern "C" fn __wrap_memmove(to: *mut u8, from: *const u8, size: usize) -> *mut u8 {
    count(size);
    __real_memmove(to, from, size)
}

/// # Safety
/// As for `memset`.
#[no_mangle]
pub unsafe extern "C" fn __wrap_memset(to: *mut u8, value: i32, size: usize) -> *mut u8 {
    count(size);
    __real_memset(to, value, size)
}

/// Large copies and their bytes, on average over the samples.
fn counted(samples: &[Sample], edit: impl Fn(&Sample)) -> [f64; 2] {
    let (calls, bytes) = (CALLS.load(Relaxed), BYTES.load(Relaxed));
    samples.iter().for_each(edit);
    let [calls, bytes] = [CALLS.load(Relaxed) - calls, BYTES.load(Relaxed) - bytes];
    [calls, bytes].map(|total| total as f64 / samples.len() as f64)
}

fn main() {
    oracle::upstream::present_or_skip("copies");
    println!("{:<32} {:>18} {:>18}", "copies an edit, and bytes", "engine", "Rust");
    for work in WORKS {
        for curves in SIZES {
            let samples = samples(curves, work);
            let [calls, bytes] = engine(&samples);
            let [rust_calls, rust_bytes] = counted(&samples, |sample| {
                black_box(sample.tested());
            });
            let name = format!("  {}, {curves} curves", work.name);
            println!("{name:<32} {calls:>9.1} {bytes:>8.0} {rust_calls:>9.1} {rust_bytes:>8.0}");
        }
    }
}

/// Many edits less one, so that the reading of the image is not counted.
fn engine(samples: &[Sample]) -> [f64; 2] {
    const MORE: u32 = 100;
    let repeated = |times: u32| {
        counted(samples, |sample| {
            let oracle::call::Call { operation, image, curve, x, y } = &sample.call;
            let sum = engine::edits::repeated(*operation, image, *curve, *x, *y, times);
            assert_eq!(sum, sample.checksum.wrapping_mul(times), "the engine does the same edit");
        })
    };
    let (one, many) = (repeated(1), repeated(1 + MORE));
    std::array::from_fn(|at| (many[at] - one[at]) / f64::from(MORE))
}
