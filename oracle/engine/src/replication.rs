//! Desk and wall: the wall's program as a call, its whole input in, its whole output out; what a wall
//! that fell behind is sent, once and many times over; a desk's edit and a delivery many times over, for
//! timing.

mod interface {
    extern "C" {
        pub fn mulkefi_wall(input: *const u8, len: usize, out: *mut u8, out_len: usize) -> usize;
        pub fn mulkefi_desk_repeated(
            image: *const u8,
            len: usize,
            count: u32,
            operation: u32,
            curve: u32,
            x: f64,
            y: f64,
            times: u32,
        ) -> u32;
        pub fn mulkefi_deliver_repeated(
            image: *const u8,
            len: usize,
            count: u32,
            mark: u64,
            message: *const u8,
            message_len: usize,
            times: u32,
        ) -> u32;
        pub fn mulkefi_catch_up(
            window: *const u8,
            window_len: usize,
            count: u32,
            mark: u64,
            wall_count: u32,
            messages: *mut u8,
            room: usize,
        ) -> u32;
        pub fn mulkefi_catch_up_repeated(
            window: *const u8,
            window_len: usize,
            count: u32,
            mark: u64,
            wall_count: u32,
            times: u32,
        ) -> u32;
    }
}

/// What an accepted call adds to a sum: an applied edit this and the count after it, an old message
/// this alone.
pub const ACCEPTED: u32 = 256;

/// Answers how many bytes it wrote to the front of `out`.
#[inline]
pub fn wall(input: &[u8], out: &mut [u8]) -> usize {
    // SAFETY: both slices are lent for the call, and the engine stays within their lengths.
    unsafe { interface::mulkefi_wall(input.as_ptr(), input.len(), out.as_mut_ptr(), out.len()) }
}

/// Reads the image once, then edits at a desk with its sketch and the count so many times. Each adds
/// to the sum that is answered: a refusal's number and the place of the first relation not met times
/// 65,536, or `ACCEPTED` and the count after it.
#[inline]
pub fn desk_repeated(
    image: &[u8],
    count: u32,
    operation: u32,
    curve: u32,
    [x, y]: [f64; 2],
    times: u32,
) -> u32 {
    let (bytes, len) = (image.as_ptr(), image.len());
    // SAFETY: the slice is lent for the call, and the engine stays within its length.
    unsafe { interface::mulkefi_desk_repeated(bytes, len, count, operation, curve, x, y, times) }
}

/// Reads the image once, then delivers a message to a wall with its sketch, the count and the mark so
/// many times. Each adds a refusal's number and the place of the first relation not met times 65,536,
/// `ACCEPTED` where it is old, or `ACCEPTED` and the count after it.
#[inline]
pub fn deliver_repeated(image: &[u8], count: u32, mark: u64, message: &[u8], times: u32) -> u32 {
    let (bytes, len) = (image.as_ptr(), image.len());
    let (message, size) = (message.as_ptr(), message.len());
    // SAFETY: both slices are lent for the call, and the engine stays within their lengths.
    unsafe { interface::mulkefi_deliver_repeated(bytes, len, count, mark, message, size, times) }
}

/// Writes every message of a desk's window after a wall's count, up to the desk's, to the front of
/// `out`. Answers 0 or a refusal's number.
#[inline]
pub fn catch_up(window: &[u8], count: u32, mark: u64, wall_count: u32, out: &mut [u8]) -> u32 {
    let (bytes, len) = (window.as_ptr(), window.len());
    let (to, room) = (out.as_mut_ptr(), out.len());
    // SAFETY: both slices are lent for the call, and the engine stays within their lengths.
    unsafe { interface::mulkefi_catch_up(bytes, len, count, mark, wall_count, to, room) }
}

/// So many catch-ups into a buffer of the engine's own that has room for all messages of a window. Each
/// adds what it answers to the sum.
#[inline]
pub fn catch_up_repeated(window: &[u8], count: u32, mark: u64, wall_count: u32, times: u32) -> u32 {
    let (bytes, len) = (window.as_ptr(), window.len());
    // SAFETY: the slice is lent for the call, and the engine stays within its length.
    unsafe { interface::mulkefi_catch_up_repeated(bytes, len, count, mark, wall_count, times) }
}
