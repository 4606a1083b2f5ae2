//! The engine's C interface as safe calls. Of images and messages each slice goes over as pointer
//! and length, and each answer is a refusal's number or 0.
//!
//! The calls are `#[inline]` so that a program asks the library only for the functions that it
//! uses.

pub mod edits;
pub mod numbers;
pub mod polynomials;
pub mod replication;
pub mod shapes;

mod interface {
    extern "C" {
        pub fn mulkefi_image_copy(
            image: *const u8,
            len: usize,
            out: *mut u8,
            out_len: usize,
        ) -> u32;
        pub fn mulkefi_image_test(image: *const u8, len: usize) -> u32;
        pub fn mulkefi_message_copy(
            message: *const u8,
            len: usize,
            mark: u64,
            out: *mut u8,
            out_len: usize,
        ) -> u32;
        pub fn mulkefi_relations_test(
            image: *const u8,
            len: usize,
            next: u32,
            points: u32,
            curves: u32,
            relations: u32,
        ) -> u32;
        pub fn mulkefi_sketch_test(
            image: *const u8,
            len: usize,
            next: u32,
            points: u32,
            curves: u32,
            relations: u32,
        ) -> u32;
        pub fn mulkefi_versions() -> u32;
    }
}

/// Reads an image and writes it back to the front of `out`.
#[inline]
pub fn image_copy(image: &[u8], out: &mut [u8]) -> u32 {
    // SAFETY: both slices are lent for the call, and the engine stays within their lengths.
    unsafe {
        interface::mulkefi_image_copy(image.as_ptr(), image.len(), out.as_mut_ptr(), out.len())
    }
}

/// Reads an image and answers whether it is good.
#[inline]
pub fn image_test(image: &[u8]) -> u32 {
    // SAFETY: the slice is lent for the call, and the engine stays within its length.
    unsafe { interface::mulkefi_image_test(image.as_ptr(), image.len()) }
}

/// Reads a message as a wall with the mark does, and writes it back to the front of `out` as the desk
/// with that mark does.
#[inline]
pub fn message_copy(message: &[u8], mark: u64, out: &mut [u8]) -> u32 {
    let (bytes, len) = (message.as_ptr(), message.len());
    // SAFETY: both slices are lent for the call, and the engine stays within their lengths.
    unsafe { interface::mulkefi_message_copy(bytes, len, mark, out.as_mut_ptr(), out.len()) }
}

/// As `sketch_test`, and looks for the first relation that is not met: 0 where all are, its place
/// plus 256 where one is not.
#[inline]
pub fn relations_test(image: &[u8], next: u32, counts: [u32; 3]) -> u32 {
    let [points, curves, relations] = counts;
    let (bytes, len) = (image.as_ptr(), image.len());
    // SAFETY: the slice is lent for the call, and the engine stays within its length.
    unsafe { interface::mulkefi_relations_test(bytes, len, next, points, curves, relations) }
}

/// Reads an image, puts another next id and other counts into the sketch, and tests that.
#[inline]
pub fn sketch_test(image: &[u8], next: u32, counts: [u32; 3]) -> u32 {
    let [points, curves, relations] = counts;
    // SAFETY: the slice is lent for the call, and the engine stays within its length.
    unsafe {
        interface::mulkefi_sketch_test(image.as_ptr(), image.len(), next, points, curves, relations)
    }
}

/// The image version times 256 plus the message version.
#[inline]
pub fn versions() -> u32 {
    // SAFETY: the call takes nothing and only answers a number.
    unsafe { interface::mulkefi_versions() }
}
