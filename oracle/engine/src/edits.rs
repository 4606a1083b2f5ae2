//! Edits of an image: one call a piece, and one call many times over for timing. Each from image to
//! image, and by the typed call, over a sketch by value.

mod interface {
    extern "C" {
        pub fn mulkefi_edit(
            operation: u32,
            image: *const u8,
            len: usize,
            curve: u32,
            x: f64,
            y: f64,
            out: *mut u8,
            out_len: usize,
        ) -> u32;
        pub fn mulkefi_edit_repeated(
            operation: u32,
            image: *const u8,
            len: usize,
            curve: u32,
            x: f64,
            y: f64,
            times: u32,
        ) -> u32;
        pub fn mulkefi_edit_typed(
            operation: u32,
            image: *const u8,
            len: usize,
            curve: u32,
            x: f64,
            y: f64,
            out: *mut u8,
            out_len: usize,
        ) -> u32;
        pub fn mulkefi_edit_typed_repeated(
            operation: u32,
            image: *const u8,
            len: usize,
            curve: u32,
            x: f64,
            y: f64,
            times: u32,
        ) -> u32;
    }
}

/// Answers the refusal's number, with the place of the first relation not met times 65,536 added. An
/// accepted edit writes the removed curve and its ends, then the image, to the front of `out`.
#[inline]
pub fn edit(operation: u32, image: &[u8], curve: u32, x: f64, y: f64, out: &mut [u8]) -> u32 {
    let (bytes, len) = (image.as_ptr(), image.len());
    // SAFETY: both slices are lent for the call, and the engine stays within their lengths.
    unsafe {
        interface::mulkefi_edit(operation, bytes, len, curve, x, y, out.as_mut_ptr(), out.len())
    }
}

/// Tests the image once, then does the edit so many times, each of the same bytes into the same
/// buffer. Each adds to the sum that is answered: a refusal's number and the place of the first
/// relation not met times 65,536, or the next id and the id of the removed curve.
#[inline]
pub fn repeated(operation: u32, image: &[u8], curve: u32, x: f64, y: f64, times: u32) -> u32 {
    let (bytes, len) = (image.as_ptr(), image.len());
    // SAFETY: the slice is lent for the call, and the engine stays within its length.
    unsafe { interface::mulkefi_edit_repeated(operation, bytes, len, curve, x, y, times) }
}

/// As `edit`, by the typed call: the image is read to a sketch, and the edited one is written.
#[inline]
pub fn typed_edit(operation: u32, image: &[u8], curve: u32, x: f64, y: f64, out: &mut [u8]) -> u32 {
    let (bytes, len) = (image.as_ptr(), image.len());
    let (to, room) = (out.as_mut_ptr(), out.len());
    // SAFETY: both slices are lent for the call, and the engine stays within their lengths.
    unsafe { interface::mulkefi_edit_typed(operation, bytes, len, curve, x, y, to, room) }
}

/// As `repeated`, by the typed call: the image is read once, and each edit is of its sketch.
#[inline]
pub fn typed_repeated(operation: u32, image: &[u8], curve: u32, x: f64, y: f64, times: u32) -> u32 {
    let (bytes, len) = (image.as_ptr(), image.len());
    // SAFETY: the slice is lent for the call, and the engine stays within its length.
    unsafe { interface::mulkefi_edit_typed_repeated(operation, bytes, len, curve, x, y, times) }
}
