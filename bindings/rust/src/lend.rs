//! Slices as the engine takes them: a pointer and a length.

/// Bytes as pointer and length; a real address stands in for that of an empty slice, which may be
/// any.
pub fn bytes(slice: &[u8]) -> (*const u8, usize) {
    static NOTHING: u8 = 0;
    match slice.is_empty() {
        true => (&raw const NOTHING, 0),
        false => (slice.as_ptr(), slice.len()),
    }
}

/// Floats as pointer and length; a real address stands in for that of an empty slice, which may be
/// any.
pub fn floats(slice: &[f64]) -> (*const f64, usize) {
    static NOTHING: f64 = 0.0;
    match slice.is_empty() {
        true => (&raw const NOTHING, 0),
        false => (slice.as_ptr(), slice.len()),
    }
}
