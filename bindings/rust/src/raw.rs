//! The calls of the static library as its header declares them.
//!
//! All but the first three and the last answer 0, or a refusal's number, to which 13 and 19 add the place
//! of the first relation that is not met, times 65,536. A refusal alters nothing of the caller's. Slices
//! go over as pointer and length; a length of 0 still wants a pointer that is not null. Lent memory
//! must not overlap.

extern "C" {
    /// The number of the interface, which is that of these declarations.
    pub fn mulkefi_interface() -> u32;

    /// The version of the library: the number of the interface times 65,536, that of the additions to it
    /// times 256, and that of the corrections since.
    pub fn mulkefi_library_version() -> u32;

    /// The image's version, times 256, and the message's.
    pub fn mulkefi_versions() -> u32;

    /// The number that an image is refused by, or 0.
    pub fn mulkefi_test(image: *const u8, len: usize) -> u32;

    /// The desk's call on the image in the first `len` of `room` bytes. Accepted, it writes the new
    /// image and the message, which bears the mark, to the buffers' fronts and gives count, image's
    /// length, removed curve, its start and its end. The message is put into the window of 2,432 bytes
    /// too, at the place of its number.
    pub fn mulkefi_desk_edit(
        buffer: *mut u8,
        room: usize,
        len: usize,
        count: u32,
        mark: u64,
        operation: u32,
        curve: u32,
        x: f64,
        y: f64,
        message: *mut u8,
        message_room: usize,
        window: *mut u8,
        answer: *mut u32,
    ) -> u32;

    /// Writes the messages after the wall's count, up to the desk's, to the front of `messages`, from the
    /// desk's window of 2,432 bytes. Refused by 27 where the wall's count is above the desk's, by 26
    /// where one of them is not in the window, by 25 where `room` is short of 38 bytes for each.
    pub fn mulkefi_catch_up(
        window: *const u8,
        count: u32,
        mark: u64,
        wall_count: u32,
        messages: *mut u8,
        room: usize,
    ) -> u32;

    /// The wall's call on the image in the first `len` of `room` bytes. Accepted, it writes the new
    /// image to the buffer's front and gives count, image's length, removed curve, its start and its
    /// end. An old message is accepted and leaves count and image. One with another mark is refused by
    /// 28.
    pub fn mulkefi_wall_deliver(
        buffer: *mut u8,
        room: usize,
        len: usize,
        count: u32,
        mark: u64,
        message: *const u8,
        message_len: usize,
        answer: *mut u32,
    ) -> u32;

    /// The search for roots. Accepted, it writes them to the front of `found` and gives how many
    /// there are and the budget left.
    pub fn mulkefi_roots(
        coefficients: *const f64,
        n: usize,
        found: *mut f64,
        room: usize,
        budget: usize,
        answer: *mut u64,
    ) -> u32;

    /// How many finite numbers a list begins with. Where that is all of them, it writes their largest
    /// magnitude.
    pub fn mulkefi_largest_magnitude(numbers: *const f64, n: usize, largest: *mut f64) -> usize;
}
