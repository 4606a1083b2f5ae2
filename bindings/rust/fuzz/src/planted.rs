//! Wrong callees, each the engine's call with one fault.

use crate::calls::{Calls, ENGINE};
use crate::planted_catch_ups;
use mulkefi::message::{MARK_AT, NUMBER_AT, OPERATION_AT};
use mulkefi::{raw, Mark, MESSAGE_SIZE, WINDOW_SIZE};
use window_cases::plain::{slot, Window};

/// Names, and what each does.
pub fn all() -> impl Iterator<Item = (&'static str, &'static str)> {
    let catch_ups = planted_catch_ups::ALL.into_iter().map(|(name, what, _)| (name, what));
    OTHERS.into_iter().chain(catch_ups)
}

const OTHERS: [(&str, &str); 23] = [
    ("writes-behind", "an accepted edit writes the byte behind its buffer"),
    ("writes-before", "an accepted edit writes the byte before its buffer"),
    ("writes-rest", "an accepted edit writes the byte behind the new image"),
    ("refused-message", "a refused edit writes to the message"),
    ("unmet-place", "an edit's 13 has the place behind the last relation"),
    ("broken-place", "an edit's 19 has the place behind the pin"),
    ("other-place", "a refused edit's 18 has a place"),
    ("swapped-mark", "an accepted edit writes the mark with its lowest byte first"),
    ("slid-63", "an accepted edit puts message n into slot n % 63"),
    ("slid-twice", "an accepted edit empties the slot behind that of its message"),
    ("slid-refused", "a refused edit puts something into the window"),
    ("writes-window-behind", "an accepted edit writes the byte behind the window"),
    ("refused-answer", "a refused delivery writes to the answer"),
    ("reads-behind", "a delivery reads the byte behind the message"),
    ("operation-first", "a foreign message with number 0 or an unknown operation is refused by 6"),
    ("foreign-old", "a foreign message with the number of an old one is answered as old"),
    ("half-mark", "a delivery compares the low 32 bits of marks alone"),
    ("writes-input", "the test writes to its image"),
    ("writes-roots", "a search writes one root more than it found"),
    ("reads-number-behind", "a pass over a list reads the number behind it"),
    ("writes-largest", "a pass that meets a NaN writes to the largest"),
    ("endless", "the test does not end for an empty slice"),
    ("deep", "the test needs more stack than the header says"),
];

pub fn by_name(name: &str) -> Option<Calls> {
    let mut catch_ups = planted_catch_ups::ALL.into_iter();
    if let Some((.., catch_up)) = catch_ups.find(|(planted, ..)| *planted == name) {
        return Some(Calls { catch_up, ..ENGINE });
    }
    Some(match name {
        "writes-behind" => Calls { desk_edit: edit_with::<WRITES_BEHIND>, ..ENGINE },
        "writes-before" => Calls { desk_edit: edit_with::<WRITES_BEFORE>, ..ENGINE },
        "writes-rest" => Calls { desk_edit: edit_with::<WRITES_REST>, ..ENGINE },
        "refused-message" => Calls { desk_edit: edit_with::<REFUSED_MESSAGE>, ..ENGINE },
        "unmet-place" => Calls { desk_edit: edit_with::<UNMET_PLACE>, ..ENGINE },
        "broken-place" => Calls { desk_edit: edit_with::<BROKEN_PLACE>, ..ENGINE },
        "other-place" => Calls { desk_edit: edit_with::<OTHER_PLACE>, ..ENGINE },
        "swapped-mark" => Calls { desk_edit: edit_with::<SWAPPED_MARK>, ..ENGINE },
        "slid-63" => Calls { desk_edit: edit_with::<SLID_63>, ..ENGINE },
        "slid-twice" => Calls { desk_edit: edit_with::<SLID_TWICE>, ..ENGINE },
        "slid-refused" => Calls { desk_edit: edit_with::<SLID_REFUSED>, ..ENGINE },
        "writes-window-behind" => Calls { desk_edit: edit_with::<WINDOW_BEHIND>, ..ENGINE },
        "refused-answer" => Calls { wall_deliver: deliver_with::<REFUSED_ANSWER>, ..ENGINE },
        "reads-behind" => Calls { wall_deliver: deliver_with::<READS_BEHIND>, ..ENGINE },
        "operation-first" => Calls { wall_deliver: deliver_with::<OPERATION_FIRST>, ..ENGINE },
        "foreign-old" => Calls { wall_deliver: deliver_with::<FOREIGN_OLD>, ..ENGINE },
        "half-mark" => Calls { wall_deliver: deliver_with::<HALF_MARK>, ..ENGINE },
        "writes-input" => Calls { test: writes_input, ..ENGINE },
        "writes-roots" => Calls { roots: writes_roots, ..ENGINE },
        "reads-number-behind" => Calls { largest_magnitude: reads_number_behind, ..ENGINE },
        "writes-largest" => Calls { largest_magnitude: writes_largest, ..ENGINE },
        "endless" => Calls { test: endless, ..ENGINE },
        "deep" => Calls { test: deep, ..ENGINE },
        _ => return None,
    })
}

const WRITES_BEHIND: u8 = 0;
const WRITES_BEFORE: u8 = 1;
const WRITES_REST: u8 = 2;
const REFUSED_MESSAGE: u8 = 3;
const UNMET_PLACE: u8 = 4;
const BROKEN_PLACE: u8 = 5;
const OTHER_PLACE: u8 = 6;
const SWAPPED_MARK: u8 = 7;
const SLID_63: u8 = 8;
const SLID_TWICE: u8 = 9;
const SLID_REFUSED: u8 = 10;
const WINDOW_BEHIND: u8 = 11;

unsafe extern "C" fn edit_with<const FAULT: u8>(
    buffer: *mut u8,
    room: usize,
    len: usize,
    count: u32,
    mark: u64,
    operation: u32,
    curve: u32,
    x: f64,
    y: f64,
    message: *mut u8,
    message_room: usize,
    window: *mut u8,
    answer: *mut u32,
) -> u32 {
    let kept: Window = window.cast::<Window>().read();
    let result = raw::mulkefi_desk_edit(
        buffer,
        room,
        len,
        count,
        mark,
        operation,
        curve,
        x,
        y,
        message,
        message_room,
        window,
        answer,
    );
    let number = result & 0xffff;
    match (FAULT, result) {
        (WRITES_BEHIND, 0) => buffer.add(room).write_volatile(0),
        (WRITES_BEFORE, 0) => buffer.sub(1).write_volatile(0),
        (WRITES_REST, 0) if (*answer.add(1) as usize) < room => {
            let rest = buffer.add(*answer.add(1) as usize);
            rest.write_volatile(!rest.read());
        }
        (REFUSED_MESSAGE, 1..) if message_room > 0 => message.write_volatile(0),
        (UNMET_PLACE, _) if number == 13 => return at_place(number, relations(buffer)),
        (BROKEN_PLACE, _) if number == 19 => return at_place(number, relations(buffer) + 1),
        (OTHER_PLACE, 18) => return at_place(number, 1),
        (SWAPPED_MARK, 0) => {
            message.add(MARK_AT).cast::<u64>().write_unaligned(mark.to_le());
            window.add(slot(*answer).start).copy_from(message, MESSAGE_SIZE);
        }
        (SLID_63, 0) => {
            window.copy_from(kept.as_ptr(), WINDOW_SIZE);
            window.add(MESSAGE_SIZE * (*answer % 63) as usize).copy_from(message, MESSAGE_SIZE);
        }
        (SLID_TWICE, 0) => {
            window.add(slot((*answer).wrapping_add(1)).start).write_bytes(0, MESSAGE_SIZE);
        }
        (SLID_REFUSED, 1..) => {
            let next = window.add(slot(count.wrapping_add(1)).start);
            next.write_volatile(!next.read());
        }
        (WINDOW_BEHIND, 0) => window.add(WINDOW_SIZE).write_volatile(0),
        _ => {}
    }
    result
}

fn at_place(number: u32, place: u32) -> u32 {
    number | place << 16
}

/// The number of relations in an image's header.
unsafe fn relations(image: *const u8) -> u32 {
    u16::from_be_bytes([*image.add(13), *image.add(14)]).into()
}

const REFUSED_ANSWER: u8 = 0;
const READS_BEHIND: u8 = 1;
const OPERATION_FIRST: u8 = 2;
const FOREIGN_OLD: u8 = 3;
const HALF_MARK: u8 = 4;

unsafe extern "C" fn deliver_with<const FAULT: u8>(
    buffer: *mut u8,
    room: usize,
    len: usize,
    count: u32,
    mark: u64,
    message: *const u8,
    message_len: usize,
    answer: *mut u32,
) -> u32 {
    let bytes = std::slice::from_raw_parts(message, message_len);
    let bears = Mark::of_message(bytes).map_or(mark, u64::from);
    let deliver = |mark| {
        raw::mulkefi_wall_deliver(buffer, room, len, count, mark, message, message_len, answer)
    };
    match FAULT {
        READS_BEHIND => _ = message.add(message_len).read_volatile(),
        HALF_MARK if bears as u32 == mark as u32 => return deliver(bears),
        _ => {}
    }
    let result = deliver(mark);
    match (FAULT, result) {
        (REFUSED_ANSWER, 1..) => answer.write_volatile(count),
        (OPERATION_FIRST, 28) if !is_operation(bytes) => return 6,
        (FOREIGN_OLD, 28) if is_old(bytes, count) => return deliver(bears),
        _ => {}
    }
    result
}

/// Whether a message has a number and an operation that are some.
fn is_operation(message: &[u8]) -> bool {
    number(message) != 0 && (1..=3).contains(&message[OPERATION_AT])
}

fn is_old(message: &[u8], count: u32) -> bool {
    is_operation(message) && number(message) <= count
}

fn number(message: &[u8]) -> u32 {
    message[NUMBER_AT..].first_chunk().map_or(0, |number| u32::from_be_bytes(*number))
}

unsafe extern "C" fn writes_input(image: *const u8, len: usize) -> u32 {
    let result = raw::mulkefi_test(image, len);
    if len > 0 {
        // The byte that is there already: only the page's protection can tell.
        image.cast_mut().write_volatile(image.read());
    }
    result
}

unsafe extern "C" fn writes_roots(
    coefficients: *const f64,
    n: usize,
    found: *mut f64,
    room: usize,
    budget: usize,
    answer: *mut u64,
) -> u32 {
    let result = raw::mulkefi_roots(coefficients, n, found, room, budget, answer);
    if result == 0 && (*answer as usize) < room {
        found.add(*answer as usize).write_volatile(0.5);
    }
    result
}

unsafe extern "C" fn reads_number_behind(
    numbers: *const f64,
    n: usize,
    largest: *mut f64,
) -> usize {
    numbers.add(n).read_volatile();
    raw::mulkefi_largest_magnitude(numbers, n, largest)
}

unsafe extern "C" fn writes_largest(numbers: *const f64, n: usize, largest: *mut f64) -> usize {
    let place = raw::mulkefi_largest_magnitude(numbers, n, largest);
    if place < n {
        largest.write_volatile(0.0);
    }
    place
}

unsafe extern "C" fn endless(image: *const u8, len: usize) -> u32 {
    if len == 0 {
        loop {
            std::hint::spin_loop();
        }
    }
    raw::mulkefi_test(image, len)
}

unsafe extern "C" fn deep(image: *const u8, len: usize) -> u32 {
    let mut memory = [0u8; crate::STACK];
    std::hint::black_box(&mut memory);
    raw::mulkefi_test(image, len)
}
