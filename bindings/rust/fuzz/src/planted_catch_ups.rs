//! Wrong catch-ups, each the engine's call with one fault.

use crate::calls::CatchUp;
use mulkefi::message::{MARK_AT, NUMBER_AT, OPERATION_AT};
use mulkefi::{raw, Mark, MESSAGE_SIZE, WINDOW_MESSAGES, WINDOW_SIZE};
use window_cases::plain::{self, slot, Window};

/// Names, what each does, and the callee.
pub const ALL: [(&str, &str, CatchUp); 20] = [
    ("slots-63", "a catch-up looks for message n in slot n % 63", with::<SLOTS_63>),
    ("left-at-64", "64 messages due are refused by 26", with::<LEFT_AT_64>),
    ("left-at-66", "65 messages due are written, not refused by 26", with::<LEFT_AT_66>),
    ("from-count", "a catch-up begins with the message of the wall's count", with::<FROM_COUNT>),
    ("from-second", "a catch-up begins with the second message due", with::<FROM_SECOND>),
    ("falling", "what is due is written in falling order", with::<FALLING>),
    ("room-before-left", "25 comes before 26", with::<ROOM_BEFORE_LEFT>),
    ("room-before-above", "25 comes before 27", with::<ROOM_BEFORE_ABOVE>),
    ("room-of-all", "25 asks for the room of 64 messages", with::<ROOM_OF_ALL>),
    ("as-many-as-fit", "a short room gets as many messages as fit, not 25", with::<AS_MANY_AS_FIT>),
    ("above-accepted", "a count above the desk's is answered by 0", with::<ABOVE_ACCEPTED>),
    ("any-mark", "messages of another mark are written", with::<ANY_MARK>),
    ("any-number", "messages with other numbers are written", with::<ANY_NUMBER>),
    ("any-operation", "messages with unknown operations are written", with::<ANY_OPERATION>),
    ("any-version", "what has another length or version is written", with::<ANY_VERSION>),
    ("writes-beyond", "a catch-up writes the byte behind what is due", with::<WRITES_BEYOND>),
    ("writes-room-behind", "a catch-up writes the byte behind its buffer", with::<WRITES_BEHIND>),
    (
        "writes-refused",
        "a catch-up that is refused by 26 writes to its buffer",
        with::<WRITES_REFUSED>,
    ),
    ("writes-window", "a catch-up writes to the window", with::<WRITES_WINDOW>),
    ("reads-window-behind", "a catch-up reads the byte behind the window", with::<READS_BEHIND>),
];

const SLOTS_63: u8 = 0;
const LEFT_AT_64: u8 = 1;
const LEFT_AT_66: u8 = 2;
const FROM_COUNT: u8 = 3;
const FROM_SECOND: u8 = 4;
const FALLING: u8 = 5;
const ROOM_BEFORE_LEFT: u8 = 6;
const ROOM_BEFORE_ABOVE: u8 = 7;
const ROOM_OF_ALL: u8 = 8;
const AS_MANY_AS_FIT: u8 = 9;
const ABOVE_ACCEPTED: u8 = 10;
const ANY_MARK: u8 = 11;
const ANY_NUMBER: u8 = 12;
const ANY_OPERATION: u8 = 13;
const ANY_VERSION: u8 = 14;
const WRITES_BEYOND: u8 = 15;
const WRITES_BEHIND: u8 = 16;
const WRITES_REFUSED: u8 = 17;
const WRITES_WINDOW: u8 = 18;
const READS_BEHIND: u8 = 19;

unsafe extern "C" fn with<const FAULT: u8>(
    window: *const u8,
    count: u32,
    mark: u64,
    wall_count: u32,
    messages: *mut u8,
    room: usize,
) -> u32 {
    let engine = |window: &Window, count, mark, wall_count| {
        raw::mulkefi_catch_up(window.as_ptr(), count, mark, wall_count, messages, room)
    };
    let kept: Window = window.cast::<Window>().read();
    let due = count.saturating_sub(wall_count) as usize;
    let is_short = room < due.saturating_mul(MESSAGE_SIZE);
    // Before the engine is asked, or with other arguments.
    match FAULT {
        SLOTS_63 => return engine(&from_slots_of_63(&kept, count), count, mark, wall_count),
        LEFT_AT_64 if due == WINDOW_MESSAGES => return plain::LEFT_WINDOW,
        LEFT_AT_66 if due == WINDOW_MESSAGES + 1 && !is_short => {
            let (rest, rest_room) = (messages.add(MESSAGE_SIZE), room - MESSAGE_SIZE);
            let second = wall_count + 1;
            if raw::mulkefi_catch_up(window, count, mark, second, rest, rest_room) == 0 {
                messages.copy_from(kept[slot(second)].as_ptr(), MESSAGE_SIZE);
                return 0;
            }
        }
        FROM_COUNT if due > 0 && wall_count > 0 => {
            return engine(&kept, count, mark, wall_count - 1);
        }
        FROM_SECOND if due > 0 => return engine(&kept, count, mark, wall_count + 1),
        ROOM_BEFORE_LEFT if is_short => return plain::SHORT_BUFFER,
        ROOM_BEFORE_ABOVE if wall_count > count && room < MESSAGE_SIZE => {
            return plain::SHORT_BUFFER;
        }
        ANY_MARK if due > 0 => {
            let first = Mark::of_message(&kept[slot(wall_count + 1)]);
            return engine(&kept, count, first.map_or(mark, u64::from), wall_count);
        }
        ANY_NUMBER | ANY_OPERATION | ANY_VERSION if (1..=WINDOW_MESSAGES).contains(&due) => {
            let mut mended = kept;
            for number in wall_count + 1..=count {
                mend::<FAULT>(&mut mended[slot(number)], number);
            }
            let result = engine(&mended, count, mark, wall_count);
            if result == 0 {
                let written = (wall_count + 1..=count).zip(0..);
                written.for_each(|(number, place)| put(messages, place, &kept[slot(number)]));
            }
            return result;
        }
        WRITES_WINDOW => window.cast_mut().write_volatile(window.read()),
        READS_BEHIND => _ = window.add(WINDOW_SIZE).read_volatile(),
        _ => {}
    }
    let result = engine(&kept, count, mark, wall_count);
    match (FAULT, result) {
        (FALLING, 0) => {
            let written = std::slice::from_raw_parts_mut(messages, MESSAGE_SIZE * due);
            written.as_chunks_mut::<MESSAGE_SIZE>().0.reverse();
        }
        (ROOM_OF_ALL, 0) if due > 0 && room < WINDOW_SIZE => return plain::SHORT_BUFFER,
        (AS_MANY_AS_FIT, plain::SHORT_BUFFER) => {
            return engine(&kept, wall_count + (room / MESSAGE_SIZE) as u32, mark, wall_count);
        }
        (ABOVE_ACCEPTED, plain::COUNT_ABOVE) => return 0,
        (WRITES_BEYOND, 0) if room > MESSAGE_SIZE * due => {
            let beyond = messages.add(MESSAGE_SIZE * due);
            beyond.write_volatile(!beyond.read());
        }
        (WRITES_BEHIND, 0) => messages.add(room).write_volatile(0),
        (WRITES_REFUSED, plain::LEFT_WINDOW) if room > 0 => {
            messages.write_volatile(!messages.read())
        }
        _ => {}
    }
    result
}

/// The window that a desk with slots of 63 messages would be read from as this one.
fn from_slots_of_63(window: &Window, count: u32) -> Window {
    let mut other = *window;
    for number in count.saturating_sub(WINDOW_MESSAGES as u32 - 1)..=count {
        let at = MESSAGE_SIZE * (number as usize % 63);
        other[slot(number)].copy_from_slice(&window[at..at + MESSAGE_SIZE]);
    }
    other
}

/// Makes a message good in what the fault does not look at.
fn mend<const FAULT: u8>(message: &mut [u8], number: u32) {
    match FAULT {
        ANY_NUMBER => message[NUMBER_AT..OPERATION_AT].copy_from_slice(&number.to_be_bytes()),
        ANY_OPERATION => message[OPERATION_AT] = 1,
        _ => message[..MARK_AT].copy_from_slice(&[0, 0, 0, 34, 2]),
    }
}

unsafe fn put(messages: *mut u8, place: usize, message: &[u8]) {
    messages.add(MESSAGE_SIZE * place).copy_from(message.as_ptr(), MESSAGE_SIZE);
}
