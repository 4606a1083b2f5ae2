//! The window as a host reads of it: message n stands in slot n % 64, and is held where the slot is a message
//! of the desk's mark with that number.

use oracle::message::{self, Mark};
use std::ops::Range;

/// How many messages a window has room for, and its size in bytes.
pub const MESSAGES: usize = 64;
pub const SIZE: usize = MESSAGES * message::SIZE;

pub type Window = [u8; SIZE];

pub const SHORT_BUFFER: u32 = 25;
pub const LEFT_WINDOW: u32 = 26;
pub const COUNT_ABOVE: u32 = 27;

/// The bytes at which the message with a number stands.
pub fn slot(number: u32) -> Range<usize> {
    let at = message::SIZE * (number as usize % MESSAGES);
    at..at + message::SIZE
}

/// Puts the message of an accepted edit into its slot.
pub fn slide(window: &mut Window, number: u32, message: &[u8]) {
    window[slot(number)].copy_from_slice(message);
}

pub fn is_held(window: &Window, mark: Mark, number: u32) -> bool {
    message::read(&window[slot(number)], mark).is_ok_and(|message| message.number == number)
}

/// How many bytes the messages take that are due to a wall which is not above its desk.
pub fn written(count: u32, wall_count: u32) -> usize {
    message::SIZE * (count - wall_count) as usize
}

/// What a catch-up answers, and what its buffer then holds.
pub fn catch_up(
    window: &Window,
    count: u32,
    mark: Mark,
    wall_count: u32,
    before: &[u8],
) -> (u32, Vec<u8>) {
    let refused = |number| (number, before.to_vec());
    if wall_count > count {
        return refused(COUNT_ABOVE);
    }
    let due = (count - wall_count) as usize;
    let numbers = (wall_count..count).map(|number| number + 1);
    if due > MESSAGES || !numbers.clone().all(|number| is_held(window, mark, number)) {
        return refused(LEFT_WINDOW);
    }
    let Some(beyond) = before.get(written(count, wall_count)..) else {
        return refused(SHORT_BUFFER);
    };
    let messages = numbers.flat_map(|number| &window[slot(number)]);
    (0, messages.chain(beyond).copied().collect())
}

#[cfg(test)]
mod tests {
    use super::*;
    use oracle::message::{Edit, Message, Operation};

    const MARK: Mark = 7;

    fn message(number: u32) -> [u8; message::SIZE] {
        let edit = Edit { operation: Operation::Split, curve: number, x: 1.0, y: 2.0 };
        message::to_bytes(&Message { number, edit }, MARK)
    }

    /// A desk's window after so many edits.
    fn window(count: u32) -> Window {
        let mut window = [0; SIZE];
        (1..=count).for_each(|number| slide(&mut window, number, &message(number)));
        window
    }

    /// The numbers that are written to a buffer of zeros, or the refusal's.
    fn numbers(count: u32, wall_count: u32, room: usize) -> Result<Vec<u32>, u32> {
        match catch_up(&window(count), count, MARK, wall_count, &vec![0; room]) {
            (0, buffer) => {
                assert_eq!(buffer.len(), room);
                let messages = buffer.chunks(message::SIZE);
                let read = messages.map_while(|bytes| message::read(bytes, MARK).ok());
                Ok(read.map(|message| message.number).collect())
            }
            (refusal, buffer) => {
                assert_eq!(buffer, vec![0; room]);
                Err(refusal)
            }
        }
    }

    #[test]
    fn what_is_due_is_written_in_order() {
        assert_eq!(numbers(100, 97, 3 * message::SIZE + 5), Ok(vec![98, 99, 100]));
        assert_eq!(numbers(100, 100, 0), Ok(vec![]));
        assert_eq!(numbers(2, 0, 2 * message::SIZE), Ok(vec![1, 2]));
        assert_eq!(numbers(64, 0, SIZE), Ok((1..=64).collect()));
        assert_eq!(numbers(100, 36, SIZE), Ok((37..=100).collect()));
    }

    #[test]
    fn refusals_come_in_their_order() {
        assert_eq!(numbers(100, 101, 0), Err(COUNT_ABOVE));
        assert_eq!(numbers(100, 35, 0), Err(LEFT_WINDOW));
        assert_eq!(numbers(100, 35, 65 * message::SIZE), Err(LEFT_WINDOW));
        assert_eq!(numbers(100, 36, SIZE - 1), Err(SHORT_BUFFER));
        assert_eq!(numbers(100, 99, message::SIZE - 1), Err(SHORT_BUFFER));
    }

    #[test]
    fn a_slot_is_held_by_its_mark_and_number() {
        let window = window(100);
        for number in 0..200 {
            assert_eq!(is_held(&window, MARK, number), (37..=100).contains(&number));
            assert!(!is_held(&window, MARK + 1, number));
            assert!(!is_held(&[0; SIZE], 0, number));
        }
    }
}
