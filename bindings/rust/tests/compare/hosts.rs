//! Desk and wall as hosts hold them: by the C calls on memory of the host's, and by the crate.

use super::implementations::edit_of;
use mulkefi::{raw, Delivery, Desk, Report, Wall, LARGEST_IMAGE, MESSAGE_SIZE};
use oracle::message::{Edit, Mark};
use window_cases::plain::{self, Window};

pub type Message = [u8; MESSAGE_SIZE];

/// A host's desk. Refusals are numbers.
pub trait DeskHost: Sized {
    /// From a good image, with a window of zeros.
    fn start(image: &[u8], mark: Mark, count: u32) -> Result<Self, u32>;
    fn image(&self) -> &[u8];
    fn count(&self) -> u32;
    fn window(&self) -> &Window;
    fn edit(&mut self, edit: &Edit) -> Result<(Message, Report), u32>;
    fn catch_up(&self, wall_count: u32) -> Result<Vec<Message>, u32>;
    /// What is answered where so many bytes are lent; a host that always lends enough has no answer.
    fn catch_up_with_room(&self, wall_count: u32, room: usize) -> Option<u32>;
    /// The desk as it was left, but for its window.
    fn resume(&mut self, mark: Mark, window: &Window) -> Result<(), u32>;
}

/// A host's wall. Refusals are numbers.
pub trait WallHost: Sized {
    /// From its desk's image at this count.
    fn start(image: &[u8], mark: Mark, count: u32) -> Result<Self, u32>;
    fn image(&self) -> &[u8];
    fn count(&self) -> u32;
    /// The report of the edit that was applied, or none where it was old.
    fn deliver(&mut self, message: &[u8]) -> Result<Option<Report>, u32>;
}

/// A host in the manner of C: an image at the front of a buffer, its size, a count and a mark.
pub struct Memory {
    buffer: Vec<u8>,
    len: usize,
    count: u32,
    mark: Mark,
}

impl Memory {
    fn new(image: &[u8], mark: Mark, count: u32) -> Result<Memory, u32> {
        // SAFETY: the bytes are lent for the call, which only reads them.
        number(unsafe { raw::mulkefi_test(image.as_ptr(), image.len()) })?;
        let mut buffer = vec![0; LARGEST_IMAGE];
        buffer[..image.len()].copy_from_slice(image);
        Ok(Memory { buffer, len: image.len(), count, mark })
    }

    fn image(&self) -> &[u8] {
        &self.buffer[..self.len]
    }

    fn take(&mut self, [count, len, removed, start, end]: [u32; 5]) -> Report {
        (self.count, self.len) = (count, len as usize);
        Report { removed, start, end }
    }
}

fn number(answer: u32) -> Result<(), u32> {
    match answer & 0xffff {
        0 => Ok(()),
        number => Err(number),
    }
}

pub struct DeskMemory {
    memory: Memory,
    pub window: Box<Window>,
}

impl DeskMemory {
    /// The answer to a catch-up, with what the buffer then holds.
    fn caught_up(&self, wall_count: u32, room: usize) -> (u32, Vec<u8>) {
        let Memory { count, mark, .. } = self.memory;
        // One byte more, so that there is an address where the room is none.
        let mut messages = vec![0; room + 1];
        let (window, out) = (self.window.as_ptr(), messages.as_mut_ptr());
        // SAFETY: the two are apart, and have their own lengths.
        let answer = unsafe { raw::mulkefi_catch_up(window, count, mark, wall_count, out, room) };
        messages.truncate(room);
        (answer, messages)
    }
}

impl DeskHost for DeskMemory {
    fn start(image: &[u8], mark: Mark, count: u32) -> Result<Self, u32> {
        let memory = Memory::new(image, mark, count)?;
        Ok(DeskMemory { memory, window: Box::new([0; plain::SIZE]) })
    }

    fn image(&self) -> &[u8] {
        self.memory.image()
    }

    fn count(&self) -> u32 {
        self.memory.count
    }

    fn window(&self) -> &Window {
        &self.window
    }

    fn edit(&mut self, edit: &Edit) -> Result<(Message, Report), u32> {
        let (mut message, mut answer) = ([0; MESSAGE_SIZE], [0; 5]);
        let Memory { buffer, len, count, mark } = &mut self.memory;
        // SAFETY: the four are apart, and have their own lengths.
        number(unsafe {
            raw::mulkefi_desk_edit(
                buffer.as_mut_ptr(),
                buffer.len(),
                *len,
                *count,
                *mark,
                edit.operation.code().into(),
                edit.curve,
                edit.x,
                edit.y,
                message.as_mut_ptr(),
                message.len(),
                self.window.as_mut_ptr(),
                answer.as_mut_ptr(),
            )
        })?;
        Ok((message, self.memory.take(answer)))
    }

    fn catch_up(&self, wall_count: u32) -> Result<Vec<Message>, u32> {
        let (answer, messages) = self.caught_up(wall_count, plain::SIZE);
        number(answer)?;
        let due = self.count().wrapping_sub(wall_count) as usize;
        Ok(messages.as_chunks().0[..due.min(plain::MESSAGES)].to_vec())
    }

    fn catch_up_with_room(&self, wall_count: u32, room: usize) -> Option<u32> {
        Some(self.caught_up(wall_count, room).0)
    }

    fn resume(&mut self, mark: Mark, window: &Window) -> Result<(), u32> {
        self.memory = Memory::new(self.image(), mark, self.count())?;
        *self.window = *window;
        Ok(())
    }
}

pub struct WallMemory(Memory);

impl WallHost for WallMemory {
    fn start(image: &[u8], mark: Mark, count: u32) -> Result<Self, u32> {
        Memory::new(image, mark, count).map(WallMemory)
    }

    fn image(&self) -> &[u8] {
        self.0.image()
    }

    fn count(&self) -> u32 {
        self.0.count
    }

    fn deliver(&mut self, message: &[u8]) -> Result<Option<Report>, u32> {
        let mut answer = [0; 5];
        let Memory { buffer, len, count, mark } = &mut self.0;
        let (before, bytes, size) = (*count, message.as_ptr(), message.len());
        let (room, memory) = (buffer.len(), buffer.as_mut_ptr());
        let out = answer.as_mut_ptr();
        // SAFETY: the three are apart, and have their own lengths.
        number(unsafe {
            raw::mulkefi_wall_deliver(memory, room, *len, *count, *mark, bytes, size, out)
        })?;
        let report = self.0.take(answer);
        Ok((self.count() != before).then_some(report))
    }
}

fn refused(refusal: mulkefi::Refusal) -> u32 {
    refusal.number().into()
}

impl DeskHost for Desk {
    fn start(image: &[u8], mark: Mark, count: u32) -> Result<Self, u32> {
        let started = match count {
            0 => Desk::start(image, mark.into()),
            _ => Desk::resume(image, mark.into(), count, &[0; plain::SIZE]),
        };
        started.map_err(refused)
    }

    fn image(&self) -> &[u8] {
        Desk::image(self)
    }

    fn count(&self) -> u32 {
        Desk::count(self)
    }

    fn window(&self) -> &Window {
        Desk::window(self)
    }

    fn edit(&mut self, edit: &Edit) -> Result<(Message, Report), u32> {
        let accepted = Desk::edit(self, &edit_of(edit)).map_err(refused)?;
        Ok((accepted.message, accepted.report))
    }

    fn catch_up(&self, wall_count: u32) -> Result<Vec<Message>, u32> {
        Desk::catch_up(self, wall_count).map_err(refused)
    }

    fn catch_up_with_room(&self, _: u32, _: usize) -> Option<u32> {
        None
    }

    fn resume(&mut self, mark: Mark, window: &Window) -> Result<(), u32> {
        let resumed = Desk::resume(self.image(), mark.into(), self.count(), window);
        *self = resumed.map_err(refused)?;
        Ok(())
    }
}

impl WallHost for Wall {
    fn start(image: &[u8], mark: Mark, count: u32) -> Result<Self, u32> {
        let started = match count {
            0 => Wall::start(image, mark.into()),
            _ => Wall::start_at(image, mark.into(), count),
        };
        started.map_err(refused)
    }

    fn image(&self) -> &[u8] {
        Wall::image(self)
    }

    fn count(&self) -> u32 {
        Wall::count(self)
    }

    fn deliver(&mut self, message: &[u8]) -> Result<Option<Report>, u32> {
        match Wall::deliver(self, message).map_err(refused)? {
            Delivery::Old => Ok(None),
            Delivery::Applied(report) => Ok(Some(report)),
        }
    }
}
