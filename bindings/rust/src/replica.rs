//! The state of a desk or of a wall: an image, in a buffer with room for the largest, the mark of its
//! start, and a count.

use crate::edit::Report;
use crate::format::LARGEST_IMAGE;
use crate::mark::Mark;
use crate::refusal::Refusal;
use crate::version::check_library;

/// The first `len` bytes of the buffer are an image that the engine accepts.
#[derive(Clone)]
pub struct Replica {
    pub buffer: Box<[u8; LARGEST_IMAGE]>,
    pub len: usize,
    pub mark: Mark,
    pub count: u32,
}

/// Count, image's length, removed curve, its start and its end.
pub type Answer = [u32; 5];

impl Replica {
    /// # Panics
    ///
    /// If the library is of another interface or other versions than this crate.
    pub fn new(image: &[u8], mark: Mark, count: u32) -> Result<Replica, Refusal> {
        check_library();
        crate::test(image)?;
        let mut buffer = Box::new([0; LARGEST_IMAGE]);
        // The engine accepts nothing longer; were it otherwise, that is a refusal too.
        let front = buffer.get_mut(..image.len()).ok_or(Refusal::Buffer)?;
        front.copy_from_slice(image);
        Ok(Replica { buffer, len: image.len(), mark, count })
    }

    pub fn image(&self) -> &[u8] {
        &self.buffer[..self.len]
    }

    /// Takes over what an accepted call answered.
    ///
    /// # Panics
    ///
    /// If the image's length is over the buffer's, which the engine's contract rules out.
    pub fn take(&mut self, [count, len, removed, start, end]: Answer) -> Report {
        assert!(len as usize <= LARGEST_IMAGE, "an image keeps within the room lent for it");
        (self.count, self.len) = (count, len as usize);
        Report { removed, start, end }
    }
}
