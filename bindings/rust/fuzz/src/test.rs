//! `mulkefi_test`.

use crate::answers::number;
use crate::calls::Calls;
use crate::guard::Guarded;
use crate::inputs::{self, BUFFER};
use oracle::generate::random::Random;

pub struct Subject {
    image: Guarded,
}

impl Subject {
    pub fn new() -> Subject {
        Subject { image: Guarded::new(BUFFER) }
    }

    /// Answers the number of the outcome, which the reader in Rust must give too.
    pub fn try_one(&mut self, calls: &Calls, random: &mut Random) -> Result<u32, String> {
        let bytes = inputs::image(random);
        let image = self.image.lend_to_read(&bytes, inputs::edge(random));
        // SAFETY: one buffer with its own length.
        let outcome = number(unsafe { (calls.test)(image, bytes.len()) })?;
        self.image.check("the image", 0)?;
        let read = mulkefi::read(&bytes).err().map_or(0, |fault| u32::from(fault.refusal.number()));
        match read == outcome {
            true => Ok(outcome),
            false => Err(format!("the engine says {outcome}, the reader {read}")),
        }
    }
}
