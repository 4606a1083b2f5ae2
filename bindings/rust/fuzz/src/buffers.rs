//! The memory that a host lends to a call of the desk or the wall: the image's buffer, a message and
//! five numbers.

use crate::answers::MESSAGE_SIZE;
use crate::guard::Guarded;
use crate::inputs::BUFFER;

pub struct Buffers {
    pub buffer: Guarded,
    pub message: Guarded,
    pub answer: Guarded,
}

impl Buffers {
    pub fn new() -> Buffers {
        let [buffer, message, answer] = [BUFFER, 2 * MESSAGE_SIZE, 20].map(Guarded::new);
        Buffers { buffer, message, answer }
    }
}
