//! An edit as one call on bytes: an image and an edit in, the report and the image after it out.

use crate::bytes::put;
use crate::drawing::{Drawing, Id};
use crate::edit::{apply_tested, Refused, Report};
use crate::image;
use crate::message::{Edit, Operation};
use crate::refusal::Refusal;

/// Removed curve, and where it ran from and to.
pub const REPORT_SIZE: usize = 12;

/// What goes into the call. The operation may be any number.
#[derive(Clone, Debug)]
pub struct Call {
    pub operation: u32,
    pub image: Vec<u8>,
    pub curve: Id,
    pub x: f64,
    pub y: f64,
}

impl Call {
    pub fn new(drawing: &Drawing, edit: &Edit) -> Call {
        let Edit { operation, curve, x, y } = *edit;
        Call { operation: operation.code().into(), image: image::to_bytes(drawing), curve, x, y }
    }

    pub fn operation(&self) -> Option<Operation> {
        Operation::ALL.into_iter().find(|operation| u32::from(operation.code()) == self.operation)
    }

    /// None where the operation's number is none.
    pub fn edit(&self) -> Option<Edit> {
        Some(Edit { operation: self.operation()?, curve: self.curve, x: self.x, y: self.y })
    }

    /// The drawing after the edit and the report, or the image's refusal, the operation's or the edit's.
    pub fn outcome(&self) -> Result<(Drawing, Report), Refused> {
        let drawing = image::read(&self.image)?;
        let edit = self.edit().ok_or(Refusal::Operation)?;
        apply_tested(&drawing, &edit)
    }

    /// Answers the number of `answer` and, if that is 0, writes to the front of the buffer.
    pub fn make(&self, out: &mut [u8]) -> u32 {
        let outcome =
            self.outcome().and_then(|(drawing, report)| Ok(write(&drawing, &report, out)?));
        answer(&outcome)
    }
}

/// How many bytes an accepted call writes.
pub fn size(after: &Drawing) -> usize {
    REPORT_SIZE + image::size(after)
}

/// Writes the report and the image to the front of a buffer with room for both.
pub fn write(after: &Drawing, report: &Report, out: &mut [u8]) -> Result<(), Refusal> {
    let out = out.get_mut(..size(after)).ok_or(Refusal::Buffer)?;
    let [from, to] = report.ends;
    for (at, id) in [report.removed, from, to].into_iter().enumerate() {
        put(out, 4 * at, id.to_be_bytes());
    }
    image::encode(after, &mut out[REPORT_SIZE..]).map(|_| ())
}

/// 0, or the refusal's number with the place of the first relation not met times 65,536 added.
pub fn answer<T>(outcome: &Result<T, Refused>) -> u32 {
    match outcome {
        Ok(_) => 0,
        Err(Refused { refusal, place }) => {
            u32::from(refusal.number()) + ((place.unwrap_or(0) as u32) << 16)
        }
    }
}
