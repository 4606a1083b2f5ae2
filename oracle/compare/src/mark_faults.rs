//! Faults in what is done with a mark, planted into one side of the comparisons of messages, of
//! deliveries and of runs.

use crate::messages::{self, Implementation as _, Messages};
use crate::runs::{self, put_in_front, Implementation as _, Runs};
use crate::subject;
use crate::sums::{self, Case, Sums};
use oracle::bytes::{u32_at, u64_at};
use oracle::edit::Refused;
use oracle::message::{self, *};
use oracle::program::{self, Parts};
use oracle::recording::{self, List, SEED};
use oracle::refusal::{number_of, Refusal};
use oracle::replication::{Delivery, Replica};
use oracle::{image, upstream};
use std::marker::PhantomData;

/// An implementation; each fault does one of these otherwise than the oracle.
trait MarkFault {
    fn read(bytes: &[u8], mark: Mark) -> Result<Message, Refusal> {
        message::read(bytes, mark)
    }

    fn write(message: &Message, mark: Mark) -> [u8; SIZE] {
        to_bytes(message, mark)
    }

    /// What is read is delivered as the wall's own desk writes it.
    fn deliver(wall: &mut Replica, bytes: &[u8]) -> Result<Delivery, Refused> {
        let message = Self::read(bytes, wall.mark)?;
        wall.deliver(&to_bytes(&message, wall.mark))
    }

    fn parts(input: &[u8]) -> Parts<'_> {
        Parts::of(input)
    }
}

struct NoFault;

impl MarkFault for NoFault {}

/// 28 is tested after 6.
struct AfterOperation;

impl MarkFault for AfterOperation {
    fn read(bytes: &[u8], mark: Mark) -> Result<Message, Refusal> {
        NotTested::read(bytes, mark).and_then(|_| message::read(bytes, mark))
    }
}

/// 28 is tested before the version.
struct BeforeVersion;

impl MarkFault for BeforeVersion {
    fn read(bytes: &[u8], mark: Mark) -> Result<Message, Refusal> {
        match mark_of(bytes) {
            Some(other) if other != mark => Err(Refusal::Foreign),
            _ => message::read(bytes, mark),
        }
    }
}

/// 28 is tested before the size.
struct BeforeSize;

impl MarkFault for BeforeSize {
    fn read(bytes: &[u8], mark: Mark) -> Result<Message, Refusal> {
        match (message::read(bytes, mark), mark_of(bytes)) {
            (Err(Refusal::Length), Some(other)) if other != mark => Err(Refusal::Foreign),
            (read, _) => read,
        }
    }
}

/// 28 is not tested at all.
struct NotTested;

impl MarkFault for NotTested {
    fn read(bytes: &[u8], mark: Mark) -> Result<Message, Refusal> {
        message::read(bytes, mark_of(bytes).unwrap_or(mark))
    }
}

/// The last four bytes of the mark alone are compared.
struct LowHalfAlone;

impl MarkFault for LowHalfAlone {
    fn read(bytes: &[u8], mark: Mark) -> Result<Message, Refusal> {
        let like_own = mark_of(bytes).filter(|other| *other as u32 == mark as u32);
        message::read(bytes, like_own.unwrap_or(mark))
    }
}

/// Zero bytes are written in place of the mark.
struct NotWritten;

impl MarkFault for NotWritten {
    fn write(message: &Message, _: Mark) -> [u8; SIZE] {
        to_bytes(message, 0)
    }
}

/// The mark is written with its last byte first.
struct WrittenLittleEndian;

impl MarkFault for WrittenLittleEndian {
    fn write(message: &Message, mark: Mark) -> [u8; SIZE] {
        to_bytes(message, mark.swap_bytes())
    }
}

/// A foreign message under an old number is answered old.
struct ForeignIsOld;

impl MarkFault for ForeignIsOld {
    fn deliver(wall: &mut Replica, bytes: &[u8]) -> Result<Delivery, Refused> {
        match NotTested::read(bytes, wall.mark) {
            Ok(message) if message.number <= wall.count => Ok(Delivery::Old),
            _ => wall.deliver(bytes),
        }
    }
}

/// A wall at count 0 takes the mark of what it hears for its own.
struct FirstIsAdopted;

impl MarkFault for FirstIsAdopted {
    fn deliver(wall: &mut Replica, bytes: &[u8]) -> Result<Delivery, Refused> {
        if wall.count == 0 {
            wall.mark = mark_of(bytes).unwrap_or(wall.mark);
        }
        wall.deliver(bytes)
    }
}

/// The program takes messages from right behind the image.
struct MessagesBehindImage;

impl MarkFault for MessagesBehindImage {
    fn parts(input: &[u8]) -> Parts<'_> {
        let parts = Parts::of(input);
        let messages = &input[parts.image.len()..input.len() - parts.beyond.len()];
        Parts { messages, ..parts }
    }
}

/// The mark of bytes that are long enough for one.
fn mark_of(bytes: &[u8]) -> Option<Mark> {
    (bytes.len() >= NUMBER_AT).then(|| u64_at(bytes, MARK_AT))
}

/// One side of each comparison, with a fault.
struct Faulty<F>(PhantomData<F>);

impl<F: MarkFault> messages::Implementation for Faulty<F> {
    fn copy(bytes: &[u8], mark: Mark, out: &mut [u8]) -> u32 {
        let copied = F::read(bytes, mark).and_then(|message| {
            let out = out.get_mut(..SIZE).ok_or(Refusal::Buffer)?;
            out.copy_from_slice(&F::write(&message, mark));
            Ok(())
        });
        number_of(&copied).into()
    }
}

impl<F: MarkFault> sums::Implementation for Faulty<F> {
    fn sum(case: &Case) -> u32 {
        case.sum_by(F::deliver)
    }
}

impl<F: MarkFault> runs::Implementation for Faulty<F> {
    fn wall(input: &[u8], out: &mut [u8]) -> usize {
        let Parts { image, mark, messages, .. } = F::parts(input);
        let (Ok(drawing), Ok(mark)) = (image::read(image), mark.try_into()) else {
            return put_in_front(&program::run(input), out);
        };
        let mut wall = Replica::new(drawing, Mark::from_be_bytes(mark));
        for bytes in messages.chunks(SIZE) {
            let _ = F::deliver(&mut wall, bytes);
        }
        put_in_front(&image::to_bytes(&wall.drawing), out)
    }
}

/// The recorded answers, which the engine is held to where there is no Rust.
struct Recorded {
    messages: List<Message>,
    runs: List<()>,
}

impl Recorded {
    fn differ_from<F: MarkFault>(&self) -> bool {
        self.messages.entries().any(|(outcome, entry)| {
            let (mark, bytes) = entry.split_at(MARK_SIZE);
            let mut out = [0; SIZE];
            let number = Faulty::<F>::copy(bytes, u64_at(mark, 0), &mut out);
            number != outcome.into() || (number == 0 && out != bytes)
        }) || self.runs.entries().any(|(_, entry)| {
            let (input, written) = entry[4..].split_at(u32_at(entry, 0) as usize);
            let mut out = [0; image::MAX_SIZE];
            let size = Faulty::<F>::wall(input, &mut out);
            out[..size] != *written
        })
    }
}

/// Whether the comparison of messages, of sums and of runs and the recorded answers find a fault.
fn found<F: MarkFault>(recorded: &Recorded) -> [bool; 4] {
    [
        subject::run::<Messages<Faulty<F>>>(20_000, 7).is_err(),
        subject::run::<Sums<Faulty<F>>>(20_000, 7).is_err(),
        subject::run::<Runs<Faulty<F>>>(5_000, 7).is_err(),
        recorded.differ_from::<F>(),
    ]
}

/// A run shows no refusal, a sum nothing of what a desk writes, and a recorded answer no old message.
#[test]
fn a_fault_is_found_wherever_it_shows() {
    if !upstream::PRESENT {
        return;
    }
    let all = Recorded { messages: recording::messages(SEED), runs: recording::runs(SEED) };
    assert_eq!(found::<NoFault>(&all), [false, false, false, false]);
    assert_eq!(found::<AfterOperation>(&all), [true, true, false, true]);
    assert_eq!(found::<BeforeVersion>(&all), [true, true, false, true]);
    assert_eq!(found::<BeforeSize>(&all), [true, true, false, true]);
    assert_eq!(found::<NotTested>(&all), [true, true, true, true]);
    assert_eq!(found::<LowHalfAlone>(&all), [true, true, true, true]);
    assert_eq!(found::<NotWritten>(&all), [true, false, false, true]);
    assert_eq!(found::<WrittenLittleEndian>(&all), [true, false, false, true]);
    assert_eq!(found::<ForeignIsOld>(&all), [false, true, false, false]);
    assert_eq!(found::<FirstIsAdopted>(&all), [false, true, true, true]);
    assert_eq!(found::<MessagesBehindImage>(&all), [false, false, true, true]);
}
