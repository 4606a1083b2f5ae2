//! One edit several times over, by itself, at a desk and delivered to a wall: the sum of its replies, a
//! refusal's with the place that comes with 13 and 19.

use crate::counts::Counts;
use crate::hex::{Hex, HexMark};
use crate::marks;
use crate::numerals::numeral;
use crate::places;
use crate::shrink;
use crate::subject::Subject;
use engine::edits;
use engine::replication::{self, ACCEPTED};
use oracle::call::{self, Call};
use oracle::edit::Refused;
use oracle::generate::messages::damage;
use oracle::generate::{calls, marks as generated, random::Random};
use oracle::message::{self, Edit, Mark, Message, Operation, OPERATION_AT};
use oracle::refusal::Refusal;
use oracle::replication::{Delivery, Desk, Replica};
use oracle::unmet::Unmet;
use oracle::window::Window;
use oracle::{edit, image};
use std::marker::PhantomData;

/// What is compared with the oracle.
pub trait Implementation {
    fn sum(case: &Case) -> u32;
}

pub struct Engine;

impl Implementation for Engine {
    fn sum(case: &Case) -> u32 {
        let Case { asked, call: Call { operation, image, curve, x, y }, count, times } = case;
        match asked {
            Asked::Edit => edits::repeated(*operation, image, *curve, *x, *y, *times),
            Asked::TypedEdit => edits::typed_repeated(*operation, image, *curve, *x, *y, *times),
            Asked::Desk => {
                replication::desk_repeated(image, *count, *operation, *curve, [*x, *y], *times)
            }
            Asked::Wall(HexMark(mark), Hex(bytes)) => {
                replication::deliver_repeated(image, *count, *mark, bytes, *times)
            }
        }
    }
}

pub struct Sums<I>(PhantomData<I>);

#[derive(Clone, Debug)]
enum Asked {
    Edit,
    TypedEdit,
    Desk,
    /// The wall's mark, and the bytes that it is given.
    Wall(HexMark, Hex),
}

/// An edit of an image, which a desk or wall has at a count.
#[derive(Clone, Debug)]
pub struct Case {
    asked: Asked,
    call: Call,
    count: u32,
    times: u32,
}

/// A delivery to a wall.
pub type Deliver = fn(&mut Replica, &[u8]) -> Result<Delivery, Refused>;

/// The refusal of all calls at once, for the image or the operation, or the reply of each call.
type Replies = Result<Result<u32, Refused>, Refused>;

impl Case {
    fn row(&self) -> &'static str {
        match self.asked {
            Asked::Edit => "edit",
            Asked::TypedEdit => "typed edit",
            Asked::Desk => "desk",
            Asked::Wall(..) => "wall",
        }
    }

    /// The rows of the places that come with 13 and with 19.
    fn place_rows(&self) -> [&'static str; 2] {
        match self.asked {
            Asked::Edit => ["edit 13", "edit 19"],
            Asked::TypedEdit => ["typed edit 13", "typed edit 19"],
            Asked::Desk => ["desk 13", "desk 19"],
            Asked::Wall(..) => ["wall 13", "wall 19"],
        }
    }

    /// The edit that is asked for, of the message where one is delivered.
    fn edit(&self) -> Option<Edit> {
        if let Asked::Wall(HexMark(mark), Hex(bytes)) = &self.asked {
            return message::read(bytes, *mark).ok().map(|message| message.edit);
        }
        self.call.edit()
    }

    fn outcome(&self, replies: &Replies) -> &'static str {
        match replies {
            Err(refused) | Ok(Err(refused)) => numeral(refused.refusal.number()),
            Ok(Ok(ACCEPTED)) if matches!(self.asked, Asked::Wall(..)) => "old",
            Ok(Ok(_)) => "0",
        }
    }

    /// The relations that are not met where the edit is refused for them.
    fn unmet(&self) -> Option<Unmet> {
        Unmet::of(&image::read(&self.call.image).ok()?, &self.edit()?)
    }

    fn replies(&self) -> Replies {
        self.replies_by(Replica::deliver)
    }

    /// What the replies add up to where a message is delivered so.
    #[cfg(test)]
    pub fn sum_by(&self, deliver: Deliver) -> u32 {
        sum(self.replies_by(deliver), self.times)
    }

    fn replies_by(&self, deliver: Deliver) -> Replies {
        let drawing = image::read(&self.call.image)?;
        let replica = |mark| Replica { drawing: drawing.clone(), mark, count: self.count };
        if let Asked::Wall(HexMark(mark), Hex(bytes)) = &self.asked {
            return Ok(wall_reply(replica(*mark), bytes, deliver));
        }
        let edit = self.edit().ok_or(Refusal::Operation)?;
        Ok(match self.asked {
            Asked::Desk => desk_reply(replica(0), &edit),
            _ => edit::apply_tested(&drawing, &edit)
                .map(|(after, report)| after.next_id.wrapping_add(report.removed)),
        })
    }
}

fn desk_reply(replica: Replica, edit: &Edit) -> Result<u32, Refused> {
    let mut desk = Desk { replica, window: Window::empty() };
    desk.edit(edit, &mut [0; message::SIZE])?;
    Ok(ACCEPTED.wrapping_add(desk.replica.count))
}

fn wall_reply(mut wall: Replica, bytes: &[u8], deliver: Deliver) -> Result<u32, Refused> {
    Ok(match deliver(&mut wall, bytes)? {
        Delivery::Old => ACCEPTED,
        Delivery::Applied(_) => ACCEPTED.wrapping_add(wall.count),
    })
}

/// What replies add up to.
fn sum(replies: Replies, times: u32) -> u32 {
    let number = |refused: Refused| call::answer(&Err::<(), _>(refused));
    match replies {
        Err(refused) => number(refused),
        Ok(each) => each.unwrap_or_else(number).wrapping_mul(times),
    }
}

/// The edit's message under the wall's mark or another, and under a number at or near the next one, at
/// times damaged.
fn message_near(call: &Call, count: u32, own: Mark, random: &mut Random) -> Vec<u8> {
    let next = count.wrapping_add(1);
    let number =
        random.weighted(&[(12, next), (1, count), (1, count / 2), (1, next.wrapping_add(1))]);
    let edit = Edit { operation: Operation::Trim, curve: call.curve, x: call.x, y: call.y };
    let mark = generated::delivered(random, own);
    let mut bytes = message::to_bytes(&Message { number, edit }, mark).to_vec();
    bytes[OPERATION_AT] = call.operation as u8;
    if random.one_in(8) {
        damage(random, &mut bytes);
    }
    bytes
}

impl<I: Implementation> Subject for Sums<I> {
    const NAME: &'static str = "sums of edits, desk and wall";
    type Case = Case;
    type Answer = u32;
    type Coverage = Counts;

    fn case(random: &mut Random) -> Case {
        let call = if random.one_in(2) { calls::cut(random) } else { calls::extension(random) };
        let count = random.pick(&[0, 0, 1, 7, 255, 65_536, u32::MAX - 1, u32::MAX]);
        let times = random.weighted(&[(1, 0), (9, 1), (3, 2), (3, 3)]);
        let asked = match random.below(8) {
            0 => Asked::Edit,
            1 => Asked::TypedEdit,
            2..=4 => Asked::Desk,
            _ => {
                let mark = generated::mark(random);
                Asked::Wall(HexMark(mark), Hex(message_near(&call, count, mark, random)))
            }
        };
        Case { asked, call, count, times }
    }

    fn oracle(case: &Case, counts: &mut Counts) -> u32 {
        let replies = case.replies();
        let outcome = case.outcome(&replies);
        counts.add(case.row(), outcome);
        if let Asked::Wall(HexMark(mark), Hex(bytes)) = &case.asked {
            marks::count(*mark, bytes, outcome, counts);
        }
        if let (Ok(Err(Refused { place: Some(_), .. })), 1..) = (&replies, case.times) {
            places::count(case.place_rows(), case.unmet(), counts);
        }
        sum(replies, case.times)
    }

    fn engine(case: &Case) -> u32 {
        I::sum(case)
    }

    /// Fewer records.
    fn shrink(case: Case, differs: impl Fn(&Case) -> bool) -> Case {
        let with = |image: &[u8]| {
            let call = Call { image: image.to_vec(), ..case.call.clone() };
            Case { call, ..case.clone() }
        };
        with(&shrink::records(&case.call.image, |image| differs(&with(image))))
    }
}

#[cfg(test)]
mod tests {
    use super::*;
    use crate::place_faults::*;
    use crate::subject;
    use oracle::upstream;

    /// The oracle with a fault in the places that it tells, at the desk and the wall alone.
    struct Faulty<F>(PhantomData<F>);

    impl<F: PlaceFault> Implementation for Faulty<F> {
        fn sum(case: &Case) -> u32 {
            let planted = matches!(case.asked, Asked::Desk | Asked::Wall(..));
            let replies = match (case.replies(), image::read(&case.call.image), case.edit()) {
                (Ok(Err(refused)), Ok(drawing), Some(edit)) if planted => {
                    Ok(Err(with_fault::<F>(&drawing, &edit, refused)))
                }
                (replies, ..) => replies,
            };
            sum(replies, case.times)
        }
    }

    /// Within so many cases, half of which are trims and splits, which know no place.
    const ENOUGH: usize = 20_000;

    fn found<F: PlaceFault>() -> String {
        let compared = subject::run::<Sums<Faulty<F>>>(ENOUGH, 7);
        compared.expect_err("a fault was planted")
    }

    #[test]
    fn a_wrong_place_at_desk_or_wall_is_found() {
        if !upstream::PRESENT {
            return;
        }
        let reports = [
            found::<Last>(),
            found::<CountedFromOne>(),
            found::<WithinPresentTable>(),
            found::<OfDrawingBefore>(),
            found::<OfMovedEnd>(),
            found::<Dropped>(),
        ];
        for report in reports {
            assert!(report.contains("asked: Desk") || report.contains("asked: Wall"), "{report}");
        }
    }

    #[test]
    fn the_oracle_agrees_with_itself() {
        if !upstream::PRESENT {
            return;
        }
        subject::run::<Sums<Faulty<First>>>(ENOUGH, 7).expect("one side twice");
    }
}
