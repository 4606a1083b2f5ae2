//! Calls of one edit each, now and then with an image, operation, curve or pick that is none.

use super::random::Random;
use super::{bridges, cuts, damage, edits, extensions};
use crate::call::Call;
use crate::drawing::{Drawing, Id};
use crate::message::{Edit, Operation};

/// A trim or split.
pub fn cut(random: &mut Random) -> Call {
    let sharp = !random.one_in(8);
    let operation = random.pick(&[Operation::Trim, Operation::Split]);
    let (drawing, edit) = if sharp { cuts::cut(random) } else { any(random, operation) };
    spoilt(random, Call::new(&drawing, &edit))
}

/// An extend.
pub fn extension(random: &mut Random) -> Call {
    let sharp = !random.one_in(8);
    let (drawing, edit) =
        if sharp { extensions::extension(random) } else { any(random, Operation::Extend) };
    spoilt(random, Call::new(&drawing, &edit))
}

/// An edit of a whole bridge.
fn any(random: &mut Random, operation: Operation) -> (Drawing, Edit) {
    let drawing = bridges::any_drawing(random);
    let edit = edits::edit_by(random, &drawing, operation);
    (drawing, edit)
}

fn spoilt(random: &mut Random, mut call: Call) -> Call {
    match random.below(400) {
        0 => call.operation = random.pick(&[0, 4, 5, 255, 256, 257, 1 << 16, u32::MAX]),
        1 | 2 => {
            damage::damage(random, &mut call.image);
            if random.one_in(4) {
                call.operation = 0;
            }
        }
        3 => call.curve = random.pick(&[0, 1, call.curve.wrapping_add(1), Id::MAX]),
        4 => call.x = f64::from_bits(random.float_bits()),
        5 => call.y = f64::from_bits(random.float_bits()),
        _ => {}
    }
    call
}
