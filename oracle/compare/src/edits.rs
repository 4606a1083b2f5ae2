//! One edit a call: number, place of a relation not met, report, image, and the buffer's rest.

use crate::counts::Counts;
use crate::edit_rows;
use crate::hex::Hex;
use crate::number::Number;
use crate::shrink;
use crate::simpler;
use crate::subject::{self, Subject};
use oracle::bytes::{f64_at, put};
use oracle::call::{self, Call};
use oracle::generate::fields::{Role, Tables};
use oracle::generate::{calls, random::Random};
use oracle::image;
use std::fmt;
use std::marker::PhantomData;

/// A side of the comparison.
pub trait Implementation {
    /// Whether it is the typed call, which is named apart.
    const TYPED: bool = false;
    fn edit(call: &Call, out: &mut [u8]) -> u32;
}

/// Upstream's Rust behind the tests of images and edits.
pub struct Oracle;

impl Implementation for Oracle {
    fn edit(call: &Call, out: &mut [u8]) -> u32 {
        call.make(out)
    }
}

/// The engine's call from image to image.
struct Engine;

impl Implementation for Engine {
    fn edit(call: &Call, out: &mut [u8]) -> u32 {
        engine::edits::edit(call.operation, &call.image, call.curve, call.x, call.y, out)
    }
}

/// The engine's typed call, over a sketch by value.
struct TypedEngine;

impl Implementation for TypedEngine {
    const TYPED: bool = true;
    fn edit(call: &Call, out: &mut [u8]) -> u32 {
        engine::edits::typed_edit(call.operation, &call.image, call.curve, call.x, call.y, out)
    }
}

/// Which edits are generated.
pub trait Edits {
    const NAME: &'static str;
    const TYPED_NAME: &'static str;
    fn call(random: &mut Random) -> Call;
}

pub struct TrimsAndSplits;

impl Edits for TrimsAndSplits {
    const NAME: &'static str = "trims and splits";
    const TYPED_NAME: &'static str = "trims and splits by the typed call, against the image call";
    fn call(random: &mut Random) -> Call {
        calls::cut(random)
    }
}

pub struct Extends;

impl Edits for Extends {
    const NAME: &'static str = "extends";
    const TYPED_NAME: &'static str = "extends by the typed call, against the image call";
    fn call(random: &mut Random) -> Call {
        calls::extension(random)
    }
}

/// The edits E by the side I, held against the side R.
pub struct Compared<E, I, R = Oracle>(PhantomData<(E, I, R)>);

/// Compares so many trims and splits, then as many extends; then on the same cases the typed call,
/// whose every answer and byte must be the image call's.
pub fn run(cases: usize, seed: u64) -> Result<(), String> {
    subject::run::<Compared<TrimsAndSplits, Engine>>(cases, seed)?;
    subject::run::<Compared<Extends, Engine>>(cases, seed)?;
    subject::run::<Compared<TrimsAndSplits, TypedEngine, Engine>>(cases, seed)?;
    subject::run::<Compared<Extends, TypedEngine, Engine>>(cases, seed)
}

/// A call and how many bytes it may write.
pub struct Case {
    call: Call,
    room: usize,
}

/// More than an edit adds to an image, and the report.
const GROWTH: usize = 300;

/// What a buffer holds before a call.
const FILL: u8 = 0xa5;

impl Case {
    fn new(call: Call, random: &mut Random) -> Case {
        let ample = call.image.len() + GROWTH;
        let room = match call.outcome() {
            Ok((after, _)) if random.one_in(8) => {
                let size = call::size(&after);
                random.pick(&[size, size, size + 1, size - 1, 12, 11, 0, image::MAX_SIZE + 12])
            }
            _ if random.one_in(40) => random.pick(&[0, 11, 12]),
            _ => ample,
        };
        Case { call, room }
    }

    fn with_image(&self, bytes: &[u8]) -> Case {
        let room = (self.room + bytes.len()).saturating_sub(self.call.image.len());
        Case { call: Call { image: bytes.to_vec(), ..self.call.clone() }, room }
    }

    fn answer(&self, edit: impl Fn(&Call, &mut [u8]) -> u32) -> Answer {
        let mut out = vec![FILL; self.room];
        let answer = edit(&self.call, &mut out);
        Answer { number: answer & 0xffff, place: answer >> 16, out: Hex(out) }
    }
}

impl fmt::Debug for Case {
    fn fmt(&self, f: &mut fmt::Formatter<'_>) -> fmt::Result {
        let Call { operation, image, curve, x, y } = &self.call;
        let (x, y) = (Number(*x), Number(*y));
        writeln!(f, "operation {operation}, curve {curve}, pick {x:?}, {y:?}, room {}", self.room)?;
        if let Ok(drawing) = image::read(image) {
            writeln!(f, "  next id {}", drawing.next_id)?;
            drawing.points.iter().try_for_each(|point| writeln!(f, "  {point:?}"))?;
            drawing.curves.iter().try_for_each(|curve| writeln!(f, "  {curve:?}"))?;
            drawing.relations.iter().try_for_each(|relation| writeln!(f, "  {relation:?}"))?;
        }
        write!(f, "  image {:?}", Hex(image.clone()))
    }
}

#[derive(PartialEq)]
pub struct Answer {
    number: u32,
    place: u32,
    out: Hex,
}

impl fmt::Debug for Answer {
    fn fmt(&self, f: &mut fmt::Formatter<'_>) -> fmt::Result {
        write!(f, "{}, place {}, ", self.number, self.place)?;
        let Hex(out) = &self.out;
        let Some(last) = out.iter().rposition(|byte| *byte != FILL) else {
            return write!(f, "buffer untouched");
        };
        write!(f, "{} bytes lent, {:?}", out.len(), Hex(out[..=last].to_vec()))
    }
}

impl<E: Edits, I: Implementation, R: Implementation> Subject for Compared<E, I, R> {
    const NAME: &'static str = if I::TYPED { E::TYPED_NAME } else { E::NAME };
    type Case = Case;
    type Answer = Answer;
    type Coverage = Counts;

    fn case(random: &mut Random) -> Case {
        let call = E::call(random);
        Case::new(call, random)
    }

    fn oracle(case: &Case, counts: &mut Counts) -> Answer {
        let answer = case.answer(R::edit);
        edit_rows::count(&case.call, answer.number, &answer.out.0, counts);
        answer
    }

    fn engine(case: &Case) -> Answer {
        case.answer(I::edit)
    }

    /// Fewer records, then plainer numbers, in turn until neither helps; then the pick.
    fn shrink(case: Case, differs: impl Fn(&Case) -> bool) -> Case {
        let image = shrink::until_stable(case.call.image.clone(), |bytes| {
            let fewer = shrink::records(bytes, |bytes| differs(&case.with_image(bytes)));
            *bytes = plainer_floats(fewer, |bytes| differs(&case.with_image(bytes)));
        });
        let case = case.with_image(&image);
        let picked = |[x, y]: &[f64; 2]| Case {
            call: Call { x: *x, y: *y, ..case.call.clone() },
            room: case.room,
        };
        let pick = [case.call.x, case.call.y];
        picked(&simpler::numbers(pick, |pick| differs(&picked(pick))))
    }
}

/// Every float of an image's records as simple as the difference allows.
fn plainer_floats(mut image: Vec<u8>, differs: impl Fn(&[u8]) -> bool) -> Vec<u8> {
    let Some(tables) = Tables::of(&image) else { return image };
    for table in 0..3 {
        for place in 0..tables.counts[table] {
            let start = tables.record(table, place);
            let fields = Tables::fields(table).iter().filter(|field| field.role == Role::Float);
            for at in fields.map(|field| start + field.at) {
                let with = |number: f64| {
                    let mut other = image.clone();
                    put(&mut other, at, number.to_bits().to_be_bytes());
                    other
                };
                let [kept] = simpler::numbers([f64_at(&image, at)], |[n]| differs(&with(*n)));
                image = with(kept);
            }
        }
    }
    image
}

#[cfg(test)]
mod tests {
    use super::*;
    use crate::place_faults::*;
    use oracle::upstream;

    /// The oracle with a fault: a trim reports the ends of what it removed the wrong way round.
    struct EndsSwapped;

    impl Implementation for EndsSwapped {
        fn edit(call: &Call, out: &mut [u8]) -> u32 {
            let answer = call.make(out);
            if answer == 0 && call.operation == 1 {
                let (from, to) = out[4..12].split_at_mut(4);
                from.swap_with_slice(to);
            }
            answer
        }
    }

    /// The oracle with a fault in the places that it tells.
    struct Faulty<F>(PhantomData<F>);

    impl<F: PlaceFault> Implementation for Faulty<F> {
        fn edit(call: &Call, out: &mut [u8]) -> u32 {
            let edited = (call.outcome(), image::read(&call.image), call.edit());
            let (Err(refused), Ok(drawing), Some(edit)) = edited else { return call.make(out) };
            call::answer(&Err::<(), _>(with_fault::<F>(&drawing, &edit, refused)))
        }
    }

    /// How the difference that a fault makes is reported.
    fn found<F: PlaceFault>() -> String {
        let compared = subject::run::<Compared<Extends, Faulty<F>>>(2_000, 7);
        compared.expect_err("a fault was planted")
    }

    /// How many relations the drawing of a report has.
    fn relations_in(report: &str) -> usize {
        let others = ["operation", "next id", "Point {", "Curve {", "image", "oracle", "engine"];
        let records = report.lines().skip(1).map(str::trim_start);
        records.filter(|line| !others.iter().any(|other| line.starts_with(other))).count()
    }

    #[test]
    fn a_wrong_place_is_found_and_shrunk() {
        if !upstream::PRESENT {
            return;
        }
        let reports = [
            (found::<Last>(), 2),
            (found::<CountedFromOne>(), 1),
            (found::<WithinPresentTable>(), 1),
            (found::<OfDrawingBefore>(), 2),
            (found::<OfMovedEnd>(), 2),
            (found::<Dropped>(), 2),
        ];
        for (report, relations) in reports {
            assert!(relations_in(&report) <= relations, "{relations} are enough: {report}");
        }
    }

    #[test]
    fn the_oracle_agrees_with_itself() {
        if !upstream::PRESENT {
            return;
        }
        subject::run::<Compared<TrimsAndSplits, Oracle>>(5_000, 7).expect("one side twice");
        subject::run::<Compared<Extends, Oracle>>(5_000, 7).expect("one side twice");
        subject::run::<Compared<Extends, Faulty<First>>>(5_000, 7).expect("one side twice");
    }

    #[test]
    fn a_planted_fault_is_found_and_shrunk() {
        if !upstream::PRESENT {
            return;
        }
        let report = subject::run::<Compared<TrimsAndSplits, EndsSwapped>>(5_000, 7)
            .expect_err("a fault was planted");
        let records = ["Point {", "Curve {", "Relation"].map(|kind| report.matches(kind).count());
        let enough = records[0] <= 4 && records[1] <= 2 && records[2] == 0;
        assert!(enough, "the target and at most one cutter: {report}");
    }
}
