//! Images read and written back by both sides.

use crate::copies::{engine_answer, oracle_answer, Answer, Case};
use crate::shrink;
use crate::subject::Subject;
use oracle::generate::{self, coverage::Coverage, random::Random};
use oracle::image;

pub struct Images;

impl Subject for Images {
    const NAME: &'static str = "images";
    type Case = Case;
    type Answer = Answer;
    type Coverage = Coverage;

    fn case(random: &mut Random) -> Case {
        let bytes = generate::image_bytes(random);
        Case::new(bytes, random)
    }

    fn oracle(case: &Case, coverage: &mut Coverage) -> Answer {
        let answer = oracle_answer(case, |bytes, out| {
            let drawing = image::read(bytes)?;
            coverage.drawing(&drawing);
            image::write(&drawing, out)
        });
        coverage.outcome(answer.number());
        answer
    }

    fn engine(case: &Case) -> Answer {
        engine_answer(case, engine::image_copy)
    }

    fn shrink(case: Case, differs: impl Fn(&Case) -> bool) -> Case {
        let bytes = shrink::image(&case.bytes.0, |bytes| differs(&case.with_bytes(bytes)));
        case.with_bytes(&bytes)
    }
}
