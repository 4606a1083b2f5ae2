//! `mulkefi_roots`.

use crate::answers::number;
use crate::calls::Calls;
use crate::guard::Guarded;
use crate::inputs;
use oracle::generate::polynomials::coefficients;
use oracle::generate::random::Random;

/// Two numbers.
const ANSWER_BEFORE: [u8; 16] = [0x3c; 16];
const FLOAT: usize = 8;
/// The most coefficients that are tried.
const MOST: usize = 2_048;

pub struct Subject {
    coefficients: Guarded,
    found: Guarded,
    answer: Guarded,
}

impl Subject {
    pub fn new() -> Subject {
        let [coefficients, found, answer] = [FLOAT * MOST, FLOAT * 40, 16].map(Guarded::new);
        Subject { coefficients, found, answer }
    }

    /// Answers the number of the outcome.
    pub fn try_one(&mut self, calls: &Calls, random: &mut Random) -> Result<u32, String> {
        let mut numbers = coefficients(random);
        if random.one_in(40) {
            numbers.resize(random.pick(&[0, 15, 16, 17, 256, MOST]), 0.5);
        }
        let bytes: Vec<u8> = numbers.iter().flat_map(|number| number.to_ne_bytes()).collect();
        let room = random.pick(&[28, 28, 28, 28, 29, 40, 27, 1, 0]);
        let small = random.below(900);
        let budget = random.pick(&[1_000_000, 1_000_000, usize::MAX, 47, 46, 0, small]);
        let given = self.coefficients.lend_to_read(&bytes, inputs::edge(random)).cast();
        let found = self.found.lend(&vec![0x5b; FLOAT * room], inputs::edge(random)).cast();
        let answer = self.answer.lend(&ANSWER_BEFORE, inputs::edge(random)).cast();
        // SAFETY: three buffers apart, with their own lengths; the answer has two numbers.
        let outcome =
            number(unsafe { (calls.roots)(given, numbers.len(), found, room, budget, answer) })?;
        if outcome != 0 {
            self.found.check("the roots, on refusal", 0)?;
            self.answer.check("the answer, on refusal", 0)?;
            return Ok(outcome);
        }
        self.answer.check("the answer", ANSWER_BEFORE.len())?;
        let words = self.answer.bytes().as_chunks().0.iter();
        let words: Vec<usize> = words.map(|word| u64::from_ne_bytes(*word) as usize).collect();
        self.found.check("the roots", words[0].saturating_mul(FLOAT))?;
        match words[1] <= budget {
            true => Ok(0),
            false => Err(format!("budget {budget} became {}", words[1])),
        }
    }
}
