//! Polynomials in Bernstein form: value, roots, and the largest magnitude of any list.

mod interface {
    extern "C" {
        pub fn mulkefi_evaluate(coefficients: *const f64, len: usize, t: f64) -> f64;
        pub fn mulkefi_roots(
            coefficients: *const f64,
            len: usize,
            found: *mut f64,
            found_len: usize,
            budget: usize,
            answer: &mut [u64; 2],
        ) -> u32;
        pub fn mulkefi_largest_magnitude(
            numbers: *const f64,
            len: usize,
            largest: &mut [f64; 1],
        ) -> usize;
    }
}

/// A refusal's number or 0, how many roots were found, and the budget that is left.
#[derive(Clone, Copy, Debug, PartialEq, Eq)]
pub struct Search {
    pub refusal: u32,
    pub count: usize,
    pub budget: usize,
}

#[inline]
pub fn evaluate(coefficients: &[f64], t: f64) -> f64 {
    // SAFETY: the slice is lent for the call, and the engine stays within its length.
    unsafe { interface::mulkefi_evaluate(coefficients.as_ptr(), coefficients.len(), t) }
}

/// Searches for roots, which go to the front of `found`.
#[inline]
pub fn roots(coefficients: &[f64], found: &mut [f64], budget: usize) -> Search {
    let mut answer = [0; 2];
    // SAFETY: all three are lent for the call, and the engine stays within their lengths.
    let refusal = unsafe {
        interface::mulkefi_roots(
            coefficients.as_ptr(),
            coefficients.len(),
            found.as_mut_ptr(),
            found.len(),
            budget,
            &mut answer,
        )
    };
    let [count, left] = answer.map(|number| number as usize);
    Search { refusal, count, budget: left }
}

/// How many finite numbers a list begins with. Where all are, the largest magnitude goes to
/// `largest`, which otherwise is left.
#[inline]
pub fn largest_magnitude(numbers: &[f64], largest: &mut [f64; 1]) -> usize {
    // SAFETY: both are lent for the call, and the engine stays within their lengths.
    unsafe { interface::mulkefi_largest_magnitude(numbers.as_ptr(), numbers.len(), largest) }
}
