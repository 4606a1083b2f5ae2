//! Numbers: root, magnitude, sign, the larger of two, order, and the turn of a vector.

// SAFETY: each takes numbers and answers one; none touches memory of the caller's.
unsafe extern "C" {
    #[link_name = "mulkefi_sqrt"]
    pub safe fn sqrt(x: f64) -> f64;
    #[link_name = "mulkefi_abs"]
    pub safe fn abs(x: f64) -> f64;
    #[link_name = "mulkefi_signum"]
    pub safe fn signum(x: f64) -> f64;
    #[link_name = "mulkefi_max"]
    pub safe fn max(a: f64, b: f64) -> f64;
    /// Whether the first stands before the second in the total order.
    #[link_name = "mulkefi_total_before"]
    pub safe fn total_before(a: f64, b: f64) -> bool;
    #[link_name = "mulkefi_turn"]
    pub safe fn turn(x: f64, y: f64) -> f64;
}
