//! Measures of a shape and crossings of two. A shape goes over as its kind (0 line, 1 arc,
//! 2 circle) and six numbers: a line's ends, an arc's centre and ends, a circle's centre and
//! radius.

// SAFETY: each reads the six numbers and writes the buffer that it is lent, and keeps neither.
unsafe extern "C" {
    #[link_name = "mulkefi_param"]
    pub safe fn param(kind: u32, numbers: &[f64; 6], x: f64, y: f64) -> f64;
    #[link_name = "mulkefi_dist"]
    pub safe fn dist(kind: u32, numbers: &[f64; 6], x: f64, y: f64) -> f64;
    #[link_name = "mulkefi_is_full"]
    pub safe fn is_full(kind: u32, numbers: &[f64; 6]) -> bool;
    #[link_name = "mulkefi_range"]
    pub safe fn range(kind: u32, numbers: &[f64; 6], out: &mut [f64; 2]);
    #[link_name = "mulkefi_point"]
    pub safe fn point(kind: u32, numbers: &[f64; 6], t: f64, out: &mut [f64; 2]);
    #[link_name = "mulkefi_project"]
    pub safe fn project(kind: u32, numbers: &[f64; 6], x: f64, y: f64, out: &mut [f64; 2]);
    /// Answers how many crossings there are; their coordinates go to the front of the buffer.
    #[link_name = "mulkefi_crossings"]
    pub safe fn crossings(
        kind: u32,
        numbers: &[f64; 6],
        other_kind: u32,
        other_numbers: &[f64; 6],
        out: &mut [f64; 4],
    ) -> u32;
}
