//! What the original crate's tests use of a crate that is not published.

/// Whether two numbers differ by less than the least step at 1.
pub fn approximately_equal(a: f64, b: f64) -> bool {
    (a - b).abs() < f64::EPSILON
}
