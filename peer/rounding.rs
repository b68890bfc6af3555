//! Quotients as whole numbers.

/// The quotient to the whole number at or below it.
pub fn floor(numerator: i64, denominator: i64) -> i64 {
    numerator.div_euclid(denominator)
}

/// The quotient to the nearest whole number, a half going up.
pub fn nearest(numerator: i64, denominator: i64) -> i64 {
    floor(2 * numerator + denominator, 2 * denominator)
}
