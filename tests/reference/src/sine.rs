//! Sine and cosine of any angle in 10^-6 degree, in units of 10^-8.

use crate::numbers::near;
use crate::sine_table::S;

/// 1 in units of 10^-8.
pub const UNIT: i64 = 100_000_000;
/// 90 degrees.
pub const QUARTER: i64 = 90_000_000;
/// 360 degrees.
pub const TURN: i64 = 4 * QUARTER;
/// A tenth of a degree, the step of the table.
const STEP: i64 = 100_000;

/// The sine of an angle from 0 to 90 degrees, both included.
#[inline]
fn first_quadrant(angle: i64) -> i64 {
    let k = (angle / STEP) as usize;
    let b = angle % STEP;
    let r = near(b * 17_453_293, 10_000_000);
    let w = near(r * r, 2 * UNIT);
    let sine = S[k] + near(S[900 - k] * r - S[k] * w, UNIT);
    sine.min(UNIT)
}

/// The sine and the cosine of any angle.
#[inline]
pub fn sine_cosine(angle: i64) -> (i64, i64) {
    let angle = angle.rem_euclid(TURN);
    let past = angle % QUARTER;
    let (s, c) = (first_quadrant(past), first_quadrant(QUARTER - past));
    match angle / QUARTER {
        0 => (s, c),
        1 => (c, -s),
        2 => (-s, -c),
        _ => (-c, s),
    }
}

/// The sine of any angle.
pub fn sine(angle: i64) -> i64 {
    sine_cosine(angle).0
}

/// The cosine of any angle.
pub fn cosine(angle: i64) -> i64 {
    sine_cosine(angle).1
}
