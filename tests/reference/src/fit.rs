//! Document 02, wish 14: whether a proposed cubic may stand for seven tabulated hourly values.

use crate::elements::{value_at, ELEMENT_RANGES};
use crate::refusal::Refusal;

/// The hours of the tabulated values.
const HOURS: [i64; 7] = [-3, -2, -1, 0, 1, 2, 3];

/// Accepts a fit, or refuses it: 10 for other numbers of coefficients and values, 18, 2, 17.
pub fn judge(coefficients: &[i64], tabulated: &[i64], tolerance: i64) -> Result<(), Refusal> {
    let coefficients: &[i64; 4] = coefficients.try_into().map_err(|_| Refusal::Shape)?;
    let tabulated: &[i64; 7] = tabulated.try_into().map_err(|_| Refusal::Shape)?;
    if !(0..=1_000).contains(&tolerance) {
        return Err(Refusal::Given(0));
    }
    let billion = 1_000_000_000;
    if let Some(at) = tabulated.iter().position(|value| !(-billion..=billion).contains(value)) {
        return Err(Refusal::Given(1 + at));
    }
    if let Some(at) = (0..4).find(|&at| !ELEMENT_RANGES[at].contains(&coefficients[at])) {
        return Err(Refusal::Element(at));
    }
    let bad = |at: &usize| (value_at(coefficients, 3600 * HOURS[*at]) - tabulated[*at]).abs() > tolerance;
    match (0..7).find(bad) {
        Some(at) => Err(Refusal::Hour(at)),
        None => Ok(()),
    }
}
