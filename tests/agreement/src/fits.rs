//! Proposed fits to try.

use reference::elements::{value_at, ELEMENT_RANGES};
use reference::random::Random;

/// Coefficients, tabulated values and the tolerance.
pub type Fit = (Vec<i64>, Vec<i64>, i64);

/// Coefficients in the ranges of x, often at their ends, and tabulated values that are off by at most the tolerance,
/// often by exactly that. Half of them with up to three numbers changed, to the ends of their ranges, one beyond or
/// any number; some with a list that is longer or shorter.
pub fn draw(random: &mut Random) -> Fit {
    let mut coefficients = [0, 1, 2, 3].map(|k| match random.below(4) {
        0 => *ELEMENT_RANGES[k].start(),
        1 => *ELEMENT_RANGES[k].end(),
        _ => random.within(&ELEMENT_RANGES[k]),
    });
    let mut tolerance = match random.below(4) {
        0 => 0,
        1 => 1_000,
        _ => random.within(&(0..=1_000)),
    };
    let mut tabulated = [-3, -2, -1, 0, 1, 2, 3].map(|hour| {
        let off = match random.below(4) {
            0 => -tolerance,
            1 => tolerance,
            _ => random.within(&(-tolerance..=tolerance)),
        };
        value_at(&coefficients, 3600 * hour) + off
    });
    if random.once_in(2) {
        for _ in 0..1 + random.below(3) {
            let place = random.below(12) as usize;
            let (number, most) = match place {
                0..=3 => (&mut coefficients[place], *ELEMENT_RANGES[place].end()),
                4..=10 => (&mut tabulated[place - 4], 1_000_000_000),
                _ => (&mut tolerance, 1_000),
            };
            *number = match random.below(8) {
                0 => -most,
                1 => most,
                2 => -most - 1,
                3 => most + 1,
                4 => [i64::MIN, i64::MAX, -1, 0][random.below(4) as usize],
                5 => random.bits() as i64,
                _ => *number + random.within(&(-2..=2)),
            };
        }
    }
    let (mut coefficients, mut tabulated) = (coefficients.to_vec(), tabulated.to_vec());
    if random.once_in(32) {
        let length = random.below(9) as usize;
        let list = if random.once_in(2) { &mut coefficients } else { &mut tabulated };
        list.resize(length, 0);
    }
    (coefficients, tabulated, tolerance)
}
