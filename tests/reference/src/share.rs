//! Document 02, wish 4: how much of the Sun is gone.

use crate::numbers::root;
use crate::shadow::Shadow;

/// Strips across the line of centres.
const STRIPS: i64 = 1_000;

/// What a disc covers of a line across, on one side: root(radius² - away²), nothing off the disc.
fn half_chord(radius: i64, away: i64) -> i64 {
    match radius * radius - away * away {
        square @ 0.. => root(square),
        _ => 0,
    }
}

/// The covered share of the Sun's disc in millionths, rounded down, of L1, L2 with its sign, and M.
pub fn share(l1: i64, l2: i64, m: i64) -> i64 {
    let sun = (l1 + l2).div_euclid(2);
    let moon = (l1 - l2).div_euclid(2);
    let between = root(m);
    let (mut covered, mut whole) = (0, 0);
    for strip in 0..STRIPS {
        let offset = (2 * strip + 1) * sun / STRIPS - sun;
        let chord = half_chord(sun, offset);
        covered += chord.min(half_chord(moon, offset - between));
        whole += chord;
    }
    1_000_000 * covered / whole
}

impl Shadow {
    /// The covered share of the Sun's disc, millionths.
    pub fn share(&self) -> i64 {
        share(self.l1, self.l2, self.m())
    }
}
