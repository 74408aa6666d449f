//! The station's place on Krasovsky's spheroid.

use crate::numbers::{near, root};
use crate::sine::{sine_cosine, UNIT};

/// Equatorial radius in metres.
const RADIUS: i64 = 6_378_245;
/// The square of the axes' ratio for a flattening of 1:298.3.
const E: i64 = 99_330_658;

/// The station in cylindrical coordinates, lengths.
#[derive(Clone, Copy, PartialEq, Eq, Debug)]
pub struct Place {
    /// R, distance from the Earth's axis (ρ cos φ').
    pub r: i64,
    /// P, distance north of the equator's plane (ρ sin φ').
    pub p: i64,
}

/// The place at a geodetic latitude within ±90 degrees and a height within -500 to 9,000 m.
pub fn place(latitude: i64, height: i64) -> Place {
    let (s, c) = sine_cosine(latitude);
    let w = root(c * c + near(s * E, UNIT) * s);
    let big_c = near(10_000_000_000_000_000, w);
    let z = near(big_c * E, UNIT);
    let h = near(height * UNIT, RADIUS);
    Place { r: near((big_c + h) * c, UNIT), p: near((z + h) * s, UNIT) }
}
