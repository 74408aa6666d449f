//! Star requests to try.

use crate::draws::{other_shape, past, station_outside, window, window_outside};
use reference::random::Random;
use reference::sample::Manner;
use reference::sample_star::{arranged, Pass};
use reference::shadow::GUARDS;
use reference::star::{star_ranges, StarElements, StarRequest, RADII, STAR_KIND_PLACES};

/// One or several numbers just or far outside their limits.
pub fn outside(random: &mut Random, request: &mut StarRequest) {
    for _ in 0..1 + random.below(2) {
        match random.below(6) {
            0 => request.window = window_outside(random),
            1 => request.guard = past(random, &GUARDS).clamp(0, 65_535),
            2 | 3 => {
                let field = random.below(12) as usize;
                let mut fields = request.elements.fields();
                fields[field] = past(random, &star_ranges()[field]);
                request.elements = StarElements::from_fields(fields);
            }
            4 => request.radius = past(random, &RADII),
            _ => request.station = station_outside(random, &request.station),
        }
    }
}

/// A request within its limits, in a window about the second at which it was arranged.
pub fn within(random: &mut Random) -> StarRequest {
    let manners = [Manner::Anywhere, Manner::AtLimits, Manner::Natural, Manner::Natural];
    let manner = manners[random.below(4) as usize];
    let pass = match random.below(10) {
        0 => Pass::AsDrawn,
        1..=3 => Pass::NearEdge,
        4 | 5 => Pass::Slow,
        6 => Pass::AtPole,
        7 | 8 => Pass::AlongEdge,
        _ => Pass::Central,
    };
    let request = arranged(random, manner, pass);
    StarRequest { window: window(random, request.window.first), ..request }
}

/// The bytes of a request: within the limits, outside them, or of another shape.
pub fn request(random: &mut Random) -> Vec<u8> {
    let mut request = within(random);
    if random.once_in(6) {
        outside(random, &mut request);
    }
    let mut bytes = request.to_bytes().expect("numbers that have room").to_vec();
    if random.once_in(16) {
        other_shape(random, &mut bytes, STAR_KIND_PLACES);
    }
    bytes
}
