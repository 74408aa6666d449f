//! Seconds and places that matter for the horizon.

use crate::draws;
use reference::elements::{value_at, Elements, Station, Window, FARTHEST, STATION_RANGES};
use reference::random::Random;
use reference::request::Request;
use reference::star::StarRequest;

/// 10^-6 degree.
const DEGREE: i64 = 1_000_000;

/// A second to ask for: an end of ±10,800 or of the window, next to one, 0, any, or outside ±10,800.
pub fn second(random: &mut Random, window: Option<Window>) -> i64 {
    let Window { first, last } = window.unwrap_or(Window { first: -FARTHEST, last: FARTHEST });
    match random.below(16) {
        0 => -FARTHEST,
        1 => FARTHEST,
        2 => first,
        3 => last,
        4 => 0,
        5 => random.within(&(-3..=3)),
        _ => draws::second(random),
    }
}

/// An angle as given, or off by few units of 10^-6 degree, or by up to a degree.
fn about(random: &mut Random, angle: i64) -> i64 {
    match random.below(4) {
        0 => angle,
        1 => angle + random.within(&(-3..=3)),
        2 => angle + random.within(&(-200_000..=200_000)),
        _ => angle + random.within(&(-DEGREE..=DEGREE)),
    }
}

/// A station where the Sun or the star is arranged to be at a second: overhead, straight down, rising, setting, on the
/// meridian; or a pole or the equator. `mu` and `d` are the hour angle and declination at that second.
fn placed(random: &mut Random, station: Station, mu: i64, d: i64) -> Station {
    let mut station = station;
    let hour_angle = [0, 180, 90, -90, 45, 0, 180, 0][random.below(8) as usize] * DEGREE;
    let turned_back = station.longitude - station.east();
    let east = about(random, hour_angle) - mu + turned_back;
    station.longitude = (east + 180 * DEGREE).rem_euclid(360 * DEGREE) - 180 * DEGREE;
    let latitude = match random.below(8) {
        0 | 1 => d,
        2 => -d,
        3 => 0,
        4 => 90 * DEGREE,
        5 => -90 * DEGREE,
        // the circle on which it grazes the horizon at noon or midnight
        6 => (90 * DEGREE - d.abs()) * [1, -1][random.below(2) as usize],
        _ => station.latitude,
    };
    let limits = &STATION_RANGES[1];
    station.latitude = about(random, latitude).clamp(*limits.start(), *limits.end());
    station
}

/// A request of an eclipse within its limits with its station so placed, and that second.
pub fn eclipse(random: &mut Random) -> (Request, i64) {
    let arranged = draws::arranged(random);
    let mut request = draws::in_window(random, arranged);
    let second = random.within(&(-FARTHEST..=FARTHEST));
    let Elements { mu, d, .. } = &request.elements;
    let (mu, d) = (value_at(mu, second), value_at(d, second));
    request.station = placed(random, request.station, mu, d);
    (request, second)
}

/// The same of a star.
pub fn star(random: &mut Random) -> (StarRequest, i64) {
    let mut request = crate::stars::within(random);
    let second = random.within(&(-FARTHEST..=FARTHEST));
    let mu = value_at(&request.elements.mu, second);
    request.station = placed(random, request.station, mu, request.elements.d0);
    (request, second)
}
