//! Star requests to try: natural, at random, at the limits, near the cylinder's edge, along it, through its axis, slow.

use crate::axis::{beyond, put, put_along_edge, put_near_edge, slow_down, Axis};
use crate::elements::{Station, Window};
use crate::random::Random;
use crate::sample::{field, place_and_second, window_about, Manner};
use crate::shadow::GUARD;
use crate::star::{star_ranges, Cylinder, StarElements, StarRequest, RADII};
use std::f64::consts::TAU;

/// At the north pole, which does not turn: the axis comes from the west, 10,000 units a second, and is over it at
/// second 0, so that the edge is there at -2725 and 2725.
pub fn over_the_pole() -> StarRequest {
    StarRequest {
        elements: StarElements::from_fields([0, 36_000_000, 0, 0, 99_664_768, 0, 0, 0, 0, 0, 15_000_000, 0]),
        radius: 27_250_000,
        station: Station { number: 7, latitude: 90_000_000, longitude: 0, height: 0, delta_t: 0 },
        window: Window { first: -6000, last: 6000 },
        guard: GUARD,
    }
}

/// A request within its ranges. The window is one second.
pub fn draw(random: &mut Random, manner: Manner) -> StarRequest {
    let ranges = star_ranges();
    let mut fields = ranges.clone().map(|range| field(random, &range, manner));
    let mut radius = field(random, &RADII, manner);
    if let Manner::Natural = manner {
        // The Moon's speed, the star's declination and the time of day are anything usual; its radius is one of the
        // books'.
        fields[0] = random.within(&(-60_000_000..=60_000_000));
        fields[1] = random.within(&(45_000_000..=60_000_000));
        fields[4] = random.within(&(-100_000_000..=100_000_000));
        fields[5] = random.within(&(-30_000_000..=30_000_000));
        fields[8] = random.within(&(-29_000_000..=29_000_000));
        fields[9] = random.within(&ranges[9]);
        radius = [27_227_400, 27_249_530, 27_253_000][random.below(3) as usize];
    }
    let (station, guard, second) = place_and_second(random);
    StarRequest {
        elements: StarElements::from_fields(fields),
        radius,
        station,
        window: Window { first: second, last: second },
        guard,
    }
}

/// The cylinder of a request within its ranges.
pub fn shadow(request: &StarRequest, second: i64) -> Cylinder {
    request.check().expect("within its ranges").shadow(second)
}

impl Axis for StarRequest {
    type Phase = ();

    fn apart(&self, second: i64) -> (i64, i64) {
        let now = shadow(self, second);
        (now.u, now.v)
    }

    fn l(&self, _: i64, (): ()) -> i64 {
        self.radius
    }

    fn guard(&self) -> i64 {
        self.guard
    }

    fn coefficients(&mut self) -> [&mut [i64; 4]; 2] {
        [&mut self.elements.x, &mut self.elements.y]
    }
}

/// How the cylinder passes the station at the second that the window is.
#[derive(Clone, Copy, PartialEq, Eq)]
pub enum Pass {
    AsDrawn,
    NearEdge,
    /// Near the edge and slow.
    Slow,
    /// Near the edge and slow, at a pole, where the station hardly turns.
    AtPole,
    AlongEdge,
    /// The axis goes through the station or close by.
    Central,
}

/// A request within its limits, its window the one second at which it was arranged so.
pub fn arranged(random: &mut Random, manner: Manner, pass: Pass) -> StarRequest {
    let mut request = draw(random, manner);
    let second = request.window.first;
    let rates = |random: &mut Random, most: i64| [0; 2].map(|_: i64| random.within(&(-most..=most)));
    match pass {
        Pass::AsDrawn => {}
        Pass::NearEdge => put_near_edge(random, &mut request, second, ()),
        Pass::Slow => {
            let most = [0, 10_000, 1_000_000][random.below(3) as usize];
            let [u_rate, v_rate] = rates(random, most);
            slow_down(&mut request, second, u_rate, v_rate);
            put_near_edge(random, &mut request, second, ());
        }
        Pass::AtPole => {
            let latitude = random.within(&(89_999_000..=90_000_000));
            request.station.latitude = if random.once_in(2) { latitude } else { -latitude };
            slow_down(&mut request, second, 0, 0);
            put_near_edge(random, &mut request, second, ());
        }
        Pass::AlongEdge => {
            if random.once_in(2) {
                let [u_rate, v_rate] = rates(random, 20_000_000);
                slow_down(&mut request, second, u_rate, v_rate);
            }
            let beyond = beyond(random, request.guard);
            put_along_edge(&mut request, second, (), beyond);
        }
        Pass::Central => {
            let angle = random.below(1 << 20) as f64 / (1 << 20) as f64 * TAU;
            let close = if random.once_in(2) { 0 } else { random.within(&(0..=40)) };
            let inward = close - request.radius;
            put(&mut request, second, (), inward, angle);
        }
    }
    request
}

/// A request within its ranges, for which rounding matters; with a window about its second, mostly short.
pub fn difficult(random: &mut Random) -> StarRequest {
    let manner = match random.below(4) {
        0 => Manner::Anywhere,
        1 | 2 => Manner::AtLimits,
        _ => Manner::Natural,
    };
    let pass = match random.below(20) {
        0 => Pass::AsDrawn,
        1..=9 => Pass::NearEdge,
        10..=13 => Pass::Slow,
        14 => Pass::AtPole,
        15..=18 => Pass::AlongEdge,
        _ => Pass::Central,
    };
    let request = arranged(random, manner, pass);
    let slow = matches!(pass, Pass::Slow | Pass::AtPole | Pass::AlongEdge);
    StarRequest { window: window_about(random, request.window.first, slow), ..request }
}
