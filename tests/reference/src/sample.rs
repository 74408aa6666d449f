//! Requests to try: from the books, at random, at the limits, near the cone's edge, slow.

pub use crate::axis::{beyond, put, put_along_edge, put_near_edge, slow_down, Axis};
use crate::elements::{Elements, Station, Window, ELEMENT_RANGES, FARTHEST, STATION_RANGES};
use crate::random::Random;
use crate::request::Request;
use crate::shadow::{Phase, Shadow, GUARD, GUARDS};
use std::ops::RangeInclusive;

/// The request of document 01's hand-worked sheet.
pub fn hand_worked() -> Request {
    let mut fields = [0; 22];
    fields[1] = 36_000_000;
    fields[4] = 99_664_768;
    fields[11] = 54_000_000;
    fields[14] = -1_000_000;
    fields[18] = 15_000_000;
    fields[20] = 460_000;
    fields[21] = 458_000;
    Request {
        elements: Elements::from_fields(fields),
        station: Station { number: 7, latitude: 90_000_000, longitude: 0, height: 0, delta_t: 0 },
        window: Window { first: -6000, last: 6000 },
        guard: GUARD,
        share: false,
    }
}

/// The eclipse of 30 June 1954 as seen from Moscow, partial.
pub fn moscow_1954() -> Request {
    Request::from_bytes(include_bytes!("../tests/data/moscow1954_hourly.bin")).expect("a whole request")
}

/// The eclipse of 30 June 1954 as seen from Kiev, total.
pub fn kiev_1954() -> Request {
    Request::from_bytes(include_bytes!("../tests/data/kiev1954.bin")).expect("a whole request")
}

/// How a drawn field sits in its range.
#[derive(Clone, Copy)]
pub enum Manner {
    /// Anywhere.
    Anywhere,
    /// Mostly at an end of the range or next to it, or at 0.
    AtLimits,
    /// As eclipses are: higher coefficients small.
    Natural,
}

pub(crate) fn field(random: &mut Random, range: &RangeInclusive<i64>, manner: Manner) -> i64 {
    let (least, most) = (*range.start(), *range.end());
    let drawn = random.within(range);
    match manner {
        Manner::Anywhere => drawn,
        Manner::AtLimits => match random.below(8) {
            0 | 1 => least,
            2 | 3 => most,
            4 => least + 1,
            5 => most - 1,
            6 => 0.max(least),
            _ => drawn,
        },
        Manner::Natural => (least + most) / 2 + (drawn - (least + most) / 2) / 10,
    }
}

/// A request within its ranges. The window is one second.
pub fn draw(random: &mut Random, manner: Manner) -> Request {
    let mut fields = ELEMENT_RANGES.map(|range| field(random, &range, manner));
    if let Manner::Natural = manner {
        // The shadow's speed, the sizes of the cones and the time of day are anything usual.
        fields[0] = random.within(&(-60_000_000..=60_000_000));
        fields[1] = random.within(&(45_000_000..=60_000_000));
        fields[4] = random.within(&(-100_000_000..=100_000_000));
        fields[5] = random.within(&(-30_000_000..=30_000_000));
        fields[8] = random.within(&(-23_500_000..=23_500_000));
        fields[14] = random.within(&(-1_500_000..=2_000_000));
        fields[17] = random.within(&ELEMENT_RANGES[17]);
    }
    let (station, guard, second) = place_and_second(random);
    Request {
        elements: Elements::from_fields(fields),
        station,
        window: Window { first: second, last: second },
        guard,
        share: false,
    }
}

/// A station, a guard and a second.
pub(crate) fn place_and_second(random: &mut Random) -> (Station, i64, i64) {
    let place_manner = if random.once_in(2) { Manner::AtLimits } else { Manner::Anywhere };
    let [number, latitude, longitude, height] =
        [0, 1, 2, 3].map(|k| field(random, &STATION_RANGES[k], place_manner));
    // ΔT and the guard are drawn separately, by the other numbers, and are 0 and 16 every other time: what
    // was drawn before they came stays.
    let mut own = Random::new((number ^ latitude << 10 ^ longitude << 20 ^ height << 40) as u64);
    let delta_t = if own.once_in(2) { 0 } else { field(&mut own, &STATION_RANGES[4], place_manner) };
    let station = Station { number, latitude, longitude, height, delta_t };
    let guard = guard(&mut own);
    let seconds = -FARTHEST..=FARTHEST;
    let second_manner = if random.once_in(4) { Manner::AtLimits } else { Manner::Anywhere };
    (station, guard, field(random, &seconds, second_manner))
}

/// That of document 01 every other time, else at an end of the range or next to it, or anywhere.
fn guard(random: &mut Random) -> i64 {
    match random.below(12) {
        0 => 17,
        1 => 100,
        2 => 999,
        3 | 4 => 1_000,
        5 => random.within(&GUARDS),
        _ => GUARD,
    }
}

/// The shadow of a request within its ranges.
pub fn shadow(request: &Request, second: i64) -> Shadow {
    request.check().expect("within its ranges").shadow(second)
}

impl Axis for Request {
    type Phase = Phase;

    fn apart(&self, second: i64) -> (i64, i64) {
        let now = shadow(self, second);
        (now.u, now.v)
    }

    fn l(&self, second: i64, phase: Phase) -> i64 {
        shadow(self, second).l(phase)
    }

    fn guard(&self) -> i64 {
        self.guard
    }

    fn coefficients(&mut self) -> [&mut [i64; 4]; 2] {
        [&mut self.elements.x, &mut self.elements.y]
    }
}

/// Make the central cone come to a point near the station at a second: L2 becomes `size`, if l2 can change that far.
pub fn shrink_central(request: &mut Request, second: i64, size: i64) {
    let constant = request.elements.l2[0] - shadow(request, second).l2 + size;
    if ELEMENT_RANGES[14].contains(&constant) {
        request.elements.l2[0] = constant;
    }
}

/// A request within its ranges, for which rounding matters: near the cone's edge, along it, almost standing still, at
/// the point of the central cone; with a window about that second, mostly short.
pub fn difficult(random: &mut Random) -> Request {
    let manner = match random.below(4) {
        0 => Manner::Anywhere,
        1 | 2 => Manner::AtLimits,
        _ => Manner::Natural,
    };
    let mut request = draw(random, manner);
    let second = request.window.first;
    let phase = [Phase::Penumbra, Phase::Central][random.below(2) as usize];
    let sort = random.below(20);
    match sort {
        // As drawn.
        0 | 1 => {}
        // Near the edge.
        2..=9 => put_near_edge(random, &mut request, second, phase),
        // Near the edge and slow.
        10..=13 => {
            let most = [0, 10_000, 1_000_000][random.below(3) as usize];
            let (u_rate, v_rate) = (random.within(&(-most..=most)), random.within(&(-most..=most)));
            slow_down(&mut request, second, u_rate, v_rate);
            put_near_edge(random, &mut request, second, phase);
        }
        // Slow at a pole, where the station hardly turns.
        14 => {
            let latitude = random.within(&(89_999_000..=90_000_000));
            request.station.latitude = if random.once_in(2) { latitude } else { -latitude };
            slow_down(&mut request, second, 0, 0);
            put_near_edge(random, &mut request, second, phase);
        }
        // Along the edge, fast or slow.
        15..=17 => {
            if random.once_in(2) {
                let most = 20_000_000;
                let (u_rate, v_rate) = (random.within(&(-most..=most)), random.within(&(-most..=most)));
                slow_down(&mut request, second, u_rate, v_rate);
            }
            let beyond = beyond(random, request.guard);
            put_along_edge(&mut request, second, phase, beyond);
        }
        // Near the point of the central cone.
        _ => {
            let size = beyond(random, request.guard);
            shrink_central(&mut request, second, size);
            put_near_edge(random, &mut request, second, Phase::Central);
        }
    }
    request.window = window_about(random, second, matches!(sort, 10..=17));
    request
}

/// A window about a second, mostly short.
pub(crate) fn window_about(random: &mut Random, second: i64, slow: bool) -> Window {
    let width = match random.below(4000) {
        0 => 2 * FARTHEST,
        1..=20 => 300,
        21..=200 if slow => 100,
        201..=1500 => 12,
        _ => 2,
    };
    Window {
        first: (second - random.within(&(0..=width))).max(-FARTHEST),
        last: (second + random.within(&(0..=width))).min(FARTHEST),
    }
}
