//! The 22 Besselian elements, the station, the window of seconds, and their ranges.

use crate::numbers::near;
use crate::refusal::Refusal;
use std::ops::RangeInclusive;

/// The 22 elements. Coefficients are per hour, the constant first.
#[derive(Clone, Copy, PartialEq, Eq, Debug)]
pub struct Elements {
    /// x of the shadow axis in the fundamental plane, east, lengths.
    pub x: [i64; 4],
    /// y of the shadow axis, north, lengths.
    pub y: [i64; 4],
    /// declination of the shadow axis, 10^-6 degree.
    pub d: [i64; 3],
    /// radius of the penumbra in the fundamental plane, lengths.
    pub l1: [i64; 3],
    /// radius of the central shadow, below zero when total, lengths.
    pub l2: [i64; 3],
    /// hour angle of the shadow axis, 10^-6 degree.
    pub mu: [i64; 3],
    /// tangent of the penumbral cone's half-angle, 10^-8.
    pub tan_f1: i64,
    /// tangent of the central cone's half-angle, 10^-8.
    pub tan_f2: i64,
}

/// The range of each of the 22 fields, ends included.
pub const ELEMENT_RANGES: [RangeInclusive<i64>; 22] = [
    -200_000_000..=200_000_000,
    -100_000_000..=100_000_000,
    -100_000..=100_000,
    -10_000..=10_000,
    -200_000_000..=200_000_000,
    -100_000_000..=100_000_000,
    -100_000..=100_000,
    -10_000..=10_000,
    -25_000_000..=25_000_000,
    -20_000..=20_000,
    -100..=100,
    50_000_000..=60_000_000,
    -100_000..=100_000,
    -10_000..=10_000,
    -5_000_000..=5_000_000,
    -100_000..=100_000,
    -10_000..=10_000,
    0..=359_999_999,
    14_900_000..=15_100_000,
    -100..=100,
    400_000..=500_000,
    400_000..=500_000,
];

impl Elements {
    /// From the 22 numbers in document 01's order.
    pub fn from_fields(fields: [i64; 22]) -> Elements {
        let [x0, x1, x2, x3, y0, y1, y2, y3, d0, d1, d2, rest @ ..] = fields;
        let [a0, a1, a2, b0, b1, b2, m0, m1, m2, tan_f1, tan_f2] = rest;
        Elements {
            x: [x0, x1, x2, x3],
            y: [y0, y1, y2, y3],
            d: [d0, d1, d2],
            l1: [a0, a1, a2],
            l2: [b0, b1, b2],
            mu: [m0, m1, m2],
            tan_f1,
            tan_f2,
        }
    }

    /// The 22 numbers in document 01's order.
    pub fn fields(&self) -> [i64; 22] {
        let mut fields = [0; 22];
        let all = (self.x.iter().chain(&self.y).chain(&self.d).chain(&self.l1))
            .chain(&self.l2)
            .chain(&self.mu)
            .chain([&self.tan_f1, &self.tan_f2]);
        for (field, value) in fields.iter_mut().zip(all) {
            *field = *value;
        }
        fields
    }

    /// Refused as 2 with the first field outside its range.
    pub fn check(&self) -> Result<(), Refusal> {
        match first_outside(&self.fields(), &ELEMENT_RANGES) {
            Some(field) => Err(Refusal::Element(field)),
            None => Ok(()),
        }
    }
}

/// Where the observer stands.
#[derive(Clone, Copy, PartialEq, Eq, Debug)]
pub struct Station {
    /// number of the station, 1 to 999.
    pub number: i64,
    /// geodetic latitude, 10^-6 degree, ±90,000,000.
    pub latitude: i64,
    /// longitude, east positive, 10^-6 degree, ±180,000,000.
    pub longitude: i64,
    /// height, metres, -500 to 9,000.
    pub height: i64,
    /// ΔT, hundredths of a second, -10,000 to 20,000: document 02, wish 1.
    pub delta_t: i64,
}

/// The range of each station field, ends included.
pub const STATION_RANGES: [RangeInclusive<i64>; 5] =
    [1..=999, -90_000_000..=90_000_000, -180_000_000..=180_000_000, -500..=9_000, -10_000..=20_000];

impl Station {
    /// From its numbers in their order.
    pub fn from_fields([number, latitude, longitude, height, delta_t]: [i64; 5]) -> Station {
        Station { number, latitude, longitude, height, delta_t }
    }

    pub fn fields(&self) -> [i64; 5] {
        [self.number, self.latitude, self.longitude, self.height, self.delta_t]
    }

    /// How far east the station is of where μ is counted from: the longitude, less the Earth's turn in ΔT.
    pub fn east(&self) -> i64 {
        self.longitude - near(417_807 * self.delta_t, 10_000)
    }

    /// Refused as 3 with the first field outside its range.
    pub fn check(&self) -> Result<(), Refusal> {
        match first_outside(&self.fields(), &STATION_RANGES) {
            Some(field) => Err(Refusal::Station(field)),
            None => Ok(()),
        }
    }
}

/// The farthest second from the reference instant.
pub const FARTHEST: i64 = 10_800;

/// The seconds asked for, both ends included; -10,800 ≤ first ≤ last ≤ 10,800.
#[derive(Clone, Copy, PartialEq, Eq, Debug)]
pub struct Window {
    pub first: i64,
    pub last: i64,
}

impl Window {
    /// Refused as 1 unless it lies in its range.
    pub fn check(&self) -> Result<(), Refusal> {
        if -FARTHEST <= self.first && self.first <= self.last && self.last <= FARTHEST {
            Ok(())
        } else {
            Err(Refusal::Window)
        }
    }

    pub fn seconds(&self) -> RangeInclusive<i64> {
        self.first..=self.last
    }
}

/// The first field outside its range.
pub fn first_outside(fields: &[i64], ranges: &[RangeInclusive<i64>]) -> Option<usize> {
    fields.iter().zip(ranges).position(|(field, range)| !range.contains(field))
}

/// The value at a second of coefficients per hour: from the highest, multiply by the second, near over
/// 3600, add the next lower.
#[inline]
pub fn value_at<const N: usize>(coefficients: &[i64; N], second: i64) -> i64 {
    let mut value = coefficients[N - 1];
    for lower in coefficients[..N - 1].iter().rev() {
        value = near(value * second, 3600) + lower;
    }
    value
}
