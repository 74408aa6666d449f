//! Document 02, wish 7: a star behind the Moon. The shadow is a cylinder, so its radius at the station is the Moon's
//! own.

use crate::elements::{first_outside, value_at, Station, Window, ELEMENT_RANGES, FARTHEST};
use crate::place::{place, Place};
use crate::refusal::Refusal;
use crate::request::{phase_records, request_bytes, signed, station_and_window, stored};
use crate::shadow::{direction, state, Seen, State, Turned, GUARDS};
use crate::sheet::{bytes_of, copy_into, Record, CLOSEST, END, ENTER_STAR, HEAD};
use std::ops::RangeInclusive;

/// The twelve elements of an occultation. Coefficients are per hour, the constant first.
#[derive(Clone, Copy, PartialEq, Eq, Debug)]
pub struct StarElements {
    /// x of the Moon's centre in the fundamental plane, east, lengths.
    pub x: [i64; 4],
    /// y of it, north, lengths.
    pub y: [i64; 4],
    /// declination of the star, 10^-6 degree; it stays the same.
    pub d0: i64,
    /// hour angle of the star, 10^-6 degree.
    pub mu: [i64; 3],
}

/// Where μ stands among the 22 elements of an eclipse.
const MU: usize = 17;

/// The range of each of the twelve numbers, ends included: x, y and μ as in an eclipse, d0 wider.
pub fn star_ranges() -> [RangeInclusive<i64>; 12] {
    std::array::from_fn(|field| match field {
        0..=7 => ELEMENT_RANGES[field].clone(),
        8 => -30_000_000..=30_000_000,
        _ => ELEMENT_RANGES[MU + field - 9].clone(),
    })
}

impl StarElements {
    /// From the twelve numbers in their order.
    pub fn from_fields(fields: [i64; 12]) -> StarElements {
        let [x0, x1, x2, x3, y0, y1, y2, y3, d0, m0, m1, m2] = fields;
        StarElements { x: [x0, x1, x2, x3], y: [y0, y1, y2, y3], d0, mu: [m0, m1, m2] }
    }

    /// The twelve numbers in their order.
    pub fn fields(&self) -> [i64; 12] {
        let ([x0, x1, x2, x3], [y0, y1, y2, y3], [m0, m1, m2]) = (self.x, self.y, self.mu);
        [x0, x1, x2, x3, y0, y1, y2, y3, self.d0, m0, m1, m2]
    }
}

/// What a lunar radius may be, lengths.
pub const RADII: RangeInclusive<i64> = 27_200_000..=27_300_000;

/// What is asked for; any numbers at all.
#[derive(Clone, Copy, PartialEq, Eq, Debug)]
pub struct StarRequest {
    pub elements: StarElements,
    /// L, the Moon's radius, lengths, 27,200,000 to 27,300,000.
    pub radius: i64,
    pub station: Station,
    pub window: Window,
    /// how near to the cylinder's edge nothing is sure, units, 16 to 1,000.
    pub guard: i64,
}

/// The length of a star request in bytes.
pub const STAR_LENGTH: usize = 79;

/// Where the bytes of kind stand in it: 05, 03, 04.
pub const STAR_KIND_PLACES: [usize; 3] = [0, 53, 72];

/// The kind of its elements and radius.
pub const STAR_KIND: u8 = 5;

impl StarRequest {
    /// From exactly 79 bytes: kind 05, the twelve elements and the radius (signed, 4 bytes each); then kinds 03 and
    /// 04 as in an eclipse's; big-endian. Refused as 10 otherwise. Ranges are not looked at.
    pub fn from_bytes(bytes: &[u8]) -> Result<StarRequest, Refusal> {
        let bytes: &[u8; STAR_LENGTH] = bytes.try_into().map_err(|_| Refusal::Shape)?;
        let Some((elements, tail)) = bytes.split_last_chunk() else { return Err(Refusal::Shape) };
        if elements[0] != STAR_KIND {
            return Err(Refusal::Shape);
        }
        let (station, window, guard) = station_and_window(tail)?;
        let [radius] = signed(&elements[49..]);
        let elements = StarElements::from_fields(signed(&elements[1..]));
        Ok(StarRequest { elements, radius, station, window, guard })
    }

    /// The 79 bytes of a request, or nothing if a number does not fit in them.
    pub fn to_bytes(&self) -> Option<[u8; STAR_LENGTH]> {
        let numbers = [&self.elements.fields()[..], &[self.radius]].concat();
        let bytes = request_bytes(STAR_KIND, &numbers, &self.station, &self.window, self.guard)?;
        bytes.try_into().ok()
    }

    /// The request with its station's place, once 1, 2, 13 and 3 are past.
    pub fn check(&self) -> Result<Occultation, Refusal> {
        self.window.check()?;
        if !GUARDS.contains(&self.guard) {
            return Err(Refusal::Guard);
        }
        if let Some(field) = first_outside(&self.elements.fields(), &star_ranges()) {
            return Err(Refusal::Element(field));
        }
        if !RADII.contains(&self.radius) {
            return Err(Refusal::Radius);
        }
        self.station.check()?;
        let place = place(self.station.latitude, self.station.height);
        Ok(Occultation { request: *self, place, east: self.station.east() })
    }

    /// The five numbers of one second, in or outside the window: u, v, L, the state (0 outside, 1 inside, 2 unsure)
    /// and the direction. Refused as 1 for the second too, 2, 13 or 3.
    pub fn second(&self, second: i64) -> Result<[i64; 5], Refusal> {
        if !(-FARTHEST..=FARTHEST).contains(&second) {
            return Err(Refusal::Window);
        }
        let found = self.check()?.shadow(second);
        let state = match found.state(self.guard) {
            State::Outside => 0,
            State::Inside => 1,
            State::Unsure => 2,
        };
        Ok([found.u, found.v, found.l, state, found.direction()])
    }

    /// Write the sheet at the start of the buffer and give its length, or refuse as 1, 2, 13, 3 or 4 and leave the
    /// buffer alone.
    pub fn sheet(&self, buffer: &mut [u8]) -> Result<usize, Refusal> {
        copy_into(&bytes_of(&self.check()?.records()), buffer)
    }
}

/// A star request within its ranges.
#[derive(Clone, Copy, Debug)]
pub struct Occultation {
    request: StarRequest,
    place: Place,
    east: i64,
}

/// What the cylinder is at one second. Lengths.
#[derive(Clone, Copy, PartialEq, Eq, Debug)]
pub struct Cylinder {
    /// axis less station, east.
    pub u: i64,
    /// axis less station, north.
    pub v: i64,
    /// L, its radius.
    pub l: i64,
}

impl Cylinder {
    /// M, the square of the distance between the axis and the station.
    #[inline]
    pub fn m(&self) -> i64 {
        self.u * self.u + self.v * self.v
    }

    #[inline]
    pub fn state(&self, guard: i64) -> State {
        state(self.l, self.m(), guard)
    }

    pub fn direction(&self) -> i64 {
        direction(self.u, self.v)
    }
}

impl Occultation {
    pub fn request(&self) -> &StarRequest {
        &self.request
    }

    pub fn place(&self) -> Place {
        self.place
    }

    /// The sines and cosines of a second: d is d0 at every one.
    #[inline]
    pub fn turned(&self, second: i64) -> Turned {
        let StarElements { d0, mu, .. } = &self.request.elements;
        Turned::by(value_at(mu, second) + self.east, *d0)
    }

    /// The cylinder at a second within ±10,800.
    #[inline]
    pub fn shadow(&self, second: i64) -> Cylinder {
        let Seen { xi, eta, .. } = self.turned(second).station(self.place);
        let StarElements { x, y, .. } = &self.request.elements;
        Cylinder { u: value_at(x, second) - xi, v: value_at(y, second) - eta, l: self.request.radius }
    }

    /// The records of the request's sheet.
    pub fn records(&self) -> Vec<Record> {
        let StarRequest { window: Window { first, last }, guard, station, .. } = self.request;
        let mut states = Vec::with_capacity((last - first + 1) as usize);
        // Of equal M the earliest second stays.
        let mut closest = (i64::MAX, first);
        for second in first..=last {
            let shadow = self.shadow(second);
            states.push(shadow.state(guard));
            if shadow.m() < closest.0 {
                closest = (shadow.m(), second);
            }
        }
        let (_, closest) = closest;
        let head = [station.number as u32, stored(first), stored(last), guard as u32];
        let mut records = vec![Record::new(HEAD, head)];
        records.extend(phase_records(ENTER_STAR, first, &states, |second| self.shadow(second).direction()));
        records.push(Record::new(CLOSEST, [stored(closest), 0, 0, 0]));
        records.push(Record::new(END, [0; 4]));
        records
    }
}
