//! Between which two hundredths of a second a contact lies: docs/CONTACTS.md. Times are exact fractions of a second.

use crate::elements::Window;
use crate::place::Place;
use crate::refusal::Refusal;
use crate::request::Request;
use crate::shadow::{state, Seen, State, Turned};
use crate::sine::UNIT;
use crate::star::StarRequest;

/// The least guard under which contacts are sought.
pub const LEAST_GUARD: i64 = 32;

/// Hundredths of a second in a second.
pub const HUNDREDTHS: i64 = 100;

/// A fraction of a second, above / below.
#[derive(Clone, Copy, Debug)]
pub struct Time {
    pub above: i64,
    pub below: i64,
}

/// near of a fraction of 128-bit numbers, for k above 0: a half is added to the size and the rest dropped.
fn near(n: i128, k: i128) -> i64 {
    let size = (2 * n.abs() + k) / (2 * k);
    (n.signum() * size) as i64
}

/// The value at a time of coefficients per hour: from the highest, multiply by the time in seconds, near over 3600, add
/// the next lower.
pub fn value_at<const N: usize>(coefficients: &[i64; N], time: Time) -> i64 {
    let (lower, highest) = coefficients.split_at(N - 1);
    lower.iter().rev().fold(highest[0], |value, lower| {
        near(i128::from(value) * i128::from(time.above), 3600 * i128::from(time.below)) + lower
    })
}

/// A phase of a shadow at a station under a guard.
#[derive(Clone, Copy, Debug)]
pub struct Crossing {
    x: [i64; 4],
    y: [i64; 4],
    d: [i64; 3],
    mu: [i64; 3],
    l: [i64; 3],
    tan_f: i64,
    central: bool,
    place: Place,
    east: i64,
    guard: i64,
}

impl Crossing {
    /// The state at a time: the page "The shadow at one second" with the values at that time.
    pub fn state(&self, time: Time) -> State {
        let h = value_at(&self.mu, time) + self.east;
        let Seen { xi, eta, zeta } = Turned::by(h, value_at(&self.d, time)).station(self.place);
        let (u, v) = (value_at(&self.x, time) - xi, value_at(&self.y, time) - eta);
        let l = value_at(&self.l, time) - near(i128::from(zeta) * i128::from(self.tan_f), UNIT.into());
        state(if self.central { l.abs() } else { l }, u * u + v * v, self.guard)
    }

    fn at(&self, hundredth: i64) -> State {
        self.state(Time { above: hundredth, below: HUNDREDTHS })
    }

    /// The two hundredths between which the contact between two seconds lies; 22 where these are not one surely outside
    /// and one surely inside.
    pub fn bracket(&self, from: i64, to: i64) -> Result<[i64; 2], Refusal> {
        let second = |second| self.state(Time { above: second, below: 1 });
        let (start, end) = (second(from), second(to));
        if !matches!((start, end), (State::Outside, State::Inside) | (State::Inside, State::Outside)) {
            return Err(Refusal::NoContact);
        }
        let (first, last) = (from * HUNDREDTHS, to * HUNDREDTHS);
        let earlier = halved(first, last, &|hundredth| self.at(hundredth) == start);
        let later = halved(earlier, last, &|hundredth| self.at(hundredth) != end) + 1;
        Ok([earlier, later])
    }
}

/// From `low`, where it holds, and `high`, where it does not, to a number where it holds and not at the next.
fn halved(low: i64, high: i64, holds: &dyn Fn(i64) -> bool) -> i64 {
    let middle = low + (high - low) / 2;
    match high - low {
        ..=1 => low,
        _ if holds(middle) => halved(middle, high, holds),
        _ => halved(low, middle, holds),
    }
}

impl Request {
    /// A phase by its number, 0 penumbra, 1 central, for two seconds in or outside the window. Refused as 1 for these
    /// seconds too, 2, 3, or 22 for the phase.
    pub fn crossing(&self, phase: i64, from: i64, to: i64) -> Result<Crossing, Refusal> {
        Window { first: from, last: to }.check()?;
        let circumstances = self.check()?;
        let elements = &self.elements;
        let (l, tan_f) = match phase {
            0 => (elements.l1, elements.tan_f1),
            1 => (elements.l2, elements.tan_f2),
            _ => return Err(Refusal::NoPhase),
        };
        Ok(Crossing {
            x: elements.x,
            y: elements.y,
            d: elements.d,
            mu: elements.mu,
            l,
            tan_f,
            central: phase == 1,
            place: circumstances.place(),
            east: self.station.east(),
            guard: self.guard.max(LEAST_GUARD),
        })
    }
}

impl StarRequest {
    /// The same of a star, whose one phase is 0. Refused as 13 too.
    pub fn crossing(&self, phase: i64, from: i64, to: i64) -> Result<Crossing, Refusal> {
        Window { first: from, last: to }.check()?;
        let occultation = self.check()?;
        if phase != 0 {
            return Err(Refusal::NoPhase);
        }
        let elements = &self.elements;
        Ok(Crossing {
            x: elements.x,
            y: elements.y,
            d: [elements.d0, 0, 0],
            mu: elements.mu,
            l: [self.radius, 0, 0],
            tan_f: 0,
            central: false,
            place: occultation.place(),
            east: self.station.east(),
            guard: self.guard.max(LEAST_GUARD),
        })
    }
}
