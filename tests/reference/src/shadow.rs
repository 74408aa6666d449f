//! The shadow at one second: its place about the station, its state, direction and magnitude.

use crate::elements::{value_at, Elements};
use crate::numbers::{near, root};
use crate::place::Place;
use crate::sine::{sine_cosine, UNIT};
use crate::sine_table::S;
use std::ops::RangeInclusive;

/// The guard of document 01's cases: a second is sure where it lies more than this from the edge.
pub const GUARD: i64 = 16;

/// What a customer's guard may be: document 02, wish 9.
pub const GUARDS: RangeInclusive<i64> = GUARD..=1_000;

/// A phase: the outer or the inner cone.
#[derive(Clone, Copy, PartialEq, Eq, Debug)]
pub enum Phase {
    Penumbra,
    Central,
}

/// The state of a second in a phase. Inside and outside are *sure*, a word of document 01.
#[derive(Clone, Copy, PartialEq, Eq, Debug)]
pub enum State {
    Outside,
    Inside,
    Unsure,
}

/// What the shadow is at one second. Lengths.
#[derive(Clone, Copy, PartialEq, Eq, Debug)]
pub struct Shadow {
    /// axis less station, east.
    pub u: i64,
    /// axis less station, north.
    pub v: i64,
    /// L1, radius of the penumbra at the station.
    pub l1: i64,
    /// L2, radius of the central shadow at the station, below zero when total.
    pub l2: i64,
}

/// The steps between elements and shadow, also used by the exact values.
#[derive(Clone, Copy, PartialEq, Eq, Debug)]
pub struct Turned {
    /// sine and cosine of the local hour angle H.
    pub sin_h: i64,
    pub cos_h: i64,
    /// sine and cosine of the declination d.
    pub sin_d: i64,
    pub cos_d: i64,
}

/// The station against the axis: ξ east, η north, ζ along the axis. Lengths.
#[derive(Clone, Copy, PartialEq, Eq, Debug)]
pub struct Seen {
    pub xi: i64,
    pub eta: i64,
    pub zeta: i64,
}

impl Turned {
    /// Of the local hour angle H and the declination d.
    #[inline]
    pub fn by(h: i64, d: i64) -> Turned {
        let (sin_h, cos_h) = sine_cosine(h);
        let (sin_d, cos_d) = sine_cosine(d);
        Turned { sin_h, cos_h, sin_d, cos_d }
    }

    /// The Earth's turn and the axis's declination at a second.
    #[inline]
    pub fn at(elements: &Elements, east: i64, second: i64) -> Turned {
        Turned::by(value_at(&elements.mu, second) + east, value_at(&elements.d, second))
    }

    /// Where the station is then.
    #[inline]
    pub fn station(&self, place: Place) -> Seen {
        let Turned { sin_h, cos_h, sin_d, cos_d } = *self;
        let Place { r, p } = place;
        let q = near(r * cos_h, UNIT);
        Seen {
            xi: near(r * sin_h, UNIT),
            eta: near(p * cos_d - q * sin_d, UNIT),
            zeta: near(p * sin_d + q * cos_d, UNIT),
        }
    }
}

impl Shadow {
    /// The shadow at a second, for values within their ranges.
    #[inline]
    pub fn at(elements: &Elements, place: Place, east: i64, second: i64) -> Shadow {
        let Seen { xi, eta, zeta } = Turned::at(elements, east, second).station(place);
        Shadow {
            u: value_at(&elements.x, second) - xi,
            v: value_at(&elements.y, second) - eta,
            l1: value_at(&elements.l1, second) - near(zeta * elements.tan_f1, UNIT),
            l2: value_at(&elements.l2, second) - near(zeta * elements.tan_f2, UNIT),
        }
    }

    /// M, the square of the distance between the axis and the station.
    #[inline]
    pub fn m(&self) -> i64 {
        self.u * self.u + self.v * self.v
    }

    /// L of a phase: L1, or the size of L2.
    #[inline]
    pub fn l(&self, phase: Phase) -> i64 {
        match phase {
            Phase::Penumbra => self.l1,
            Phase::Central => self.l2.abs(),
        }
    }

    /// The state in a phase under a guard.
    #[inline]
    pub fn state(&self, phase: Phase, guard: i64) -> State {
        state(self.l(phase), self.m(), guard)
    }

    /// Magnitude in millionths, rounded down; the guard decides whether central is inside.
    pub fn magnitude(&self, guard: i64) -> i64 {
        let nearer = match self.state(Phase::Central, guard) {
            State::Inside => self.l1 - self.l2,
            _ => self.l1 - root(self.m()),
        };
        (nearer * 1_000_000).div_euclid(self.l1 + self.l2).max(0)
    }

    /// Direction of the axis from the station, tenths of a degree, north through east.
    pub fn direction(&self) -> i64 {
        direction(self.u, self.v)
    }
}

/// The state of a distance whose square is m against a radius l.
#[inline]
pub fn state(l: i64, m: i64, guard: i64) -> State {
    if l > guard && m < (l - guard) * (l - guard) {
        State::Inside
    } else if m > (l + guard) * (l + guard) {
        State::Outside
    } else {
        State::Unsure
    }
}

/// What stands for a direction where u = v = 0.
pub const NO_DIRECTION: i64 = 65_535;

/// The direction of (u, v), tenths of a degree, north through east; 65,535 for (0, 0).
pub fn direction(u: i64, v: i64) -> i64 {
    let (u, v) = (i128::from(u), i128::from(v));
    let (quarters, across, along) = match (u, v) {
        (0, 0) => return NO_DIRECTION,
        (0.., 1..) => (0, u, v),
        (1.., ..=0) => (1, -v, u),
        (..=0, ..=-1) => (2, -u, -v),
        _ => (3, v, -u),
    };
    let holds = |&k: &usize| across * i128::from(S[900 - k]) >= along * i128::from(S[k]);
    // k = 0 always holds.
    let largest = (0..900).rfind(holds).unwrap_or(0);
    900 * quarters + largest as i64
}
