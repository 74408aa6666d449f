//! The exact values of document 01: no rounding but that in R, P and the sines and cosines.
//!
//! All lengths are whole numerators over D = 3600³·10^24. Distances are compared by their squares; a
//! distance is more than anything negative.

use crate::place::Place;
use crate::request::Circumstances;
use crate::shadow::Turned;
use crate::star::Occultation;
use crate::wide::Wide;

/// 3600³.
const HOURS: i128 = 3600 * 3600 * 3600;
/// The denominator D.
pub const D: i128 = HOURS * 10i128.pow(24);
/// 1 in units of 10^-8.
const UNIT: i128 = 10i128.pow(8);

/// n units as a numerator.
pub fn units(n: i64) -> Wide {
    Wide::from(n) * Wide::from(D)
}

/// A value at a second without rounding, over 3600³; at most four coefficients per hour.
fn over_hours(coefficients: &[i64], second: i64) -> i128 {
    (coefficients.iter().zip(0u32..))
        .map(|(&c, power)| i128::from(c) * i128::from(second).pow(power) * 3600i128.pow(3 - power))
        .sum()
}

/// A value at a second less something over 10^24, over D.
fn less(coefficients: &[i64], second: i64, over_10_to_24: i128) -> Wide {
    Wide::from(over_hours(coefficients, second)) * Wide::from(UNIT.pow(3))
        - Wide::from(over_10_to_24) * Wide::from(HOURS)
}

/// The station at a second: ξ over 10^8, η and ζ over 10^16.
fn station(turned: Turned, place: Place) -> [i128; 3] {
    let Turned { sin_h, cos_h, sin_d, cos_d } = turned;
    let [r, p, sin_h, cos_h, sin_d, cos_d] = [place.r, place.p, sin_h, cos_h, sin_d, cos_d].map(i128::from);
    [r * sin_h, p * cos_d * UNIT - r * cos_h * sin_d, p * sin_d * UNIT + r * cos_h * cos_d]
}

/// The exact values of an eclipse at a second, numerators over D.
#[derive(Clone, Copy, Debug)]
pub struct Exact {
    pub u: Wide,
    pub v: Wide,
    pub l1: Wide,
    pub l2: Wide,
}

impl Exact {
    /// The exact values at a second within ±10,800.
    pub fn at(circumstances: &Circumstances, second: i64) -> Exact {
        let request = circumstances.request();
        let elements = &request.elements;
        let turned = Turned::at(elements, request.station.east(), second);
        let [xi, eta, zeta] = station(turned, circumstances.place());
        let [tan_f1, tan_f2] = [elements.tan_f1, elements.tan_f2].map(i128::from);
        Exact {
            u: less(&elements.x, second, xi * UNIT * UNIT),
            v: less(&elements.y, second, eta * UNIT),
            l1: less(&elements.l1, second, zeta * tan_f1),
            l2: less(&elements.l2, second, zeta * tan_f2),
        }
    }
}

/// The exact values of a star at a second, numerators over D: L is the radius.
#[derive(Clone, Copy, Debug)]
pub struct ExactStar {
    pub u: Wide,
    pub v: Wide,
    pub l: Wide,
}

impl ExactStar {
    /// The exact values at a second within ±10,800.
    pub fn at(occultation: &Occultation, second: i64) -> ExactStar {
        let request = occultation.request();
        let [xi, eta, _] = station(occultation.turned(second), occultation.place());
        ExactStar {
            u: less(&request.elements.x, second, xi * UNIT * UNIT),
            v: less(&request.elements.y, second, eta * UNIT),
            l: units(request.radius),
        }
    }
}

/// The exact distance against the exact L of a phase.
#[derive(Clone, Copy, Debug)]
pub struct Edge {
    /// the square of the distance, over D².
    square: Wide,
    /// L, over D.
    l: Wide,
}

impl Edge {
    pub fn new(u: Wide, v: Wide, l: Wide) -> Edge {
        Edge { square: u.square() + v.square(), l }
    }

    /// Exactly inside: the distance is less than L. Exactly outside: any other.
    pub fn inside(&self) -> bool {
        !self.l.is_negative() && self.square < self.l.square()
    }

    /// Whether the distance is at most L plus n units.
    pub fn at_most(&self, n: i64) -> bool {
        let bound = self.l + units(n);
        !bound.is_negative() && self.square <= bound.square()
    }

    /// Whether the distance is at least L plus n units.
    pub fn at_least(&self, n: i64) -> bool {
        let bound = self.l + units(n);
        bound.is_negative() || self.square >= bound.square()
    }

    /// Whether the distance is within n units of the edge.
    pub fn near(&self, n: i64) -> bool {
        self.at_most(n) && self.at_least(-n)
    }

    /// The distance less L in units, for reports; good to a millionth.
    pub fn beyond(&self) -> f64 {
        let gap = (self.square - self.l.square()).to_f64() / (D as f64 * D as f64);
        let l = self.l.to_f64() / D as f64;
        let distance = self.square.to_f64().sqrt() / D as f64;
        if distance + l == 0.0 {
            0.0
        } else {
            gap / (distance + l)
        }
    }
}
