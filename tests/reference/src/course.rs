//! What demand 3 speaks of: the seconds and the sheet of a request within its ranges, an eclipse's or a star's, phase
//! by phase.

use crate::elements::{Window, ELEMENT_RANGES, FARTHEST, STATION_RANGES};
use crate::exact::{units, Edge, Exact, ExactStar};
use crate::random::Random;
use crate::refusal::Refusal;
use crate::request::{Circumstances, Request};
use crate::sample;
use crate::sample_star;
use crate::shadow::{Phase, GUARDS};
use crate::sheet::Family;
use crate::star::{star_ranges, Occultation, StarRequest, RADII};
use crate::wide::Wide;
use std::fmt::Debug;
use std::ops::RangeInclusive;

/// A second in one phase.
pub struct Phased {
    /// L, by the rules.
    pub l: i64,
    /// how far L (with its sign where it has one) is from the exact one.
    pub off: Wide,
    /// the exact distance against the exact L.
    pub edge: Edge,
}

/// A second: u and v by the rules and exactly, M, and each phase.
pub struct Second {
    pub u: (i64, Wide),
    pub v: (i64, Wide),
    pub m: i64,
    pub phases: Vec<Phased>,
}

/// How far a number is from an exact one.
pub fn off(rounded: i64, exact: Wide) -> Wide {
    (units(rounded) - exact).abs()
}

/// A request that can be within its ranges.
pub trait Course: Copy + Debug {
    /// Its phases, as a sheet has them.
    const FAMILIES: &'static [Family];
    type Checked;

    /// One for which rounding matters.
    fn difficult(random: &mut Random) -> Self;
    fn window(&self) -> Window;
    fn guard(&self) -> i64;
    fn under(&self, guard: i64) -> Self;
    /// All its numbers.
    fn numbers(&self) -> Vec<i64>;
    /// The ranges of these.
    fn ranges() -> Vec<RangeInclusive<i64>>;
    fn checked(&self) -> Result<Self::Checked, Refusal>;
    fn second(checked: &Self::Checked, second: i64) -> Second;
    fn write(&self, buffer: &mut [u8]) -> Result<usize, Refusal>;
}

/// The ranges of station, window and guard.
fn further_ranges() -> Vec<RangeInclusive<i64>> {
    let seconds = -FARTHEST..=FARTHEST;
    [&STATION_RANGES[..], &[seconds.clone(), seconds, GUARDS]].concat()
}

impl Course for Request {
    const FAMILIES: &'static [Family] = &[Family::Penumbra, Family::Central];
    type Checked = Circumstances;

    fn difficult(random: &mut Random) -> Request {
        sample::difficult(random)
    }

    fn window(&self) -> Window {
        self.window
    }

    fn guard(&self) -> i64 {
        self.guard
    }

    fn under(&self, guard: i64) -> Request {
        Request { guard, ..*self }
    }

    fn numbers(&self) -> Vec<i64> {
        let Window { first, last } = self.window;
        [&self.elements.fields()[..], &self.station.fields(), &[first, last, self.guard]].concat()
    }

    fn ranges() -> Vec<RangeInclusive<i64>> {
        [&ELEMENT_RANGES[..], &further_ranges()].concat()
    }

    fn checked(&self) -> Result<Circumstances, Refusal> {
        self.check()
    }

    fn second(checked: &Circumstances, second: i64) -> Second {
        let shadow = checked.shadow(second);
        let Exact { u, v, l1, l2 } = Exact::at(checked, second);
        let phased = |phase, rounded, exact: Wide, edge| Phased {
            l: shadow.l(phase),
            off: off(rounded, exact),
            edge: Edge::new(u, v, edge),
        };
        Second {
            u: (shadow.u, u),
            v: (shadow.v, v),
            m: shadow.m(),
            phases: vec![
                phased(Phase::Penumbra, shadow.l1, l1, l1),
                phased(Phase::Central, shadow.l2, l2, l2.abs()),
            ],
        }
    }

    fn write(&self, buffer: &mut [u8]) -> Result<usize, Refusal> {
        self.sheet(buffer)
    }
}

impl Course for StarRequest {
    const FAMILIES: &'static [Family] = &[Family::Star];
    type Checked = Occultation;

    fn difficult(random: &mut Random) -> StarRequest {
        sample_star::difficult(random)
    }

    fn window(&self) -> Window {
        self.window
    }

    fn guard(&self) -> i64 {
        self.guard
    }

    fn under(&self, guard: i64) -> StarRequest {
        StarRequest { guard, ..*self }
    }

    fn numbers(&self) -> Vec<i64> {
        let Window { first, last } = self.window;
        let further = [first, last, self.guard];
        [&self.elements.fields()[..], &[self.radius], &self.station.fields(), &further].concat()
    }

    fn ranges() -> Vec<RangeInclusive<i64>> {
        [&star_ranges()[..], &[RADII], &further_ranges()].concat()
    }

    fn checked(&self) -> Result<Occultation, Refusal> {
        self.check()
    }

    fn second(checked: &Occultation, second: i64) -> Second {
        let shadow = checked.shadow(second);
        let ExactStar { u, v, l } = ExactStar::at(checked, second);
        let phase = Phased { l: shadow.l, off: off(shadow.l, l), edge: Edge::new(u, v, l) };
        Second { u: (shadow.u, u), v: (shadow.v, v), m: shadow.m(), phases: vec![phase] }
    }

    fn write(&self, buffer: &mut [u8]) -> Result<usize, Refusal> {
        self.sheet(buffer)
    }
}
