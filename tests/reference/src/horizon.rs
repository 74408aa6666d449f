//! Where the Sun or the star is at one second, as the station sees it: docs/HORIZON.md. No refraction and no dip.

use crate::elements::FARTHEST;
use crate::numbers::near;
use crate::refusal::Refusal;
use crate::request::Request;
use crate::shadow::{direction, Turned};
use crate::sine::{sine_cosine, UNIT};
use crate::sine_table::S;
use crate::star::StarRequest;

/// Tenths of a degree, all three.
#[derive(Clone, Copy, PartialEq, Eq, Debug)]
pub struct Horizon {
    /// over the plane at right angles to the spheroid's normal, rounded down, -900 to 900.
    pub altitude: i64,
    /// from north through east, 0 to 3,599; 65,535 where it has none.
    pub azimuth: i64,
    /// direction of the zenith from the Sun's centre or the star, from north through east; likewise.
    pub zenith: i64,
}

/// The altitude whose sine is a: for a ≥ 0 the largest k in 0..900 with S[k] ≤ a, for a < 0 minus the smallest k with
/// S[k] ≥ -a. Every k is looked at. An a past ±10^8 counts as ±10^8.
pub fn altitude(a: i64) -> i64 {
    let a = a.clamp(-UNIT, UNIT);
    let tenths = || (0..).zip(S);
    if a < 0 {
        -tenths().filter(|(_, sine)| *sine >= -a).map(|(k, _)| k).min().expect("S[900] is 10^8")
    } else {
        tenths().filter(|(_, sine)| *sine <= a).map(|(k, _)| k).max().expect("S[0] is 0")
    }
}

/// The sine of the altitude, before it is kept within ±10^8: near((s·sin d + near(c·cos H/10^8)·cos d)/10^8).
pub fn altitude_sine(latitude: i64, turned: &Turned) -> i64 {
    let (s, c) = sine_cosine(latitude);
    near(s * turned.sin_d + near(c * turned.cos_h, UNIT) * turned.cos_d, UNIT)
}

impl Horizon {
    /// At a geodetic latitude, of the sines and cosines of H and d.
    pub fn of(latitude: i64, turned: &Turned) -> Horizon {
        let (s, c) = sine_cosine(latitude);
        let Turned { sin_h, cos_h, sin_d, cos_d } = *turned;
        let east = near(-cos_d * sin_h, UNIT);
        let north = near(c * sin_d - near(s * cos_h, UNIT) * cos_d, UNIT);
        let zenith_east = near(c * sin_h, UNIT);
        let zenith_north = near(s * cos_d - near(c * cos_h, UNIT) * sin_d, UNIT);
        Horizon {
            altitude: altitude(altitude_sine(latitude, turned)),
            azimuth: direction(east, north),
            zenith: direction(zenith_east, zenith_north),
        }
    }

    /// The three numbers in the order of a caller's buffer.
    pub fn numbers(&self) -> [i64; 3] {
        [self.altitude, self.azimuth, self.zenith]
    }
}

/// Refused as 1 unless the second lies within ±10,800.
fn in_span(second: i64) -> Result<(), Refusal> {
    if (-FARTHEST..=FARTHEST).contains(&second) {
        Ok(())
    } else {
        Err(Refusal::Window)
    }
}

impl Request {
    /// The horizon at a second, in or outside the window. Refused as 1 for the second too, 2 or 3.
    pub fn horizon(&self, second: i64) -> Result<Horizon, Refusal> {
        in_span(second)?;
        self.check()?;
        let turned = Turned::at(&self.elements, self.station.east(), second);
        Ok(Horizon::of(self.station.latitude, &turned))
    }
}

impl StarRequest {
    /// The same of a star. Refused as 1 for the second too, 2, 13 or 3.
    pub fn horizon(&self, second: i64) -> Result<Horizon, Refusal> {
        in_span(second)?;
        let turned = self.check()?.turned(second);
        Ok(Horizon::of(self.station.latitude, &turned))
    }

    /// The request beyond the equator: y, d0 and the latitude with the other sign.
    pub fn mirrored(&self) -> StarRequest {
        let mut mirrored = *self;
        mirrored.elements.y = self.elements.y.map(|coefficient| -coefficient);
        mirrored.elements.d0 = -self.elements.d0;
        mirrored.station.latitude = -self.station.latitude;
        mirrored
    }
}
