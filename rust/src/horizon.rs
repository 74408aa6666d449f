use crate::entry::direction;
use crate::{ffi, narrowed, Refusal};

/// Where the Sun's centre or a star is in the station's sky at one second, in tenths of a degree.
///
/// No refraction and no dip. The horizon is the plane at right angles to the spheroid's normal, so the altitude goes by
/// the geodetic latitude.
#[derive(Clone, Copy, Debug, PartialEq, Eq, Hash)]
pub struct Horizon {
    /// Altitude, rounded down, -900 to 900; below 0 it is under the horizon.
    pub altitude: i16,
    /// Azimuth, from north through east, 0 to 3,599; `None` straight overhead or straight down.
    pub azimuth: Option<u16>,
    /// Direction of the zenith from the Sun's centre or the star, north through east, 0 to 3,599; `None` likewise. An
    /// angle from the zenith is a direction, such as a contact's, less this, modulo 3,600.
    pub zenith: Option<u16>,
}

type Numbers = fn(&[u8], i64, &mut [i64]) -> Result<usize, Refusal>;

fn horizon_by(numbers: Numbers, request: &[u8], second: i64) -> Result<Horizon, Refusal> {
    let mut horizon = [0; 3];
    numbers(request, second, &mut horizon)?;
    let [altitude, azimuth, zenith] = horizon;
    Ok(Horizon {
        altitude: narrowed(altitude),
        azimuth: direction(narrowed(azimuth)),
        zenith: direction(narrowed(zenith)),
    })
}

/// Where the Sun's centre is at a second of a request, -10,800 to 10,800, also outside its window.
///
/// No refraction and no dip. The mirror of a request has the same altitude at every second.
///
/// Refusals, the first of them: 10, 1 (for the window or the second, then for the guard), 2, 3.
///
/// ```
/// use ukhtvaresh::{horizon, Refusal};
///
/// let moscow = include_bytes!("../../examples/moscow1954.bin");
/// let closest = horizon(moscow, 4_115)?;
/// assert_eq!((closest.altitude, closest.azimuth), (390, Some(2530))); // 39.0° up, in the west-southwest
/// # Ok::<(), Refusal>(())
/// ```
pub fn horizon(request: &[u8], second: i64) -> Result<Horizon, Refusal> {
    horizon_by(ffi::horizon, request, second)
}

/// Where the star is at a second of a star request, -10,800 to 10,800, also outside its window.
///
/// No refraction and no dip.
///
/// Refusals, the first of them: 10, 1 (for the window or the second, then for the guard), 2, 13, 3.
///
/// ```
/// use ukhtvaresh::{star_horizon, Refusal};
///
/// let potsdam = include_bytes!("../../examples/potsdam1956.bin");
/// assert_eq!(star_horizon(potsdam, 20)?.altitude, 439); // the star vanishes 43.9° up
/// # Ok::<(), Refusal>(())
/// ```
pub fn star_horizon(request: &[u8], second: i64) -> Result<Horizon, Refusal> {
    horizon_by(ffi::star_horizon, request, second)
}
