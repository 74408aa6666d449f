//! Positions as doubles.

use crate::{ffi, whole, Elements, Refusal, Window, LEAST_GUARD};

/// A longitude as an instrument gives it, east positive.
#[derive(Clone, Copy, Debug, PartialEq)]
pub enum Longitude {
    /// In degrees.
    Degrees(f64),
    /// In hours of time, 15 degrees each.
    Hours(f64),
}

/// What a sheet is asked for, as it was surveyed.
///
/// A double is read as the binary fraction that it exactly is, to the nearest whole unit, halves away from zero. A survey may hold
/// anything: the library refuses it by number.
#[derive(Clone, Copy, Debug, PartialEq)]
pub struct Survey {
    /// The elements in the order of [`Elements`]: lengths in Earth radii, angles in degrees, tangents as they are, per hour.
    pub elements: [f64; 22],
    /// The station's longitude.
    pub longitude: Longitude,
    /// Its number, 1 to 999.
    pub number: i64,
    /// Its geodetic latitude on Krasovsky's spheroid, 10^-6 degree, ±90,000,000.
    pub latitude: i64,
    /// Its height, metres, -500 to 9,000.
    pub height: i64,
    /// ΔT, hundredths of a second, -10,000 to 20,000, as in [`Station`](crate::Station).
    pub delta_t: i64,
    /// The window.
    pub window: Window,
    /// The guard, 16 to 1,000, as in [`Request`](crate::Request).
    pub guard: i64,
}

impl Default for Survey {
    /// Every number 0, the longitude in degrees, the guard [`LEAST_GUARD`].
    fn default() -> Survey {
        Survey {
            elements: [0.0; 22],
            longitude: Longitude::Degrees(0.0),
            number: 0,
            latitude: 0,
            height: 0,
            delta_t: 0,
            window: Window::default(),
            guard: LEAST_GUARD,
        }
    }
}

/// The contact sheet of a survey, at the start of `buffer`; gives its length in bytes: the sheet of the request in whole units.
///
/// The bytes past the sheet, and on refusal all bytes, keep what they held. Refusals, the first of them: 1; 12 with the first double
/// that is not finite; 2, 3 (a unit too large for 64 bits is outside its range); 4.
pub fn sheet_of_doubles(survey: &Survey, buffer: &mut [u8]) -> Result<usize, Refusal> {
    let &Survey { elements, longitude, number, latitude, height, delta_t, window, guard } = survey;
    let (longitude, hours) = match longitude {
        Longitude::Degrees(degrees) => (degrees, 0),
        Longitude::Hours(hours) => (hours, 1),
    };
    let rest = [number, latitude, height, delta_t, window.first, window.last, guard];
    ffi::sheet_of_doubles(&elements, longitude, hours, &rest, buffer)
}

/// The contact sheet of a survey. Refusals as [`sheet_of_doubles`], but 4.
///
/// ```
/// use ukhtvaresh::{doubles, sheet_of_doubles_vec, sheet_vec, Longitude, Refusal, Request, Survey};
///
/// let moscow = include_bytes!("../../examples/moscow1954.bin");
/// let request = Request::from_bytes(moscow).expect("a request");
/// let (elements, degrees) = doubles(&request.elements, request.station.longitude)?;
/// let survey = Survey {
///     elements,
///     longitude: Longitude::Degrees(degrees),
///     number: request.station.number,
///     latitude: request.station.latitude,
///     height: request.station.height,
///     delta_t: request.station.delta_t,
///     window: request.window,
///     guard: request.guard,
/// };
/// assert_eq!(sheet_of_doubles_vec(&survey)?, sheet_vec(moscow)?);
/// # Ok::<(), Refusal>(())
/// ```
pub fn sheet_of_doubles_vec(survey: &Survey) -> Result<Vec<u8>, Refusal> {
    whole(|buffer| sheet_of_doubles(survey, buffer))
}

/// Elements and a longitude in whole units as doubles, the longitude in degrees: each by one division by 10^8 or, of angles, by
/// 1,000,000. Read again each gives its unit back, for every unit in its range.
///
/// Refusals: 2 with the first element outside its range; 3 with 2 for the longitude.
pub fn doubles(elements: &Elements, longitude: i64) -> Result<([f64; 22], f64), Refusal> {
    let mut units = [longitude; 23];
    units[..22].copy_from_slice(&elements.numbers());
    let mut made = [0.0; 23];
    ffi::doubles(&units, &mut made)?;
    let [elements @ .., longitude] = made;
    Ok((elements, longitude))
}

/// The same from 23 units to the start of `doubles`; gives 23.
///
/// What lies past them, and on refusal all of `doubles`, keeps what it held. Refusals: 10 for another count than 23; 2; 3 with 2; then
/// 4 with 23.
pub fn doubles_into(units: &[i64], doubles: &mut [f64]) -> Result<usize, Refusal> {
    ffi::doubles(units, doubles)
}
