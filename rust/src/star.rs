use crate::entry::direction;
use crate::request::{further, further_bytes, numbers, signed4};
use crate::{ffi, narrowed, state, whole, Refusal, State, Station, Window, LEAST_GUARD};

/// The length of a star request in bytes.
pub const STAR_REQUEST_LENGTH: usize = 79;

const STAR: u8 = 0x05;

/// The elements of an occultation, in document 02's order. Coefficients are per hour.
///
/// Lengths are in 10^-8 of the Earth's equatorial radius, angles in 10^-6 degree. x and y are the Moon's centre in the fundamental
/// plane, which is at right angles to the star's direction.
#[derive(Clone, Copy, Debug, Default, PartialEq, Eq, Hash)]
pub struct StarElements {
    /// x at the reference instant, to the east, ±200,000,000.
    pub x0: i64,
    /// x, first coefficient, ±100,000,000.
    pub x1: i64,
    /// x, second coefficient, ±100,000.
    pub x2: i64,
    /// x, third coefficient, ±10,000.
    pub x3: i64,
    /// y at the reference instant, to the north, ±200,000,000.
    pub y0: i64,
    /// y, first coefficient, ±100,000,000.
    pub y1: i64,
    /// y, second coefficient, ±100,000.
    pub y2: i64,
    /// y, third coefficient, ±10,000.
    pub y3: i64,
    /// The star's declination, angle, ±30,000,000.
    pub d0: i64,
    /// μ, the star's hour angle, at the reference instant, angle, 0 to 359,999,999.
    pub mu0: i64,
    /// μ, first coefficient, 14,900,000 to 15,100,000; a star's is 15,041,069.
    pub mu1: i64,
    /// μ, second coefficient, ±100.
    pub mu2: i64,
}

impl StarElements {
    /// The elements as 12 numbers in their order.
    pub fn numbers(&self) -> [i64; 12] {
        let StarElements { x0, x1, x2, x3, y0, y1, y2, y3, d0, mu0, mu1, mu2 } = *self;
        [x0, x1, x2, x3, y0, y1, y2, y3, d0, mu0, mu1, mu2]
    }

    /// The elements of 12 numbers in their order.
    pub fn from_numbers(numbers: [i64; 12]) -> StarElements {
        let [x0, x1, x2, x3, y0, y1, y2, y3, d0, mu0, mu1, mu2] = numbers;
        StarElements { x0, x1, x2, x3, y0, y1, y2, y3, d0, mu0, mu1, mu2 }
    }
}

/// What a star's sheet is asked for: elements, the Moon's radius, station, window and guard.
///
/// A request may hold numbers outside their ranges: the library refuses them by number.
#[derive(Clone, Copy, Debug, PartialEq, Eq, Hash)]
pub struct StarRequest {
    /// The elements of the occultation.
    pub elements: StarElements,
    /// The Moon's radius, 10^-8 of the Earth's equatorial radius, 27,200,000 to 27,300,000.
    pub radius: i64,
    /// The station.
    pub station: Station,
    /// The window.
    pub window: Window,
    /// The guard, 10^-8 of the Earth's equatorial radius, 16 to 1,000: how near to the cylinder's edge nothing is sure.
    pub guard: i64,
}

impl Default for StarRequest {
    /// Every number 0, the guard [`LEAST_GUARD`].
    fn default() -> StarRequest {
        let (elements, station, window) = Default::default();
        StarRequest { elements, radius: 0, station, window, guard: LEAST_GUARD }
    }
}

impl StarRequest {
    /// The request as the library takes it; `None` where a number does not fit its bytes (the station's number and the
    /// guard 2 unsigned, first and last 2 signed, all others 4 signed).
    pub fn to_bytes(&self) -> Option<[u8; STAR_REQUEST_LENGTH]> {
        let mut bytes = Vec::with_capacity(STAR_REQUEST_LENGTH);
        bytes.push(STAR);
        for number in self.elements.numbers().into_iter().chain([self.radius]) {
            bytes.extend(signed4(number)?);
        }
        further_bytes(&mut bytes, &self.station, &self.window, self.guard)?;
        bytes.try_into().ok()
    }

    /// The request of these bytes; `None` where they are not of its shape (the length, or one of the three kinds),
    /// which the library refuses as [`Refusal::Shape`].
    pub fn from_bytes(bytes: &[u8]) -> Option<StarRequest> {
        let bytes: &[u8; STAR_REQUEST_LENGTH] = bytes.try_into().ok()?;
        let (first, last) = bytes.split_last_chunk()?;
        if first[0] != STAR {
            return None;
        }
        let (station, window, guard) = further(last)?;
        let [radius] = numbers(&first[49..]);
        let elements = StarElements::from_numbers(numbers(&first[1..]));
        Some(StarRequest { elements, radius, station, window, guard })
    }
}

/// The sheet of a star behind the Moon, at the start of `buffer`; gives its length in bytes.
///
/// Its entries are of [`Phase::Star`](crate::Phase::Star): enter where the star vanishes, leave where it appears again. A direction is
/// that of the Moon's centre from the star. The closest second has magnitude 0. The bytes past the sheet, and on refusal all bytes,
/// keep what they held. Refusals, the first of them: 10, 1, 2, 13, 3, 4.
///
/// ```
/// use ukhtvaresh::{listing, star_vec};
///
/// let sheet = star_vec(include_bytes!("../../examples/potsdam1956.bin"))?;
/// assert!(listing(&sheet)?.contains("enter star 19 20 3065\n"));
/// # Ok::<(), ukhtvaresh::Refusal>(())
/// ```
pub fn star(request: &[u8], buffer: &mut [u8]) -> Result<usize, Refusal> {
    ffi::star(request, buffer)
}

/// The same sheet. Refusals as [`star`], but 4.
pub fn star_vec(request: &[u8]) -> Result<Vec<u8>, Refusal> {
    whole(|buffer| ffi::star(request, buffer))
}

/// The shadow of a star at one second.
#[derive(Clone, Copy, Debug, PartialEq, Eq, Hash)]
pub struct StarSecond {
    /// Axis less station, to the east: the Moon's centre from the star.
    pub u: i64,
    /// Axis less station, to the north.
    pub v: i64,
    /// The Moon's radius.
    pub radius: i64,
    /// The station in the cylinder: inside, the star is hidden.
    pub state: State,
    /// Direction, tenths of a degree, north through east, 0 to 3,599; `None` where u and v are 0.
    pub direction: Option<u16>,
}

/// The shadow at a second of a star request, -10,800 to 10,800, also outside its window.
///
/// Refusals, the first of them: 10, 1 (for the window or the second, then for the guard), 2, 13, 3.
///
/// ```
/// use ukhtvaresh::{star_second, Refusal, State};
///
/// let potsdam = include_bytes!("../../examples/potsdam1956.bin");
/// assert_eq!(star_second(potsdam, 19)?.state, State::Outside);
/// assert_eq!(star_second(potsdam, 20)?.direction, Some(3065)); // hidden, as on the sheet
/// # Ok::<(), Refusal>(())
/// ```
pub fn star_second(request: &[u8], second: i64) -> Result<StarSecond, Refusal> {
    let mut shadow = [0; 5];
    ffi::star_second(request, second, &mut shadow)?;
    let [u, v, radius, phase, towards] = shadow;
    Ok(StarSecond { u, v, radius, state: state(phase), direction: direction(narrowed(towards)) })
}
