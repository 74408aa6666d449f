/// The length of a request in bytes.
pub const REQUEST_LENGTH: usize = 115;

/// The least guard, that of document 01's cases.
pub const LEAST_GUARD: i64 = 16;

const ELEMENTS: u8 = 0x02;
const STATION: u8 = 0x03;
const WINDOW: u8 = 0x04;

/// The elements of an eclipse, in document 01's order. Coefficients are per hour.
///
/// Lengths are in 10^-8 of the Earth's equatorial radius, angles in 10^-6 degree, tangents in 10^-8.
#[derive(Clone, Copy, Debug, Default, PartialEq, Eq, Hash)]
pub struct Elements {
    /// x at the reference instant, ±200,000,000.
    pub x0: i64,
    /// x, first coefficient, ±100,000,000.
    pub x1: i64,
    /// x, second coefficient, ±100,000.
    pub x2: i64,
    /// x, third coefficient, ±10,000.
    pub x3: i64,
    /// y at the reference instant, ±200,000,000.
    pub y0: i64,
    /// y, first coefficient, ±100,000,000.
    pub y1: i64,
    /// y, second coefficient, ±100,000.
    pub y2: i64,
    /// y, third coefficient, ±10,000.
    pub y3: i64,
    /// d at the reference instant, angle, ±25,000,000.
    pub d0: i64,
    /// d, first coefficient, ±20,000.
    pub d1: i64,
    /// d, second coefficient, ±100.
    pub d2: i64,
    /// l1, constant, 50,000,000 to 60,000,000.
    pub l1_0: i64,
    /// l1, first coefficient, ±100,000.
    pub l1_1: i64,
    /// l1, second coefficient, ±10,000.
    pub l1_2: i64,
    /// l2, constant, ±5,000,000; below zero is total.
    pub l2_0: i64,
    /// l2, first coefficient, ±100,000.
    pub l2_1: i64,
    /// l2, second coefficient, ±10,000.
    pub l2_2: i64,
    /// μ at the reference instant, angle, 0 to 359,999,999.
    pub mu0: i64,
    /// μ, first coefficient, 14,900,000 to 15,100,000.
    pub mu1: i64,
    /// μ, second coefficient, ±100.
    pub mu2: i64,
    /// tan f1, 400,000 to 500,000.
    pub tan_f1: i64,
    /// tan f2, 400,000 to 500,000.
    pub tan_f2: i64,
}

impl Elements {
    /// The elements as 22 numbers in their order.
    pub fn numbers(&self) -> [i64; 22] {
        [
            self.x0,
            self.x1,
            self.x2,
            self.x3,
            self.y0,
            self.y1,
            self.y2,
            self.y3,
            self.d0,
            self.d1,
            self.d2,
            self.l1_0,
            self.l1_1,
            self.l1_2,
            self.l2_0,
            self.l2_1,
            self.l2_2,
            self.mu0,
            self.mu1,
            self.mu2,
            self.tan_f1,
            self.tan_f2,
        ]
    }

    /// The elements of 22 numbers in their order.
    pub fn from_numbers(numbers: [i64; 22]) -> Elements {
        let [x0, x1, x2, x3, y0, y1, y2, y3, d0, d1, d2, ..] = numbers;
        let [.., l1_0, l1_1, l1_2, l2_0, l2_1, l2_2, mu0, mu1, mu2, tan_f1, tan_f2] = numbers;
        Elements {
            x0,
            x1,
            x2,
            x3,
            y0,
            y1,
            y2,
            y3,
            d0,
            d1,
            d2,
            l1_0,
            l1_1,
            l1_2,
            l2_0,
            l2_1,
            l2_2,
            mu0,
            mu1,
            mu2,
            tan_f1,
            tan_f2,
        }
    }
}

/// A station.
#[derive(Clone, Copy, Debug, Default, PartialEq, Eq, Hash)]
pub struct Station {
    /// Number, 1 to 999.
    pub number: i64,
    /// Geodetic latitude on Krasovsky's spheroid, 10^-6 degree, ±90,000,000.
    pub latitude: i64,
    /// Longitude, 10^-6 degree, ±180,000,000, east positive.
    pub longitude: i64,
    /// Height, metres, -500 to 9,000.
    pub height: i64,
    /// ΔT, ephemeris time less universal time, hundredths of a second, -10,000 to 20,000; 0 where the elements are given
    /// by universal time. With it seconds are ephemeris seconds.
    pub delta_t: i64,
}

/// A window of whole seconds, ephemeris seconds, from the reference instant, both ends included: -10,800 ≤ first ≤ last ≤ 10,800.
#[derive(Clone, Copy, Debug, Default, PartialEq, Eq, Hash)]
pub struct Window {
    /// The first second.
    pub first: i64,
    /// The last second.
    pub last: i64,
}

/// What a sheet is asked for: elements, station, window and guard.
///
/// A request may hold numbers outside document 01's ranges: the library refuses them by number.
#[derive(Clone, Copy, Debug, PartialEq, Eq, Hash)]
pub struct Request {
    /// The elements of the eclipse.
    pub elements: Elements,
    /// The station.
    pub station: Station,
    /// The window.
    pub window: Window,
    /// The guard, 10^-8 of the Earth's equatorial radius, 16 to 1,000: how near to a cone's edge nothing is sure. A larger guard only
    /// withholds: what is sure under it is sure, with the same answer, under every smaller one.
    pub guard: i64,
}

impl Default for Request {
    /// Every number 0, the guard [`LEAST_GUARD`].
    fn default() -> Request {
        let (elements, station, window) = Default::default();
        Request { elements, station, window, guard: LEAST_GUARD }
    }
}

// Station, window and guard, the last 26 bytes of every request; `None` where a number does not fit its bytes.
pub(crate) fn further_bytes(
    bytes: &mut Vec<u8>,
    station: &Station,
    window: &Window,
    guard: i64,
) -> Option<()> {
    bytes.push(STATION);
    bytes.extend(u16::try_from(station.number).ok()?.to_be_bytes());
    for number in [station.latitude, station.longitude, station.height, station.delta_t] {
        bytes.extend(signed4(number)?);
    }
    bytes.push(WINDOW);
    for second in [window.first, window.last] {
        bytes.extend(i16::try_from(second).ok()?.to_be_bytes());
    }
    bytes.extend(u16::try_from(guard).ok()?.to_be_bytes());
    Some(())
}

// These of their bytes; `None` where the kinds are others.
pub(crate) fn further(bytes: &[u8; 26]) -> Option<(Station, Window, i64)> {
    if (bytes[0], bytes[19]) != (STATION, WINDOW) {
        return None;
    }
    let two = |at: usize| [bytes[at], bytes[at + 1]];
    let [latitude, longitude, height, delta_t] = numbers(&bytes[3..]);
    let number = i64::from(u16::from_be_bytes(two(1)));
    let [first, last] = [20, 22].map(|at| i64::from(i16::from_be_bytes(two(at))));
    let guard = i64::from(u16::from_be_bytes(two(24)));
    Some((Station { number, latitude, longitude, height, delta_t }, Window { first, last }, guard))
}

pub(crate) fn signed4(number: i64) -> Option<[u8; 4]> {
    Some(i32::try_from(number).ok()?.to_be_bytes())
}

// The first N signed numbers of 4 bytes.
pub(crate) fn numbers<const N: usize>(bytes: &[u8]) -> [i64; N] {
    let four = |at: usize| [bytes[at], bytes[at + 1], bytes[at + 2], bytes[at + 3]];
    std::array::from_fn(|number| i64::from(i32::from_be_bytes(four(4 * number))))
}

impl Request {
    /// The request as the library takes it; `None` where a number does not fit its bytes (the station's number and the
    /// guard 2 unsigned, first and last 2 signed, all others 4 signed).
    pub fn to_bytes(&self) -> Option<[u8; REQUEST_LENGTH]> {
        let mut bytes = Vec::with_capacity(REQUEST_LENGTH);
        bytes.push(ELEMENTS);
        for number in self.elements.numbers() {
            bytes.extend(signed4(number)?);
        }
        further_bytes(&mut bytes, &self.station, &self.window, self.guard)?;
        bytes.try_into().ok()
    }

    /// The request of these bytes; `None` where they are not of its shape (the length, or one of the three kinds),
    /// which the library refuses as [`Refusal::Shape`](crate::Refusal::Shape).
    pub fn from_bytes(bytes: &[u8]) -> Option<Request> {
        let bytes: &[u8; REQUEST_LENGTH] = bytes.try_into().ok()?;
        let (elements, last) = bytes.split_last_chunk()?;
        if elements[0] != ELEMENTS {
            return None;
        }
        let (station, window, guard) = further(last)?;
        let elements = Elements::from_numbers(numbers(&elements[1..]));
        Some(Request { elements, station, window, guard })
    }
}
