//! The whole network in one list.

use crate::{ffi, narrowed, Elements, Refusal, Request, Station, Window, LEAST_GUARD};

/// How many stations a list may have, and how many steps there are.
pub const STATIONS: usize = 64;

/// How many numbers an eclipse has: the 22 elements, first and last second of the window, guard.
pub const ECLIPSE_LENGTH: usize = 25;

/// A station of a network's list, in the memory that the library takes.
#[repr(C)]
#[derive(Clone, Copy, Debug, Default, PartialEq, Eq, Hash)]
pub struct Node {
    /// Number, 1 to 999, each used once in the list.
    pub number: i64,
    /// Geodetic latitude on Krasovsky's spheroid, 10^-6 degree, ±90,000,000.
    pub latitude: i64,
    /// Longitude, 10^-6 degree, ±180,000,000, east positive.
    pub longitude: i64,
    /// Height, metres, -500 to 9,000.
    pub height: i64,
    /// ΔT, ephemeris time less universal time, hundredths of a second, -10,000 to 20,000.
    pub delta_t: i64,
    /// The number of the station whose clock it follows, 0 being the antenna.
    pub clock: i64,
}

impl Node {
    /// A station and the clock that it follows.
    pub fn new(station: Station, clock: i64) -> Node {
        let Station { number, latitude, longitude, height, delta_t } = station;
        Node { number, latitude, longitude, height, delta_t, clock }
    }

    /// The station without its clock.
    pub fn station(&self) -> Station {
        let Node { number, latitude, longitude, height, delta_t, .. } = *self;
        Station { number, latitude, longitude, height, delta_t }
    }
}

/// What the stations of a list have in common: elements, window and guard.
#[derive(Clone, Copy, Debug, PartialEq, Eq, Hash)]
pub struct Eclipse {
    /// The elements of the eclipse.
    pub elements: Elements,
    /// The window.
    pub window: Window,
    /// The guard, 10^-8 of the Earth's equatorial radius, 16 to 1,000.
    pub guard: i64,
}

impl Default for Eclipse {
    /// Every number 0, the guard [`LEAST_GUARD`].
    fn default() -> Eclipse {
        Eclipse { elements: Elements::default(), window: Window::default(), guard: LEAST_GUARD }
    }
}

impl Eclipse {
    /// That of a request.
    pub fn of(request: &Request) -> Eclipse {
        Eclipse { elements: request.elements, window: request.window, guard: request.guard }
    }

    /// What a station would ask for alone.
    pub fn request(&self, station: Station) -> Request {
        Request { elements: self.elements, station, window: self.window, guard: self.guard }
    }

    /// The 25 numbers in their order.
    pub fn numbers(&self) -> [i64; ECLIPSE_LENGTH] {
        let mut numbers = [0; ECLIPSE_LENGTH];
        numbers[..22].copy_from_slice(&self.elements.numbers());
        numbers[22..].copy_from_slice(&[self.window.first, self.window.last, self.guard]);
        numbers
    }
}

/// What is said of a list.
#[derive(Clone, Debug, PartialEq, Eq, Hash)]
pub struct Network {
    /// How many steps each station's clock is from the antenna, in the list's order: 1 if it follows 0, else one more than the station
    /// it follows.
    pub steps: Vec<u64>,
    /// The number of the station that the penumbra reaches first, whether or not the Sun is up there; `None` if none
    /// enters.
    pub first: Option<i64>,
}

/// The steps of every clock, and the station whose first enter penumbra, in the sheet that it gets alone, has the smallest `to`, the first
/// in the list among equals.
///
/// Refusals, the first of them: 19, 1, 2, 3, 14, 15, 16.
///
/// ```
/// use ukhtvaresh::{network, Eclipse, Node, Request};
///
/// let moscow = Request::from_bytes(include_bytes!("../../examples/moscow1954.bin")).expect("a request");
/// let kiev = Request::from_bytes(include_bytes!("../../examples/kiev1954.bin")).expect("a request");
/// // Moscow's clock follows the antenna, Kiev's that of Moscow.
/// let stations = [Node::new(moscow.station, 0), Node::new(kiev.station, moscow.station.number)];
/// let said = network(&Eclipse::of(&moscow), &stations)?;
/// // the penumbra comes to Kiev a second earlier
/// assert_eq!((said.steps, said.first), (vec![1, 2], Some(kiev.station.number)));
/// # Ok::<(), ukhtvaresh::Refusal>(())
/// ```
pub fn network(eclipse: &Eclipse, stations: &[Node]) -> Result<Network, Refusal> {
    let mut steps = [0; STATIONS];
    let first = network_into(&eclipse.numbers(), stations, &mut steps)?;
    Ok(Network { steps: steps[..stations.len()].to_vec(), first })
}

/// The same from 25 numbers into a buffer of 64 steps, 0 past the list; gives the station that the penumbra reaches
/// first.
///
/// On refusal all of `steps` keeps what it held. Refusals, the first of them: 10 for other lengths than 25 and 64, 19, 1, 2, 3, 14, 15,
/// 16.
pub fn network_into(eclipse: &[i64], stations: &[Node], steps: &mut [u64]) -> Result<Option<i64>, Refusal> {
    let number = ffi::network(eclipse, stations, steps)?;
    Ok((number != 0).then(|| narrowed(number)))
}
