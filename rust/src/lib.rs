//! Local circumstances of a solar eclipse, and of a star behind the Moon, in whole numbers, from a proved library.
//!
//! From the elements of an eclipse, a station, a window of seconds and a guard, [`sheet`] makes the station's contact sheet,
//! [`sheet_and_share`] the same with the covered share of the Sun's disc; [`star()`] makes that of a star from its elements and the
//! Moon's radius; [`read`] takes a sheet apart, [`write()`] puts entries together as one, [`listing`] gives a sheet as text,
//! [`typed`] reads a typed request, [`times`] lists its sheet with clock times, [`second`]
//! the shadow at one second, [`star_second`] that of a star, [`share`] the share at a second, [`horizon()`] and
//! [`star_horizon`] the altitude and azimuth of the Sun and of a star at a second, [`contact()`] and [`star_contact`] the
//! two hundredths of a second between which a contact lies, [`mirror`] the request beyond the equator; [`fit`] judges coefficients that a spreadsheet made, [`from_tables`] makes elements from tables of Sun and
//! Moon, [`root`] gives a square root with its rounds,
//! [`mend()`] takes the damaged parts out of a file of sheets, [`sheet_of_doubles`] makes the sheet of positions that come as doubles,
//! [`doubles()`] makes doubles of whole units; [`network()`] says of a list of stations how far each clock is from the
//! antenna and which station the penumbra reaches first. Each is a thin call of the proved function of the same name in
//! `libukhtvaresh.a`.
//!
//! Lengths are in 10^-8 of the Earth's equatorial radius, angles in 10^-6 degree, times in whole seconds of
//! ephemeris time from the reference instant. East longitude is positive. "Document 01" is the paper whose rules the library keeps.
//!
//! Latitude is geodetic, on Krasovsky's spheroid (6,378,245 m, flattening 1:298.3) with its centre at the Earth's
//! centre. The library converts no datum. A latitude and longitude by WGS84 put the station up to 55.6 units, 3.5 m,
//! from its place. Those of Pulkovo 1942, whose spheroid is Krasovsky's with its centre 165 m away, must be converted
//! first. No sheet says whether the Sun is above the horizon: [`horizon()`] does, for any second.
//!
//! ```
//! use ukhtvaresh::{listing, read, sheet_vec, Elements, Entry, Phase, Request, Station, Window};
//!
//! // An axis that crosses the north pole at the reference instant.
//! let request = Request {
//!     elements: Elements {
//!         x1: 36_000_000,
//!         y0: 99_664_768,
//!         l1_0: 54_000_000,
//!         l2_0: -1_000_000,
//!         mu1: 15_000_000,
//!         tan_f1: 460_000,
//!         tan_f2: 458_000,
//!         ..Elements::default()
//!     },
//!     station: Station { number: 7, latitude: 90_000_000, longitude: 0, height: 0, delta_t: 0 },
//!     window: Window { first: -6000, last: 6000 },
//!     guard: 16,
//! };
//! let sheet = sheet_vec(&request.to_bytes().expect("every number fits"))?;
//! let entries = read(&sheet)?;
//! assert_eq!(
//!     entries[1],
//!     Entry::Enter { phase: Phase::Penumbra, from: -5401, to: -5399, direction: Some(2700) }
//! );
//! print!("{}", listing(&sheet)?); // station 7 from -6000 to 6000, and so on
//! # Ok::<(), ukhtvaresh::Refusal>(())
//! ```

#![deny(unsafe_code)]
#![deny(clippy::cast_possible_truncation, clippy::cast_possible_wrap, clippy::cast_sign_loss)]
#![warn(missing_docs)]

mod contact;
mod doubles;
mod entry;
#[allow(unsafe_code)]
mod ffi;
mod horizon;
mod mend;
mod network;
mod refusal;
mod request;
mod star;
mod tables;
mod texts;

pub use contact::{contact, star_contact, Bracket};
pub use doubles::{doubles, doubles_into, sheet_of_doubles, sheet_of_doubles_vec, Longitude, Survey};
pub use entry::{Entry, Phase};
pub use horizon::{horizon, star_horizon, Horizon};
pub use mend::{mend, mend_into, Mended, Stretch};
pub use network::{network, network_into, Eclipse, Network, Node, ECLIPSE_LENGTH, STATIONS};
pub use refusal::Refusal;
pub use request::{Elements, Request, Station, Window, LEAST_GUARD, REQUEST_LENGTH};
pub use star::{star, star_second, star_vec, StarElements, StarRequest, StarSecond, STAR_REQUEST_LENGTH};
pub use tables::{
    elements, elements_into, from_tables, from_tables_into, Besselian, Misfits, Position, Radii, Row, DOCUMENT_02, ROWS,
};
pub use texts::{times, typed, Fault, Instant, Scale, Typed};

/// The state of a station in a shadow at a second. Sure and unsure are document 01's words.
#[derive(Clone, Copy, Debug, PartialEq, Eq, Hash)]
pub enum State {
    /// Surely outside.
    Outside,
    /// Surely inside.
    Inside,
    /// Too near the cone's edge to say: within the guard plus 13 units of it.
    Unsure,
}

/// The shadow at one second.
#[derive(Clone, Copy, Debug, PartialEq, Eq, Hash)]
pub struct Second {
    /// Axis less station, to the east.
    pub u: i64,
    /// Axis less station, to the north.
    pub v: i64,
    /// Radius of the penumbra at the station.
    pub l1: i64,
    /// Radius of the central cone at the station, below zero where the eclipse is total.
    pub l2: i64,
    /// The station in the penumbra.
    pub penumbra: State,
    /// The station in the central cone.
    pub central: State,
    /// Magnitude, millionths, 0 to 1,300,000.
    pub magnitude: u32,
    /// Direction, tenths of a degree, north through east, 0 to 3,599; `None` where u and v are 0.
    pub direction: Option<u16>,
}

/// The contact sheet of a request, at the start of `buffer`; gives its length in bytes.
///
/// The bytes past the sheet, and on refusal all bytes, keep what they held. Refusals, the first of them: 10, 1, 2, 3,
/// 4.
pub fn sheet(request: &[u8], buffer: &mut [u8]) -> Result<usize, Refusal> {
    ffi::sheet(request, buffer)
}

/// The contact sheet of a request. Refusals as [`sheet`], but 4.
pub fn sheet_vec(request: &[u8]) -> Result<Vec<u8>, Refusal> {
    whole(|buffer| ffi::sheet(request, buffer))
}

/// The contact sheet of a request with the covered share of the Sun's disc at its closest second, an [`Entry::Share`] between
/// [`Entry::Closest`] and [`Entry::End`]: 5 bytes longer than [`sheet`], and else the same, refusals too.
pub fn sheet_and_share(request: &[u8], buffer: &mut [u8]) -> Result<usize, Refusal> {
    ffi::sheet_and_share(request, buffer)
}

/// The same sheet. Refusals as [`sheet_and_share`], but 4.
pub fn sheet_and_share_vec(request: &[u8]) -> Result<Vec<u8>, Refusal> {
    whole(|buffer| ffi::sheet_and_share(request, buffer))
}

/// How much of the Sun's disc the Moon covers at a second of a request, -10,800 to 10,800, also outside its window: millionths,
/// rounded down, 0 to 1,000,000. It is 1,000,000 wherever the total phase is sure, and 0 where the penumbra is surely left.
///
/// Refusals, the first of them: 10, 1 (for the window or the second, then for the guard), 2, 3.
///
/// ```
/// use ukhtvaresh::{share, Refusal};
///
/// let moscow = include_bytes!("../../examples/moscow1954.bin");
/// assert_eq!(share(moscow, 4_115)?, 843_499); // at the closest second: 84 per cent
/// # Ok::<(), Refusal>(())
/// ```
pub fn share(request: &[u8], second: i64) -> Result<u32, Refusal> {
    ffi::share(request, second).map(narrowed)
}

/// The shadow at a second of a request, -10,800 to 10,800, also outside its window.
///
/// Refusals, the first of them: 10, 1 (for the window or the second, then for the guard), 2, 3.
///
/// ```
/// use ukhtvaresh::{second, Refusal, State};
///
/// let moscow = include_bytes!("../../examples/moscow1954.bin");
/// let closest = second(moscow, 4_115)?;
/// assert_eq!((closest.magnitude, closest.penumbra), (870_151, State::Inside));
/// # Ok::<(), Refusal>(())
/// ```
pub fn second(request: &[u8], second: i64) -> Result<Second, Refusal> {
    let mut shadow = [0; 8];
    ffi::second(request, second, &mut shadow)?;
    let [u, v, l1, l2, penumbra, central, magnitude, direction] = shadow;
    Ok(Second {
        u,
        v,
        l1,
        l2,
        penumbra: state(penumbra),
        central: state(central),
        magnitude: narrowed(magnitude),
        direction: entry::direction(narrowed(direction)),
    })
}

/// The mirror of a request: all y and d coefficients and the latitude with the other sign, nothing else changed.
///
/// Any numbers: -2^31, which has no opposite in its bytes, stays as it is. The sheet of the mirror of a request within
/// the limits has the same entries, of the same seconds, magnitude, share and length; their directions differ. A request that
/// is refused 1, 2 or 3 and its mirror are refused alike. Taken twice the mirror is the first request. Refusal: 10.
///
/// ```
/// use ukhtvaresh::{mirror, Refusal, Request};
///
/// let moscow = include_bytes!("../../examples/moscow1954.bin");
/// let south = Request::from_bytes(&mirror(moscow)?).expect("a request");
/// assert_eq!((south.elements.y0, south.station.latitude), (-65_293_771, -55_755_000));
/// # Ok::<(), Refusal>(())
/// ```
pub fn mirror(request: &[u8]) -> Result<[u8; REQUEST_LENGTH], Refusal> {
    let mut mirrored = [0; REQUEST_LENGTH];
    ffi::mirror(request, &mut mirrored)?;
    Ok(mirrored)
}

/// The entries of a sheet, head and end among them.
///
/// Refusals: the first faulty record's, in it 5, 6, 8, 7; then 9.
///
/// ```
/// use ukhtvaresh::{read, sheet_vec, write_vec, Entry, Refusal};
///
/// let sheet = sheet_vec(include_bytes!("../../examples/moscow1954.bin"))?;
/// let entries = read(&sheet)?;
/// assert_eq!(entries[0], Entry::Head { station: 101, first: -10_800, last: 10_800, guard: 16 });
/// assert_eq!(write_vec(&entries)?, sheet);
///
/// // A refusal is an error with a number and a place.
/// let cut = read(&sheet[..20]).unwrap_err();
/// assert_eq!((cut.number(), cut.place()), (6, 16));
/// let error: Box<dyn std::error::Error> = Box::new(cut);
/// assert_eq!(error.to_string(), "refused 6 16: input ends inside a record or before the end record");
/// # Ok::<(), Refusal>(())
/// ```
pub fn read(sheet: &[u8]) -> Result<Vec<Entry>, Refusal> {
    // An entry is five numbers. Its record has five bytes or more, save the end's one, and the head's nine make up for
    // that: as many numbers as the sheet has bytes are always enough.
    let mut numbers = vec![0; sheet.len()];
    let count = ffi::read(sheet, &mut numbers)?;
    Ok(numbers
        .chunks_exact(5)
        .take(count)
        .map(|entry| Entry::of([entry[0], entry[1], entry[2], entry[3], entry[4]]))
        .collect())
}

/// The sheet of entries, at the start of `buffer`; gives its length in bytes.
///
/// The bytes past the sheet, and on refusal all bytes, keep what they held. Refusals: the first faulty entry's, in it
/// 8, 7; 6 where the list stops before its end; 9; then 4. Places are those that the records have or would have in the
/// sheet. A second or a direction that cannot be stored is refused as 7.
pub fn write(entries: &[Entry], buffer: &mut [u8]) -> Result<usize, Refusal> {
    ffi::write(&numbers(entries), buffer)
}

/// The sheet of entries. Refusals as [`write()`], but 4.
pub fn write_vec(entries: &[Entry]) -> Result<Vec<u8>, Refusal> {
    let numbers = numbers(entries);
    whole(|buffer| ffi::write(&numbers, buffer))
}

/// The length of the well-formed sheet that some bytes begin with, whatever follows it. Refusals as [`read`], but 4 and
/// 9.
pub fn extent(bytes: &[u8]) -> Result<usize, Refusal> {
    ffi::extent(bytes)
}

/// The sheets of a year file, one after the other; the last item is the refusal of the first bytes that are no sheet.
///
/// ```
/// use ukhtvaresh::{extent, sheets, write_vec, Entry};
/// let entries = [
///     Entry::Head { station: 7, first: -60, last: 60, guard: 16 },
///     Entry::Closest { second: 0, magnitude: 0 },
///     Entry::End,
/// ];
/// let sheet = write_vec(&entries)?;
/// let file = [sheet.clone(), sheet.clone()].concat();
/// assert_eq!(extent(&file)?, sheet.len());
/// assert_eq!(sheets(&file).collect::<Result<Vec<_>, _>>()?, [&sheet[..], &sheet[..]]);
/// # Ok::<(), ukhtvaresh::Refusal>(())
/// ```
pub fn sheets(file: &[u8]) -> impl Iterator<Item = Result<&[u8], Refusal>> {
    let mut rest = file;
    std::iter::from_fn(move || {
        if rest.is_empty() {
            return None;
        }
        let answer = extent(rest);
        let (sheet, after) = rest.split_at(answer.map_or(rest.len(), |length| length));
        rest = after;
        Some(answer.map(|_| sheet))
    })
}

/// The listing of a sheet, as program `listing` prints it: a line for each entry but the end. Refusals as [`read`].
pub fn listing(sheet: &[u8]) -> Result<String, Refusal> {
    let text = whole(|buffer| ffi::listing(sheet, buffer))?;
    Ok(String::from_utf8(text).expect("words, digits, spaces and ends of lines"))
}

/// Accepts a cubic's coefficients for seven tabulated hourly values, -3 to 3, or refuses them.
///
/// Accepted exactly if the tolerance is 0 to 1,000 units, the tabulated values are within ±10^9, the coefficients in the
/// ranges of x, and at each hour the value of document 01's rule differs from the tabulated one by at most the
/// tolerance. Refusals, the first of them: 18, 2, 17.
///
/// ```
/// use ukhtvaresh::{fit, Refusal};
///
/// let tabulated = [-108, -72, -36, 0, 36, 72, 108].map(|million| 1_000_000 * million);
/// assert_eq!(fit(&[0, 36_000_000, 0, 0], &tabulated, 0), Ok(()));
/// assert_eq!(fit(&[1, 36_000_000, 0, 0], &tabulated, 0), Err(Refusal::Hour { hour: 0 }));
/// ```
pub fn fit(coefficients: &[i64; 4], tabulated: &[i64; 7], tolerance: i64) -> Result<(), Refusal> {
    ffi::fit(coefficients, tabulated, tolerance).map(|_| ())
}

/// The root of a number, and the rounds in which it is found.
#[derive(Clone, Copy, Debug, PartialEq, Eq, Hash)]
pub struct Root {
    /// The largest whole number whose square is at most the number.
    pub root: u64,
    /// One round for each two bits up to the highest one set, a single bit at the top counting as two; 0 to 32. It is
    /// the number of the definition and of the one loop that runs. It counts rounds and not time: no contract speaks of
    /// time.
    pub rounds: u32,
}

/// The root of n with its rounds: none for 0, at most 30 for n below 2^60.
///
/// ```
/// use ukhtvaresh::{root, Root};
///
/// // 10 is 1010 in binary: first 10, whose root is 1, then 1010.
/// assert_eq!(root(10), Root { root: 3, rounds: 2 });
/// ```
pub fn root(n: u64) -> Root {
    let (root, rounds) = ffi::root(n);
    Root { root, rounds: narrowed(rounds) }
}

fn numbers(entries: &[Entry]) -> Vec<u32> {
    entries.iter().flat_map(|entry| entry.numbers()).collect()
}

fn state(number: i64) -> State {
    match number {
        0 => State::Outside,
        1 => State::Inside,
        2 => State::Unsure,
        _ => unreachable!("the library gives only states of the table"),
    }
}

// A number that the library gives, in a narrower type. Its promises keep each within its range; if an
// archive breaks them, its number is not cut to one that looks right.
fn narrowed<Wide, Narrow: TryFrom<Wide>>(number: Wide) -> Narrow {
    let Ok(number) = Narrow::try_from(number) else {
        unreachable!("the library gives only numbers within their ranges");
    };
    number
}

// What `fill` writes, at its exact length. A sheet seldom has more than seven entries, 45 bytes; where it has, and for a
// listing, refusal 4 tells the length.
fn whole(fill: impl Fn(&mut [u8]) -> Result<usize, Refusal>) -> Result<Vec<u8>, Refusal> {
    let mut bytes = vec![0; 128];
    let length = match fill(&mut bytes) {
        Err(Refusal::Room { needed }) => {
            bytes.resize(narrowed(needed), 0);
            fill(&mut bytes)?
        }
        answer => answer?,
    };
    bytes.truncate(length);
    Ok(bytes)
}

#[cfg(test)]
mod tests {
    use super::{entry::direction, narrowed, state, State};

    #[test]
    fn numbers_within_their_ranges() {
        assert_eq!((narrowed::<i64, u32>(1_300_000), narrowed::<u64, usize>(65_536)), (1_300_000, 65_536));
        assert_eq!((direction(0), direction(3_599), direction(65_535)), (Some(0), Some(3_599), None));
        assert_eq!([0, 1, 2].map(state), [State::Outside, State::Inside, State::Unsure]);
    }

    #[test]
    fn no_other_number_is_cut() {
        fn refused<Number>(call: fn() -> Number) -> bool {
            std::panic::catch_unwind(call).is_err()
        }
        assert!(refused(|| narrowed::<i64, u32>(-1)));
        assert!(refused(|| narrowed::<i64, u32>((1 << 32) + 900)));
        assert!(refused(|| narrowed::<u32, u16>(65_536 + 7)));
        assert!(refused(|| direction(65_536)));
        assert!(refused(|| direction(u32::MAX)));
        assert!(refused(|| state(-1)));
        assert!(refused(|| state(3)));
    }
}
