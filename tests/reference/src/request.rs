//! A request: elements, station, window and guard, and whether the share is asked for; its sheet.

use crate::elements::{Elements, Station, Window, FARTHEST};
use crate::entries::{entries, Entry};
use crate::place::{place, Place};
use crate::refusal::Refusal;
use crate::shadow::{Phase, Shadow, State, GUARDS};
use crate::sheet::{
    bytes_of, copy_into, Record, Role, CLOSEST, END, ENTER_CENTRAL, ENTER_PENUMBRA, HEAD, SHARE,
};

/// What is asked for; any numbers at all.
#[derive(Clone, Copy, PartialEq, Eq, Debug)]
pub struct Request {
    pub elements: Elements,
    pub station: Station,
    pub window: Window,
    /// how near to a cone's edge nothing is sure, units, 16 to 1,000: document 02, wish 9.
    pub guard: i64,
    /// whether the sheet is to have the share: document 02, wish 4. The 115 bytes have no place for it.
    pub share: bool,
}

/// The length of a request in bytes.
pub const REQUEST_LENGTH: usize = 115;

/// Where the bytes of kind stand in it: 02, 03, 04.
pub const KIND_PLACES: [usize; 3] = [0, 89, 108];

/// The length of what ends every request, an eclipse's and a star's: kind 03 and number (unsigned, 2 bytes), latitude,
/// longitude, height, ΔT (signed, 4 each); kind 04 and first, last (signed, 2 each), guard (unsigned, 2 bytes).
pub const STATION_AND_WINDOW: usize = 26;

/// Signed big-endian numbers of 4 bytes.
pub fn signed<const N: usize>(bytes: &[u8]) -> [i64; N] {
    let four = |at: usize| [bytes[at], bytes[at + 1], bytes[at + 2], bytes[at + 3]];
    std::array::from_fn(|number| i32::from_be_bytes(four(4 * number)).into())
}

/// Station, window and guard of such bytes. Refused as 10 where their kinds are others.
pub fn station_and_window(bytes: &[u8; STATION_AND_WINDOW]) -> Result<(Station, Window, i64), Refusal> {
    if [bytes[0], bytes[19]] != [3, 4] {
        return Err(Refusal::Shape);
    }
    let two = |at: usize| [bytes[at], bytes[at + 1]];
    let [latitude, longitude, height, delta_t] = signed(&bytes[3..]);
    let number = u16::from_be_bytes(two(1)).into();
    let [first, last] = [20, 22].map(|at| i16::from_be_bytes(two(at)).into());
    let station = Station { number, latitude, longitude, height, delta_t };
    Ok((station, Window { first, last }, u16::from_be_bytes(two(24)).into()))
}

/// A request's bytes: the kind of its elements, their numbers, then station, window and guard; nothing if a number
/// does not fit in them.
pub fn request_bytes(
    kind: u8,
    numbers: &[i64],
    station: &Station,
    window: &Window,
    guard: i64,
) -> Option<Vec<u8>> {
    let mut bytes = vec![kind];
    for number in numbers {
        bytes.extend(i32::try_from(*number).ok()?.to_be_bytes());
    }
    bytes.push(3);
    bytes.extend(u16::try_from(station.number).ok()?.to_be_bytes());
    for field in &station.fields()[1..] {
        bytes.extend(i32::try_from(*field).ok()?.to_be_bytes());
    }
    bytes.push(4);
    for second in [window.first, window.last] {
        bytes.extend(i16::try_from(second).ok()?.to_be_bytes());
    }
    bytes.extend(u16::try_from(guard).ok()?.to_be_bytes());
    Some(bytes)
}

impl Request {
    /// From exactly 115 bytes, which never ask for the share: kind 02 and 22 signed 4-byte numbers; kind 03 and
    /// number (unsigned, 2 bytes), latitude, longitude, height, ΔT (signed, 4 each); kind 04 and first, last (signed,
    /// 2 each), guard (unsigned, 2 bytes); big-endian. Refused as 10 otherwise. Ranges are not looked at.
    pub fn from_bytes(bytes: &[u8]) -> Result<Request, Refusal> {
        let bytes: &[u8; REQUEST_LENGTH] = bytes.try_into().map_err(|_| Refusal::Shape)?;
        let Some((elements, tail)) = bytes.split_last_chunk() else { return Err(Refusal::Shape) };
        if elements[0] != 2 {
            return Err(Refusal::Shape);
        }
        let (station, window, guard) = station_and_window(tail)?;
        let elements = Elements::from_fields(signed(&elements[1..]));
        Ok(Request { elements, station, window, guard, share: false })
    }

    /// The 115 bytes of a request but for its wish for the share, or nothing if a number does not fit in them.
    pub fn to_bytes(&self) -> Option<[u8; REQUEST_LENGTH]> {
        let bytes = request_bytes(2, &self.elements.fields(), &self.station, &self.window, self.guard)?;
        bytes.try_into().ok()
    }

    /// The request with its station's place, once 1, 2 and 3 are past.
    pub fn check(&self) -> Result<Circumstances, Refusal> {
        self.window.check()?;
        if !GUARDS.contains(&self.guard) {
            return Err(Refusal::Guard);
        }
        self.elements.check()?;
        self.station.check()?;
        let place = place(self.station.latitude, self.station.height);
        Ok(Circumstances { request: *self, place, east: self.station.east() })
    }

    /// Write the sheet at the start of the buffer and give its length, or refuse as 1, 2, 3 or 4 and leave
    /// the buffer alone.
    pub fn sheet(&self, buffer: &mut [u8]) -> Result<usize, Refusal> {
        copy_into(&bytes_of(&self.check()?.records()), buffer)
    }
}

/// A request within its ranges.
#[derive(Clone, Copy, Debug)]
pub struct Circumstances {
    request: Request,
    place: Place,
    east: i64,
}

impl Circumstances {
    pub fn request(&self) -> &Request {
        &self.request
    }

    pub fn place(&self) -> Place {
        self.place
    }

    /// The shadow at a second within ±10,800.
    #[inline]
    pub fn shadow(&self, second: i64) -> Shadow {
        Shadow::at(&self.request.elements, self.place, self.east, second)
    }

    /// The records of the request's sheet.
    pub fn records(&self) -> Vec<Record> {
        let Request { window: Window { first, last }, guard, .. } = self.request;
        let length = (last - first + 1) as usize;
        let mut penumbra = Vec::with_capacity(length);
        let mut central = Vec::with_capacity(length);
        // Of equal M the earliest second stays.
        let mut closest = (i64::MAX, first);
        for second in first..=last {
            let shadow = self.shadow(second);
            penumbra.push(shadow.state(Phase::Penumbra, guard));
            central.push(shadow.state(Phase::Central, guard));
            if shadow.m() < closest.0 {
                closest = (shadow.m(), second);
            }
        }
        let (_, closest) = closest;
        let number = self.request.station.number as u32;
        let mut records = vec![Record::new(HEAD, [number, stored(first), stored(last), guard as u32])];
        let direction_at = |second| self.shadow(second).direction();
        records.extend(phase_records(ENTER_PENUMBRA, first, &penumbra, direction_at));
        records.extend(phase_records(ENTER_CENTRAL, first, &central, direction_at));
        let shadow = self.shadow(closest);
        let magnitude = shadow.magnitude(guard) as u32;
        records.push(Record::new(CLOSEST, [stored(closest), magnitude, 0, 0]));
        if self.request.share {
            records.push(Record::new(SHARE, [shadow.share() as u32, 0, 0, 0]));
        }
        records.push(Record::new(END, [0; 4]));
        records
    }
}

/// The records of a phase by time: its enter has the kind `base`, leave, graze and open follow.
pub fn phase_records(
    base: u32,
    first: i64,
    states: &[State],
    direction_at: impl Fn(i64) -> i64,
) -> Vec<Record> {
    let record_of = |entry: Entry| {
        let (kind, direction) = match entry.role {
            Role::Enter => (base, direction_at(entry.to)),
            Role::Leave => (base + 1, direction_at(entry.from)),
            Role::Graze => (base + 2, 0),
            Role::Open => (base + 3, 0),
        };
        Record::new(kind, [stored(entry.from), stored(entry.to), direction as u32, 0])
    };
    entries(first, states).into_iter().map(record_of).collect()
}

/// A second as a sheet stores it.
pub fn stored(second: i64) -> u32 {
    (second + FARTHEST) as u32
}
