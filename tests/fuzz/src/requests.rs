//! What begins with a request: its sheet, a second, a share, a horizon, a contact; each has a buffer for table S.

use crate::{left, must_agree, must_come_back, old_byte, old_number, reply, room, Left, PAST};
use agreement::answers;
use agreement::library::{self, Reply};
use reference::elements::{Elements, Station, Window, ELEMENT_RANGES, FARTHEST, STATION_RANGES};
use reference::refusal::Refusal;
use reference::request::{Request, KIND_PLACES, REQUEST_LENGTH};
use reference::room::{fill, share_of_input, SINES};
use reference::shadow::GUARDS;
use reference::sheet;
use std::fmt::Debug;
use std::ops::RangeInclusive;

extern "C" {
    // The guide's exports, as include/ukhtvaresh.h declares those of the archive.
    fn guide_sheet(
        input: *const u8,
        length: usize,
        sines: *mut u32,
        sines_len: usize,
        room: *mut u8,
        room_len: usize,
        value: *mut u64,
    ) -> u64;
    fn guide_sheet_and_share(
        input: *const u8,
        length: usize,
        sines: *mut u32,
        sines_len: usize,
        room: *mut u8,
        room_len: usize,
        value: *mut u64,
    ) -> u64;
    fn guide_second(
        input: *const u8,
        length: usize,
        second: i64,
        sines: *mut u32,
        sines_len: usize,
        room: *mut i64,
        room_len: usize,
        value: *mut u64,
    ) -> u64;
    fn guide_horizon(
        input: *const u8,
        length: usize,
        second: i64,
        sines: *mut u32,
        sines_len: usize,
        room: *mut i64,
        room_len: usize,
        value: *mut u64,
    ) -> u64;
    fn guide_contact(
        input: *const u8,
        length: usize,
        phase: i64,
        from: i64,
        to: i64,
        sines: *mut u32,
        sines_len: usize,
        room: *mut i64,
        room_len: usize,
        value: *mut u64,
    ) -> u64;
    fn guide_share(
        input: *const u8,
        length: usize,
        second: i64,
        sines: *mut u32,
        sines_len: usize,
        value: *mut u64,
    ) -> u64;
}

pub(crate) type SheetExport =
    unsafe extern "C" fn(*const u8, usize, *mut u32, usize, *mut u8, usize, *mut u64) -> u64;

pub(crate) type SecondExport =
    unsafe extern "C" fn(*const u8, usize, i64, *mut u32, usize, *mut i64, usize, *mut u64) -> u64;

pub(crate) type ContactExport =
    unsafe extern "C" fn(*const u8, usize, i64, i64, i64, *mut u32, usize, *mut i64, usize, *mut u64) -> u64;

/// The buffer for table S: 901 numbers, or another count where that bit of the byte before a request says so.
pub const OTHER_SINES: u8 = 0x08;

pub(crate) fn sines_room(leave: u8, near: u8, far: u8) -> usize {
    if leave & OTHER_SINES == 0 {
        return SINES;
    }
    [0, SINES - 1, SINES + 1, usize::from(near)][usize::from(far >> 3) % 4]
}

/// What a call left in its buffer and in the buffer for table S.
pub(crate) fn left_lent<T>(
    lent: usize,
    room: usize,
    old: fn(usize) -> T,
    call: impl FnOnce(&mut [u32], &mut [T]) -> Reply,
) -> (Left<T>, Left<u32>) {
    let mut sines: Vec<u32> = (0..lent + PAST).map(old_number).collect();
    let left = left(room, old, |room| call(&mut sines[..lent], room));
    let reply = left.reply;
    (left, Left { reply, buffer: sines })
}

pub(crate) fn both_agree<T: PartialEq + Debug>(
    what: &str,
    given: &[u8],
    [lent, room]: [usize; 2],
    ours: &(Left<T>, Left<u32>),
    theirs: &(Left<T>, Left<u32>),
) {
    must_agree(what, given, room, &ours.0, &theirs.0);
    must_agree(&format!("the sines of {what}"), given, lent, &ours.1, &theirs.1);
}

/// Bits of the byte before a request: what is left as it stands. The rest is mended, so that not every change ends in
/// a refusal.
pub const LEAVE_SHAPE: u8 = 0x01;
pub const LEAVE_NUMBERS: u8 = 0x02;

/// A short window's seconds, less one.
const SHORT: i64 = 600;

/// A number of the range, itself where it is one.
pub(crate) fn into_range(number: i64, range: &RangeInclusive<i64>) -> i64 {
    let count = range.end() - range.start() + 1;
    range.start() + (number - range.start()).rem_euclid(count)
}

pub(crate) fn into_ranges<const N: usize>(numbers: [i64; N], ranges: &[RangeInclusive<i64>; N]) -> [i64; N] {
    std::array::from_fn(|field| into_range(numbers[field], &ranges[field]))
}

/// A window, both seconds brought into their range.
pub(crate) fn window_within(window: Window) -> Window {
    let seconds = -FARTHEST..=FARTHEST;
    let [a, b] = [window.first, window.last].map(|second| into_range(second, &seconds));
    Window { first: a.min(b), last: a.max(b) }
}

pub(crate) fn within_limits(request: &Request) -> Request {
    Request {
        elements: Elements::from_fields(into_ranges(request.elements.fields(), &ELEMENT_RANGES)),
        station: Station::from_fields(into_ranges(request.station.fields(), &STATION_RANGES)),
        window: window_within(request.window),
        guard: into_range(request.guard, &GUARDS),
        share: request.share,
    }
}

pub(crate) fn give_shape(bytes: &mut Vec<u8>) {
    bytes.resize(REQUEST_LENGTH, 0);
    for (kind, at) in (2..).zip(KIND_PLACES) {
        bytes[at] = kind;
    }
}

/// Long windows are slow, and the fuzzer would stay with them: one input in sixteen has one, any change draws again.
pub(crate) fn short(window: Window, leave: u8, raw: &[u8]) -> Window {
    let sum: u32 = raw.iter().copied().map(u32::from).sum();
    if sum % 16 == u32::from(leave >> 4) {
        return window;
    }
    Window { last: window.last.min(window.first + SHORT), ..window }
}

pub(crate) fn request(leave: u8, raw: &[u8]) -> Vec<u8> {
    let mut bytes = raw.to_vec();
    if leave & LEAVE_SHAPE == 0 {
        give_shape(&mut bytes);
    }
    let Ok(mut request) = Request::from_bytes(&bytes) else { return bytes };
    if leave & LEAVE_NUMBERS == 0 {
        request = within_limits(&request);
    }
    request.window = short(request.window, leave, raw);
    request.to_bytes().expect("numbers no wider than they were").to_vec()
}

/// What makes sheets of requests: its name, the library's function, the guide's.
pub(crate) struct Asked {
    pub name: &'static str,
    pub call: fn(&[u8], &mut [u32], &mut [u8]) -> Reply,
    pub counted: SheetExport,
}

/// A request's sheet by the library, by its guide, and as it was found.
pub(crate) fn sheets_agree(
    asked: &Asked,
    request: &[u8],
    found: Result<Vec<u8>, Refusal>,
    [near, far, leave]: Head,
) {
    let room = room(found.as_ref().map_or(0, Vec::len), near, far);
    let rooms @ [lent, room] = [sines_room(leave, near, far), room];
    let theirs = left_lent(lent, room, old_byte, |sines, room| {
        reply(found.and_then(|bytes| fill(sines).and_then(|()| sheet::copy_into(&bytes, room))))
    });
    let ours = left_lent(lent, room, old_byte, |sines, room| (asked.call)(request, sines, room));
    both_agree(asked.name, request, rooms, &ours, &theirs);
    let guided = left_lent(lent, room, old_byte, |sines, room| {
        let mut value = 0;
        let (length, sines_len, room_len) = (request.len(), sines.len(), room.len());
        let (sines, room) = (sines.as_mut_ptr(), room.as_mut_ptr());
        let number = unsafe {
            (asked.counted)(request.as_ptr(), length, sines, sines_len, room, room_len, &mut value)
        };
        (number, value)
    });
    both_agree(&format!("{} with counters", asked.name), request, rooms, &guided, &theirs);
    if let (0, length) = ours.0.reply {
        must_come_back(&ours.0.buffer[..length as usize]);
    }
}

/// Bit of the byte before a request, for `sheet`: it is asked for with its share.
pub const WITH_SHARE: u8 = 0x04;

/// Two bytes for the buffer's length, one for what is left as it stands, then the request.
pub fn sheet(input: &[u8]) {
    let &[near, far, leave, ref raw @ ..] = input else { return };
    let request = request(leave, raw);
    let share = leave & WITH_SHARE != 0;
    let asked = if share {
        Asked {
            name: "ukhtvaresh_sheet_and_share",
            call: library::sheet_and_share,
            counted: guide_sheet_and_share,
        }
    } else {
        Asked { name: "ukhtvaresh_sheet", call: library::sheet, counted: guide_sheet }
    };
    // The sheet once, and only then the buffer, since the seconds of a window are most of the work.
    let found = Request::from_bytes(&request).and_then(|request| Request { share, ..request }.check());
    let found = found.map(|circumstances| sheet::bytes_of(&circumstances.records()));
    sheets_agree(&asked, &request, found, [near, far, leave]);
}

/// The same bit, for `second`, `share`, the horizons and the contacts: the seconds are left as they stand.
pub const LEAVE_SECOND: u8 = 0x04;

/// What stands before the request and its second: two bytes for the buffer's length, one for what is left as it stands.
pub(crate) type Head = [u8; 3];

/// These, then eight bytes for the second, then the request, which `made` mends.
pub(crate) fn request_and_second(
    input: &[u8],
    made: fn(u8, &[u8]) -> Vec<u8>,
) -> Option<(Head, Vec<u8>, i64)> {
    let &[near, far, leave, a, b, c, d, e, f, g, h, ref raw @ ..] = input else { return None };
    let mut second = i64::from_be_bytes([a, b, c, d, e, f, g, h]);
    if leave & LEAVE_SECOND == 0 {
        second = into_range(second >> 1, &(-FARTHEST..=FARTHEST));
    }
    Some(([near, far, leave], made(leave, raw), second))
}

/// The share at a second; it fills no buffer but that for table S.
pub fn share(input: &[u8]) {
    let Some(([near, far, leave], request, second)) = request_and_second(input, request) else { return };
    let lent = sines_room(leave, near, far);
    let theirs = left(lent, old_number, |sines| {
        reply(share_of_input(&request, second, sines).map(|share| share as usize))
    });
    let ours = left(lent, old_number, |sines| library::share(&request, second, sines));
    must_agree("ukhtvaresh_share", &request, lent, &ours, &theirs);
    let guided = left(lent, old_number, |sines| {
        let mut value = 0;
        let (length, sines_len) = (request.len(), sines.len());
        let sines = sines.as_mut_ptr();
        let number = unsafe { guide_share(request.as_ptr(), length, second, sines, sines_len, &mut value) };
        (number, value)
    });
    must_agree("ukhtvaresh_share with counters", &request, lent, &guided, &theirs);
}

/// What gives numbers of a second of a request: its name, their count, the functions of library, guide and reference.
pub(crate) struct Moment {
    pub name: &'static str,
    pub count: usize,
    pub call: fn(&[u8], i64, &mut [u32], &mut [i64]) -> Reply,
    pub counted: SecondExport,
    pub found: fn(&[u8], i64, &mut [u32], &mut [i64]) -> Result<usize, Refusal>,
}

/// A second's numbers by the library, by its guide and by the reference.
pub(crate) fn numbers_agree(asked: &Moment, request: &[u8], second: i64, [near, far, leave]: Head) {
    let rooms @ [lent, room] = [sines_room(leave, near, far), room(asked.count, near, far)];
    let old = |at: usize| (at as i64).wrapping_mul(0x9E37_79B9_7F4A_7C15_u64 as i64);
    let theirs = left_lent(lent, room, old, |sines, room| reply((asked.found)(request, second, sines, room)));
    let ours = left_lent(lent, room, old, |sines, room| (asked.call)(request, second, sines, room));
    both_agree(asked.name, request, rooms, &ours, &theirs);
    let guided = left_lent(lent, room, old, |sines, room| {
        let mut value = 0;
        let (length, sines_len, room_len) = (request.len(), sines.len(), room.len());
        let (sines, room) = (sines.as_mut_ptr(), room.as_mut_ptr());
        let number = unsafe {
            (asked.counted)(request.as_ptr(), length, second, sines, sines_len, room, room_len, &mut value)
        };
        (number, value)
    });
    both_agree(&format!("{} with counters", asked.name), request, rooms, &guided, &theirs);
}

/// The eight numbers of a second.
pub fn second(input: &[u8]) {
    let Some((head, request, second)) = request_and_second(input, request) else { return };
    let asked = Moment {
        name: "ukhtvaresh_second",
        count: 8,
        call: library::second,
        counted: guide_second,
        found: answers::second,
    };
    numbers_agree(&asked, &request, second, head);
}

/// The three numbers of the horizon at a second.
pub fn horizon(input: &[u8]) {
    let Some((head, request, second)) = request_and_second(input, request) else { return };
    let asked = Moment {
        name: "ukhtvaresh_horizon",
        count: 3,
        call: library::horizon,
        counted: guide_horizon,
        found: answers::horizon,
    };
    numbers_agree(&asked, &request, second, head);
}

/// The same, then a byte for the phase, eight bytes for each of the two seconds, then the request. Where the seconds are
/// not left as they stand, they are in their range and in order.
pub(crate) fn request_and_contact(
    input: &[u8],
    made: fn(u8, &[u8]) -> Vec<u8>,
) -> Option<(Head, Vec<u8>, [i64; 3])> {
    let (&[near, far, leave, phase], rest) = input.split_first_chunk()?;
    let (&from, rest) = rest.split_first_chunk()?;
    let (&to, raw) = rest.split_first_chunk()?;
    let (mut from, mut to) = (i64::from_be_bytes(from), i64::from_be_bytes(to));
    if leave & LEAVE_SECOND == 0 {
        let [a, b] = [from, to].map(|second| into_range(second >> 1, &(-FARTHEST..=FARTHEST)));
        (from, to) = (a.min(b), a.max(b));
    }
    Some(([near, far, leave], made(leave, raw), [i64::from(phase as i8), from, to]))
}

/// What gives the contact of a request: its name and the functions of library, guide and reference.
pub(crate) struct Contact {
    pub name: &'static str,
    pub call: fn(&[u8], [i64; 3], &mut [u32], &mut [i64]) -> Reply,
    pub counted: ContactExport,
    pub found: fn(&[u8], [i64; 3], &mut [u32], &mut [i64]) -> Result<usize, Refusal>,
}

/// A contact by the library, by its guide and by the reference.
pub(crate) fn brackets_agree(asked: &Contact, request: &[u8], numbers: [i64; 3], [near, far, leave]: Head) {
    let rooms @ [lent, room] = [sines_room(leave, near, far), room(2, near, far)];
    let old = |at: usize| (at as i64).wrapping_mul(0x9E37_79B9_7F4A_7C15_u64 as i64);
    let theirs =
        left_lent(lent, room, old, |sines, room| reply((asked.found)(request, numbers, sines, room)));
    let ours = left_lent(lent, room, old, |sines, room| (asked.call)(request, numbers, sines, room));
    both_agree(asked.name, request, rooms, &ours, &theirs);
    let guided = left_lent(lent, room, old, |sines, room| {
        let mut value = 0;
        let [phase, from, to] = numbers;
        let (length, sines_len, room_len) = (request.len(), sines.len(), room.len());
        let (request, sines, room) = (request.as_ptr(), sines.as_mut_ptr(), room.as_mut_ptr());
        let number = unsafe {
            (asked.counted)(request, length, phase, from, to, sines, sines_len, room, room_len, &mut value)
        };
        (number, value)
    });
    both_agree(&format!("{} with counters", asked.name), request, rooms, &guided, &theirs);
}

/// The two hundredths of a contact.
pub fn contact(input: &[u8]) {
    let Some((head, request, numbers)) = request_and_contact(input, request) else { return };
    let asked = Contact {
        name: "ukhtvaresh_contact",
        call: library::contact,
        counted: guide_contact,
        found: answers::contact,
    };
    brackets_agree(&asked, &request, numbers, head);
}
