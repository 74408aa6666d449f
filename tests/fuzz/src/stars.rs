//! A star request, its sheet, its horizon and its contacts.

use crate::requests::{
    brackets_agree, into_range, into_ranges, numbers_agree, request_and_contact, request_and_second,
    sheets_agree, short, window_within, Asked, Contact, Moment, LEAVE_NUMBERS, LEAVE_SHAPE,
};
use agreement::answers;
use agreement::library;
use agreement::stars::outside;
use reference::axis::{put_along_edge, put_near_edge, slow_down};
use reference::elements::{Station, STATION_RANGES};
use reference::random::Random;
use reference::sample::Manner;
use reference::sample_star;
use reference::shadow::GUARDS;
use reference::sheet;
use reference::star::{
    star_ranges, StarElements, StarRequest, RADII, STAR_KIND, STAR_KIND_PLACES, STAR_LENGTH,
};

extern "C" {
    // The guide's exports, as include/ukhtvaresh.h declares those of the archive.
    fn guide_star(
        input: *const u8,
        length: usize,
        sines: *mut u32,
        sines_len: usize,
        room: *mut u8,
        room_len: usize,
        value: *mut u64,
    ) -> u64;
    fn guide_star_horizon(
        input: *const u8,
        length: usize,
        second: i64,
        sines: *mut u32,
        sines_len: usize,
        room: *mut i64,
        room_len: usize,
        value: *mut u64,
    ) -> u64;
    fn guide_star_contact(
        input: *const u8,
        length: usize,
        phase: i64,
        from: i64,
        to: i64,
        sines: *mut u32,
        sines_len: usize,
        room: *mut i64,
        room_len: usize,
        value: *mut u64,
    ) -> u64;
}

fn within_limits(request: &StarRequest) -> StarRequest {
    StarRequest {
        elements: StarElements::from_fields(into_ranges(request.elements.fields(), &star_ranges())),
        radius: into_range(request.radius, &RADII),
        station: Station::from_fields(into_ranges(request.station.fields(), &STATION_RANGES)),
        window: window_within(request.window),
        guard: into_range(request.guard, &GUARDS),
    }
}

fn give_shape(bytes: &mut Vec<u8>) {
    bytes.resize(STAR_LENGTH, 0);
    for (kind, at) in [STAR_KIND, 3, 4].into_iter().zip(STAR_KIND_PLACES) {
        bytes[at] = kind;
    }
}

fn request(leave: u8, raw: &[u8]) -> Vec<u8> {
    let mut bytes = raw.to_vec();
    if leave & LEAVE_SHAPE == 0 {
        give_shape(&mut bytes);
    }
    let Ok(mut request) = StarRequest::from_bytes(&bytes) else { return bytes };
    if leave & LEAVE_NUMBERS == 0 {
        request = within_limits(&request);
    }
    request.window = short(request.window, leave, raw);
    request.to_bytes().expect("numbers no wider than they were").to_vec()
}

/// Two bytes for the buffer's length, one for what is left as it stands, then the request.
pub fn star(input: &[u8]) {
    let &[near, far, leave, ref raw @ ..] = input else { return };
    let request = request(leave, raw);
    let asked = Asked { name: "ukhtvaresh_star", call: library::star, counted: guide_star };
    let found = StarRequest::from_bytes(&request).and_then(|request| request.check());
    let found = found.map(|occultation| sheet::bytes_of(&occultation.records()));
    sheets_agree(&asked, &request, found, [near, far, leave]);
}

/// Two bytes for the buffer's length, one for what is left as it stands, eight for the second, then the request.
pub fn horizon(input: &[u8]) {
    let Some((head, request, second)) = request_and_second(input, request) else { return };
    let asked = Moment {
        name: "ukhtvaresh_star_horizon",
        count: 3,
        call: library::star_horizon,
        counted: guide_star_horizon,
        found: answers::star_horizon,
    };
    numbers_agree(&asked, &request, second, head);
}

/// Two bytes for the room, one for what is left as it stands, one for the phase, eight for each of two seconds, then the
/// request.
pub fn contact(input: &[u8]) {
    let Some((head, request, numbers)) = request_and_contact(input, request) else { return };
    let asked = Contact {
        name: "ukhtvaresh_star_contact",
        call: library::star_contact,
        counted: guide_star_contact,
        found: answers::star_contact,
    };
    brackets_agree(&asked, &request, numbers, head);
}

/// One number of a request at or next to its limits, or anywhere within them.
fn put_at_limit(random: &mut Random, request: &mut StarRequest) {
    let manner = if random.once_in(4) { Manner::Anywhere } else { Manner::AtLimits };
    let drawn = sample_star::draw(random, manner);
    match random.below(21) as usize {
        field @ 0..12 => {
            let mut fields = request.elements.fields();
            fields[field] = drawn.elements.fields()[field];
            request.elements = StarElements::from_fields(fields);
        }
        12 => request.radius = drawn.radius,
        field @ 13..18 => {
            let mut fields = request.station.fields();
            fields[field - 13] = drawn.station.fields()[field - 13];
            request.station = Station::from_fields(fields);
        }
        18 => request.window.first = drawn.window.first,
        19 => request.window.last = drawn.window.last,
        _ => request.guard = drawn.guard,
    }
}

/// A number at a limit or past it, or the axis near the cylinder's edge, along it or slow at a second of the window;
/// what is no request becomes one, and its numbers come within their limits.
pub fn change(random: &mut Random, bytes: &mut Vec<u8>) {
    let Ok(mut request) = StarRequest::from_bytes(bytes) else { return give_shape(bytes) };
    match random.below(8) {
        0 => outside(random, &mut request),
        1..=4 if request.check().is_err() => request = within_limits(&request),
        sort @ 1..=4 => {
            let second = random.within(&request.window.seconds());
            let [u_rate, v_rate] = [0; 2].map(|_: i64| random.within(&(-10_000..=10_000)));
            match sort {
                1 | 2 => put_near_edge(random, &mut request, second, ()),
                3 => _ = put_along_edge(&mut request, second, (), random.within(&(-40..=40))),
                _ => slow_down(&mut request, second, u_rate, v_rate),
            }
        }
        _ => put_at_limit(random, &mut request),
    }
    if let Some(changed) = request.to_bytes() {
        *bytes = changed.to_vec();
    }
}
