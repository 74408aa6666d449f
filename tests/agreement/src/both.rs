//! One call of the library and of the reference: compared are the refusal's number, the value beside it, and each
//! whole buffer with 64 numbers past its end, the buffer for table S among them. The first difference stops the program
//! with all that gives it again.

use crate::answers;
use crate::library::{self, Reply};
use reference::mend;
use reference::mirror::mirror;
use reference::random::Random;
use reference::refusal::Refusal;
use reference::room::{share_of_input, sheet_and_share_of_input, sheet_of_input, star_of_input};
use reference::sheet;
use std::fmt::Debug;

const PAST: usize = 64;

/// What a call left: the reply and the whole buffer, canaries too.
pub type Left<T> = (Reply, Vec<T>);

/// A buffer of `length` with canaries past its end, both from the same random numbers.
pub fn buffer<T>(random: &mut Random, length: usize, number: impl Fn(u64) -> T) -> Vec<T> {
    (0..length + PAST).map(|_| number(random.bits())).collect()
}

pub fn reply<T>(result: Result<T, Refusal>, value: impl Fn(T) -> u64) -> Reply {
    match result {
        Ok(x) => (0, value(x)),
        Err(refusal) => (refusal.number().into(), refusal.place() as u64),
    }
}

pub fn must_agree<T: PartialEq + Debug>(what: &str, given: &dyn Debug, ours: &Left<T>, theirs: &Left<T>) {
    if ours == theirs {
        return;
    }
    println!("DIFFERENCE in {what}");
    println!("given {given:?}");
    println!("library {:?}, reference {:?}", ours.0, theirs.0);
    if let Some(at) = ours.1.iter().zip(&theirs.1).position(|(a, b)| a != b) {
        println!("buffers differ from {at} on: library {:?}, reference {:?}", ours.1[at], theirs.1[at]);
    }
    std::process::exit(1);
}

/// A sheet that a request may ask for: the library's function and the reference's.
pub struct Asked {
    name: &'static str,
    ours: fn(&[u8], &mut [u32], &mut [u8]) -> Reply,
    theirs: fn(&[u8], &mut [u32], &mut [u8]) -> Result<usize, Refusal>,
}

/// Without the share.
pub const PLAIN: Asked = Asked { name: "ukhtvaresh_sheet", ours: library::sheet, theirs: sheet_of_input };

/// With it.
pub const SHARED: Asked = Asked {
    name: "ukhtvaresh_sheet_and_share",
    ours: library::sheet_and_share,
    theirs: sheet_and_share_of_input,
};

/// Of a star request.
pub const STAR: Asked = Asked { name: "ukhtvaresh_star", ours: library::star, theirs: star_of_input };

pub fn sheet_both(random: &mut Random, asked: &Asked, request: &[u8], lent: usize, room: usize) -> Left<u8> {
    let old_sines = buffer(random, lent, |bits| bits as u32);
    let old = buffer(random, room, |bits| bits as u8);
    let (mut ours, mut our_sines) = (((0, 0), old.clone()), old_sines.clone());
    ours.0 = (asked.ours)(request, &mut our_sines[..lent], &mut ours.1[..room]);
    let (mut theirs, mut their_sines) = (((0, 0), old), old_sines);
    let made = (asked.theirs)(request, &mut their_sines[..lent], &mut theirs.1[..room]);
    theirs.0 = reply(made, |length| length as u64);
    must_agree(asked.name, &(request, lent, room), &ours, &theirs);
    let sines = ((ours.0, our_sines), (theirs.0, their_sines));
    must_agree(&format!("the sines of {}", asked.name), &(request, lent, room), &sines.0, &sines.1);
    ours
}

/// What one second of a request is asked by.
pub struct Moment {
    name: &'static str,
    ours: fn(&[u8], i64, &mut [u32], &mut [i64]) -> library::Reply,
    theirs: fn(&[u8], i64, &mut [u32], &mut [i64]) -> Result<usize, Refusal>,
}

/// Of an eclipse.
pub const SECOND: Moment =
    Moment { name: "ukhtvaresh_second", ours: library::second, theirs: answers::second };

/// Of a star.
pub const STAR_SECOND: Moment =
    Moment { name: "ukhtvaresh_star_second", ours: library::star_second, theirs: answers::star_second };

/// The horizon of an eclipse.
pub const HORIZON: Moment =
    Moment { name: "ukhtvaresh_horizon", ours: library::horizon, theirs: answers::horizon };

/// The horizon of a star.
pub const STAR_HORIZON: Moment =
    Moment { name: "ukhtvaresh_star_horizon", ours: library::star_horizon, theirs: answers::star_horizon };

pub fn second_both(
    random: &mut Random,
    asked: &Moment,
    request: &[u8],
    second: i64,
    lent: usize,
    room: usize,
) -> Left<i64> {
    let old_sines = buffer(random, lent, |bits| bits as u32);
    let old = buffer(random, room, |bits| bits as i64);
    let (mut ours, mut our_sines) = (((0, 0), old.clone()), old_sines.clone());
    ours.0 = (asked.ours)(request, second, &mut our_sines[..lent], &mut ours.1[..room]);
    let (mut theirs, mut their_sines) = (((0, 0), old), old_sines);
    let made = (asked.theirs)(request, second, &mut their_sines[..lent], &mut theirs.1[..room]);
    theirs.0 = reply(made, |count| count as u64);
    must_agree(asked.name, &(request, second, lent, room), &ours, &theirs);
    let sines = ((ours.0, our_sines), (theirs.0, their_sines));
    must_agree(&format!("the sines of {}", asked.name), &(request, second, lent, room), &sines.0, &sines.1);
    ours
}

/// What a contact of a request is asked by.
pub struct Contact {
    name: &'static str,
    ours: fn(&[u8], [i64; 3], &mut [u32], &mut [i64]) -> library::Reply,
    theirs: fn(&[u8], [i64; 3], &mut [u32], &mut [i64]) -> Result<usize, Refusal>,
}

/// Of an eclipse.
pub const CONTACT: Contact =
    Contact { name: "ukhtvaresh_contact", ours: library::contact, theirs: answers::contact };

/// Of a star.
pub const STAR_CONTACT: Contact =
    Contact { name: "ukhtvaresh_star_contact", ours: library::star_contact, theirs: answers::star_contact };

/// Of a phase and two seconds, from a room for table S and one for the numbers.
pub fn contact_both(
    random: &mut Random,
    asked: &Contact,
    request: &[u8],
    numbers: [i64; 3],
    [lent, room]: [usize; 2],
) -> Left<i64> {
    let old_sines = buffer(random, lent, |bits| bits as u32);
    let old = buffer(random, room, |bits| bits as i64);
    let (mut ours, mut our_sines) = (((0, 0), old.clone()), old_sines.clone());
    ours.0 = (asked.ours)(request, numbers, &mut our_sines[..lent], &mut ours.1[..room]);
    let (mut theirs, mut their_sines) = (((0, 0), old), old_sines);
    let made = (asked.theirs)(request, numbers, &mut their_sines[..lent], &mut theirs.1[..room]);
    theirs.0 = reply(made, |count| count as u64);
    must_agree(asked.name, &(request, numbers, lent, room), &ours, &theirs);
    let sines = ((ours.0, our_sines), (theirs.0, their_sines));
    must_agree(&format!("the sines of {}", asked.name), &(request, numbers, lent, room), &sines.0, &sines.1);
    ours
}

/// What it leaves in the buffer for table S, since it fills no other.
pub fn share_both(random: &mut Random, request: &[u8], second: i64, lent: usize) -> Left<u32> {
    let old = buffer(random, lent, |bits| bits as u32);
    let mut ours = ((0, 0), old.clone());
    ours.0 = library::share(request, second, &mut ours.1[..lent]);
    let mut theirs = ((0, 0), old);
    theirs.0 = reply(share_of_input(request, second, &mut theirs.1[..lent]), |share| share as u64);
    must_agree("ukhtvaresh_share", &(request, second, lent), &ours, &theirs);
    ours
}

pub fn read_both(random: &mut Random, sheet: &[u8], room: usize) -> Left<u32> {
    let old = buffer(random, room, |bits| bits as u32);
    let mut ours = ((0, 0), old.clone());
    ours.0 = library::read(sheet, &mut ours.1[..room]);
    let mut theirs = ((0, 0), old);
    theirs.0 = reply(sheet::read(sheet, &mut theirs.1[..room]), |count| count as u64);
    must_agree("ukhtvaresh_read", &(sheet, room), &ours, &theirs);
    ours
}

/// It fills nothing.
pub fn extent_both(bytes: &[u8]) -> Reply {
    let ours = (library::extent(bytes), Vec::<u8>::new());
    let theirs = (reply(mend::extent(bytes), |length| length as u64), Vec::new());
    must_agree("ukhtvaresh_extent", &bytes, &ours, &theirs);
    ours.0
}

pub fn write_both(random: &mut Random, entries: &[u32], room: usize) -> Left<u8> {
    let old = buffer(random, room, |bits| bits as u8);
    let mut ours = ((0, 0), old.clone());
    ours.0 = library::write(entries, &mut ours.1[..room]);
    let mut theirs = ((0, 0), old);
    theirs.0 = reply(sheet::write(entries, &mut theirs.1[..room]), |length| length as u64);
    must_agree("ukhtvaresh_write", &(entries, room), &ours, &theirs);
    ours
}

pub fn listing_both(random: &mut Random, sheet: &[u8], room: usize) -> Left<u8> {
    let old = buffer(random, room, |bits| bits as u8);
    let mut ours = ((0, 0), old.clone());
    ours.0 = library::listing(sheet, &mut ours.1[..room]);
    let mut theirs = ((0, 0), old);
    theirs.0 = reply(answers::listing(sheet, &mut theirs.1[..room]), |length| length as u64);
    must_agree("ukhtvaresh_listing", &(sheet, room), &ours, &theirs);
    ours
}

pub fn mirror_both(random: &mut Random, request: &[u8], room: usize) -> Left<u8> {
    let old = buffer(random, room, |bits| bits as u8);
    let mut ours = ((0, 0), old.clone());
    ours.0 = library::mirror(request, &mut ours.1[..room]);
    let mut theirs = ((0, 0), old);
    theirs.0 = reply(mirror(request, &mut theirs.1[..room]), |length| length as u64);
    must_agree("ukhtvaresh_mirror", &(request, room), &ours, &theirs);
    ours
}

/// Elements from rows, with rooms of these lengths for table S, the elements and the misfits.
pub fn elements_both(random: &mut Random, given: &crate::rows::Given, rooms: [usize; 3]) -> Reply {
    let name = "ukhtvaresh_elements";
    let old_sines = buffer(random, rooms[0], |bits| bits as u32);
    let old = buffer(random, rooms[1], |bits| bits as i64);
    let old_misfits = buffer(random, rooms[2], |bits| bits as i64);
    let (mut our_sines, mut ours, mut our_misfits) = (old_sines.clone(), old.clone(), old_misfits.clone());
    let (rows, sidereal, radii, tolerance) = given;
    let our_reply = library::elements(
        rows,
        sidereal,
        radii,
        *tolerance,
        &mut our_sines[..rooms[0]],
        &mut ours[..rooms[1]],
        &mut our_misfits[..rooms[2]],
    );
    let (mut their_sines, mut theirs, mut their_misfits) = (old_sines, old, old_misfits);
    let made = answers::elements(
        given,
        &mut their_sines[..rooms[0]],
        &mut theirs[..rooms[1]],
        &mut their_misfits[..rooms[2]],
    );
    let their_reply = reply(made, |length| length as u64);
    let asked = (given, rooms);
    must_agree(name, &asked, &(our_reply, ours), &(their_reply, theirs));
    must_agree(&format!("the misfits of {name}"), &asked, &(our_reply, our_misfits), &(their_reply, their_misfits));
    must_agree(&format!("the sines of {name}"), &asked, &(our_reply, our_sines), &(their_reply, their_sines));
    our_reply
}
