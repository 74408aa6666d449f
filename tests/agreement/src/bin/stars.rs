//! `stars REQUESTS SEED`: the compiled library's sheets and seconds of star requests against document 02, wish 7, in
//! plain Rust.
//!
//! Compared for each call: the refusal's number, the value beside it, and each whole buffer with 64 numbers past its
//! end, the buffer for table S among them. Requests lie within their limits (anywhere, at them, as occultations are;
//! near the cylinder's edge, slow, at a pole, along the edge, through the axis), outside them, or have another shape;
//! the buffers are exact, one less, none, plenty. Each sheet is read, written again and listed by both. Eight seconds
//! of each request, within ±10,800 and outside, and of each sheet the seconds at which its entries have their
//! directions: these are the same.
//!
//! Prints counts; the first difference stops it with all that gives it again.

use agreement::both::{listing_both, read_both, second_both, sheet_both, write_both, STAR, STAR_SECOND};
use agreement::{draws, stars};
use reference::elements::FARTHEST;
use reference::random::Random;
use reference::room::SINES;
use reference::sheet::{ENTER_STAR, LEAVE_STAR, WORDS};
use std::collections::BTreeMap;
use std::time::Instant;

/// How often each number was answered, or each kind written.
type Counts = BTreeMap<u64, u64>;

fn shown(counts: &Counts, number: impl Fn(&u64) -> String) -> String {
    counts.iter().map(|(key, count)| format!("{}: {count}", number(key))).collect::<Vec<_>>().join(", ")
}

/// A sheet read and written again is the same, and so are the directions of its entries at their seconds; its kinds.
fn round_trip(random: &mut Random, request: &[u8], sheet: &[u8], kinds: &mut Counts) {
    let ((_, count), entries) = read_both(random, sheet, WORDS * sheet.len());
    let entries = &entries[..WORDS * count as usize];
    let ((number, length), again) = write_both(random, entries, sheet.len());
    listing_both(random, sheet, 40 * sheet.len());
    if number != 0 || again[..length as usize] != *sheet {
        println!("DIFFERENCE: a sheet read and written again is another: {sheet:?}");
        std::process::exit(1);
    }
    for entry in entries.chunks_exact(WORDS) {
        *kinds.entry(entry[0].into()).or_default() += 1;
        // an enter has its direction at to, a leave at from: both inside
        let second = match entry[0] {
            ENTER_STAR => entry[2],
            LEAVE_STAR => entry[1],
            _ => continue,
        };
        let second = i64::from(second) - FARTHEST;
        let ((number, _), shadow) = second_both(random, &STAR_SECOND, request, second, SINES, 5);
        if number != 0 || shadow[3..5] != [1, entry[3].into()] {
            println!("DIFFERENCE: at {second} the sheet has {entry:?}, the second {shadow:?}: {request:?}");
            std::process::exit(1);
        }
    }
}

fn main() {
    let mut arguments =
        std::env::args().skip(1).map(|word| word.parse().expect("usage: stars REQUESTS SEED"));
    let (requests, seed) = (arguments.next().unwrap_or(10_000), arguments.next().unwrap_or(1));
    let start = Instant::now();
    let mut random = Random::new(seed);
    let (mut replies, mut kinds) = (Counts::new(), Counts::new());
    let (mut seconds, mut states) = (Counts::new(), Counts::new());
    for _ in 0..requests {
        let request = stars::request(&mut random);
        let ((number, length), sheet) = sheet_both(&mut random, &STAR, &request, SINES, 65_536);
        *replies.entry(number).or_default() += 1;
        if number == 0 {
            round_trip(&mut random, &request, &sheet[..length as usize], &mut kinds);
        }
        let needed = if number == 0 { length as usize } else { 31 };
        let (lent, room) = (draws::sines_room(&mut random), draws::room(&mut random, needed));
        let ((number, _), _) = sheet_both(&mut random, &STAR, &request, lent, room);
        *replies.entry(number).or_default() += 1;
        for _ in 0..8 {
            let second = draws::second(&mut random);
            let (lent, room) = (draws::sines_room(&mut random), draws::numbers_room(&mut random, 5));
            let ((number, _), shadow) = second_both(&mut random, &STAR_SECOND, &request, second, lent, room);
            *seconds.entry(number).or_default() += 1;
            if number == 0 {
                *states.entry(shadow[3] as u64).or_default() += 1;
            }
        }
    }
    println!("stars   {requests} requests agree, {:.1} s", start.elapsed().as_secs_f64());
    println!("stars   calls by number {}", shown(&replies, u64::to_string));
    println!("stars   seconds by number {}", shown(&seconds, u64::to_string));
    println!("stars   their states {}", shown(&states, u64::to_string));
    println!("stars   entries by kind {}", shown(&kinds, |kind| format!("{kind:02X}")));
}
