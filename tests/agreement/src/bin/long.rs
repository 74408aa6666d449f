//! `long REQUESTS SEED`: the compiled library's sheets of long windows against documents 01 and 02 in plain Rust,
//! which compute every second.
//!
//! Requests lie within their limits, three of four of eclipses, the others of stars: as drawn, near an edge, slow,
//! standing still, at a pole, along an edge, near the point of the central cone; guards of 16 to 1,000; one window in
//! four is all 21,601 seconds, one short, the others any length about the second that was arranged. Compared: the
//! refusal's number, the length, and the whole buffer with 64 bytes past its end.
//!
//! Prints counts; the first difference stops it with all that gives it again.

use agreement::both::{sheet_both, PLAIN, STAR};
use agreement::{draws, stars};
use reference::elements::{Window, FARTHEST};
use reference::random::Random;
use reference::request::Request;
use reference::room::SINES;
use reference::shadow::GUARDS;
use reference::star::StarRequest;
use std::time::Instant;

/// A long window about a second.
fn long(random: &mut Random, second: i64) -> Window {
    let length = match random.below(4) {
        0 => return Window { first: -FARTHEST, last: FARTHEST },
        1 => random.within(&(0..=600)),
        _ => random.within(&(600..=2 * FARTHEST)),
    };
    let first = second - random.within(&(0..=length));
    Window { first: first.max(-FARTHEST), last: (first + length).min(FARTHEST) }
}

fn main() {
    let mut arguments = std::env::args().skip(1).map(|word| word.parse().expect("usage: long REQUESTS SEED"));
    let (requests, seed) = (arguments.next().unwrap_or(10_000), arguments.next().unwrap_or(1));
    let start = Instant::now();
    let mut random = Random::new(seed);
    let (mut seconds, mut sheets, mut longest) = (0, 0, 0);
    for _ in 0..requests {
        let (asked, bytes, window) = if random.once_in(4) {
            let request = stars::within(&mut random);
            let window = long(&mut random, request.window.first);
            let guard = random.within(&GUARDS);
            let request = StarRequest { window, guard, ..request };
            (&STAR, request.to_bytes().expect("numbers that have room").to_vec(), window)
        } else {
            let request = draws::arranged(&mut random);
            let window = long(&mut random, request.window.first);
            let guard = if random.once_in(2) { request.guard } else { random.within(&GUARDS) };
            let request = Request { window, guard, ..request };
            (&PLAIN, request.to_bytes().expect("numbers that have room").to_vec(), window)
        };
        let ((number, length), _) = sheet_both(&mut random, asked, &bytes, SINES, 800_000);
        seconds += window.last - window.first + 1;
        sheets += u64::from(number == 0);
        longest = longest.max(length);
    }
    println!(
        "long    {requests} requests agree, {seconds} seconds, {sheets} sheets, the longest {longest} bytes, {:.1} s",
        start.elapsed().as_secs_f64()
    );
}
