//! `horizons SECONDS SEED`: the compiled library's altitude, azimuth and zenith against docs/HORIZON.md in plain Rust,
//! at SECONDS seconds of eclipses that are not refused and as many of stars, and at refused ones between them.
//!
//! Compared for each call: the refusal's number, the value beside it, and each whole buffer with 64 numbers past its
//! end, the buffer for table S among them. Each request is asked for eight seconds: any of -10,800 to 10,800, their
//! ends, those of the window, or outside. Half of the requests are drawn as in `agreement` and `stars`: within their
//! limits, outside them, or of another shape, with buffers that are exact, too short or longer. In the other half the
//! Sun or the star is overhead, straight down, rising, setting or on the meridian at a second, and the station often
//! at a pole or on the equator.
//!
//! The mirror of each second that is not refused has the same altitude; azimuths, and zeniths, add up to 1799 or 1800
//! modulo 3600, or both are none. An altitude is -900 to 900, a direction 0 to 3599 or 65,535.
//!
//! Prints counts; the first difference stops it with all that gives it again.

use agreement::both::{mirror_both, second_both, Moment, HORIZON, STAR_HORIZON};
use agreement::{draws, horizons, stars};
use reference::elements::Window;
use reference::random::Random;
use reference::request::{Request, REQUEST_LENGTH};
use reference::room::SINES;
use reference::shadow::NO_DIRECTION;
use reference::star::StarRequest;
use std::collections::BTreeMap;
use std::time::Instant;

/// Seconds of each request.
const EACH: u64 = 8;

/// What was seen of one export.
#[derive(Default)]
struct Seen {
    /// calls by number.
    numbers: BTreeMap<u64, u64>,
    /// altitudes below -89 degrees, below 0, up to 89 degrees, above.
    altitudes: [u64; 4],
    /// azimuths and zeniths that are none.
    none: [u64; 2],
    /// of azimuths and zeniths: sums with the mirror's of 1799, of 1800, and none.
    mirrored: [[u64; 3]; 2],
}

impl Seen {
    /// Seconds that were not refused.
    fn answered(&self) -> u64 {
        self.numbers.get(&0).copied().unwrap_or(0)
    }

    fn print(&self, name: &str) {
        let total: u64 = self.numbers.values().sum();
        let parts: Vec<String> = self.numbers.iter().map(|(number, n)| format!("{number}: {n}")).collect();
        println!("{name:13} {total} calls, by number {}", parts.join(", "));
        let [down, below, above, up] = self.altitudes;
        println!("{name:13} altitudes under -89 degrees {down}, to 0 {below}, to 89 {above}, from 89 {up}");
        println!("{name:13} without azimuth {}, without zenith {}", self.none[0], self.none[1]);
        for (what, [less, exact, none]) in ["azimuths", "zeniths"].iter().zip(self.mirrored) {
            println!(
                "{name:13} mirrored: same altitude, {what} sum to 1799 {less}, to 1800 {exact}, none {none}"
            );
        }
    }
}

fn differ(what: &str, given: &[u8], second: i64, numbers: &[i64]) -> ! {
    println!("DIFFERENCE: {what} at {second}: {numbers:?}\ngiven {given:?}");
    std::process::exit(1);
}

/// Compares a call; what it gave where there is nothing to refuse.
fn compare(
    random: &mut Random,
    asked: &Moment,
    seen: &mut Seen,
    request: &[u8],
    second: i64,
    rooms: [usize; 2],
) -> Option<[i64; 3]> {
    let ((number, count), left) = second_both(random, asked, request, second, rooms[0], rooms[1]);
    *seen.numbers.entry(number).or_default() += 1;
    if number != 0 {
        return None;
    }
    let numbers @ [altitude, azimuth, zenith] = [left[0], left[1], left[2]];
    let tenths = |direction| (0..3_600).contains(&direction) || direction == NO_DIRECTION;
    if count != 3 || !(-900..=900).contains(&altitude) || !tenths(azimuth) || !tenths(zenith) {
        differ("outside the ranges", request, second, &numbers);
    }
    let band = match altitude {
        ..-890 => 0,
        -890..0 => 1,
        0..890 => 2,
        _ => 3,
    };
    seen.altitudes[band] += 1;
    for (none, direction) in seen.none.iter_mut().zip([azimuth, zenith]) {
        *none += u64::from(direction == NO_DIRECTION);
    }
    Some(numbers)
}

/// What a second and its mirror have in common.
fn compare_mirror(seen: &mut Seen, request: &[u8], second: i64, north: [i64; 3], south: [i64; 3]) {
    if north[0] != south[0] {
        differ("another altitude than the mirror", request, second, &[north, south].concat());
    }
    for (counts, at) in seen.mirrored.iter_mut().zip([1, 2]) {
        let sort = match (north[at], south[at]) {
            (NO_DIRECTION, NO_DIRECTION) => 2,
            (NO_DIRECTION, _) | (_, NO_DIRECTION) => 3,
            (a, b) => match (a + b) % 3_600 {
                1_799 => 0,
                1_800 => 1,
                _ => 3,
            },
        };
        let Some(count) = counts.get_mut(sort) else {
            differ("another direction than the mirror's", request, second, &[north, south].concat());
        };
        *count += 1;
    }
}

/// The mirror of a request of an eclipse, by the library.
fn eclipse_mirror(random: &mut Random, request: &[u8]) -> Vec<u8> {
    let (_, mut mirrored) = mirror_both(random, request, REQUEST_LENGTH);
    mirrored.truncate(REQUEST_LENGTH);
    mirrored
}

/// And of a star: the library has no function for it.
fn star_mirror(_: &mut Random, request: &[u8]) -> Vec<u8> {
    let request = StarRequest::from_bytes(request).expect("a star request");
    request.mirrored().to_bytes().expect("numbers that have room").to_vec()
}

/// A request to try, its window where it has one, and the second that was arranged, if one was.
type Drawn = (Vec<u8>, Option<Window>, Option<i64>);

fn eclipse(random: &mut Random) -> Drawn {
    if random.once_in(2) {
        let bytes = draws::request(random);
        let window = Request::from_bytes(&bytes).ok().map(|request| request.window);
        return (bytes, window, None);
    }
    let (request, second) = horizons::eclipse(random);
    (request.to_bytes().expect("numbers that have room").to_vec(), Some(request.window), Some(second))
}

fn star(random: &mut Random) -> Drawn {
    if random.once_in(2) {
        let bytes = stars::request(random);
        let window = StarRequest::from_bytes(&bytes).ok().map(|request| request.window);
        return (bytes, window, None);
    }
    let (request, second) = horizons::star(random);
    (request.to_bytes().expect("numbers that have room").to_vec(), Some(request.window), Some(second))
}

/// Compares until so many seconds were not refused.
fn run(
    random: &mut Random,
    asked: &Moment,
    seconds: u64,
    draw: fn(&mut Random) -> Drawn,
    mirror: fn(&mut Random, &[u8]) -> Vec<u8>,
) -> Seen {
    let mut seen = Seen::default();
    while seen.answered() < seconds {
        let (request, window, arranged) = draw(random);
        for at in 0..EACH {
            // the arranged second, and next to it
            let second = match arranged {
                Some(second) if at < 3 => second + [0, -1, 1][at as usize],
                _ => horizons::second(random, window),
            };
            let mut rooms = [SINES, 3];
            if arranged.is_none() {
                rooms = [draws::sines_room(random), draws::numbers_room(random, 3)];
            }
            let Some(north) = compare(random, asked, &mut seen, &request, second, rooms) else { continue };
            let mirrored = mirror(random, &request);
            let mut theirs = Seen::default();
            match compare(random, asked, &mut theirs, &mirrored, second, [SINES, 3]) {
                Some(south) => compare_mirror(&mut seen, &request, second, north, south),
                None => differ("the mirror refused", &request, second, &north),
            }
        }
    }
    seen
}

fn main() {
    let mut arguments =
        std::env::args().skip(1).map(|word| word.parse().expect("usage: horizons SECONDS SEED"));
    let (seconds, seed) = (arguments.next().unwrap_or(100_000), arguments.next().unwrap_or(1));
    let start = Instant::now();
    let mut random = Random::new(seed);
    let of_suns = run(&mut random, &HORIZON, seconds, eclipse, eclipse_mirror);
    let of_stars = run(&mut random, &STAR_HORIZON, seconds, star, star_mirror);
    println!(
        "horizons      {seconds} seconds of eclipses and as many of stars agree, {:.1} s",
        start.elapsed().as_secs_f64()
    );
    of_suns.print("horizon");
    of_stars.print("star_horizon");
}
