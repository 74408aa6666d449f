//! `contacts BRACKETS SEED`: the compiled library's hundredths of a second between which contacts lie against docs/CONTACTS.md
//! in plain Rust, until BRACKETS were found of eclipses and as many of stars, with refused calls between them.
//!
//! Compared for each call: the refusal's number, the value beside it, and each whole buffer with 64 numbers past its end,
//! the room for table S among them. Half of the requests are drawn as in `agreement` and `stars`: within their limits,
//! outside them, or of another shape, with rooms that are exact, too short or longer. The other half are within their
//! limits. Of a sheet that was made, each enter and leave is asked for, the two seconds as the sheet has them or moved apart;
//! the rest of the calls have any two seconds, ends of their range among them, and any phase.
//!
//! Every enter and leave of a sheet with a guard of 32 or more has a bracket, and each bracket lies between its two seconds.
//!
//! Prints counts; the first difference stops it with all that gives it again.

use agreement::both::{contact_both, Contact, CONTACT, STAR_CONTACT};
use agreement::{draws, horizons, stars};
use reference::contact::{HUNDREDTHS, LEAST_GUARD};
use reference::elements::Window;
use reference::random::Random;
use reference::request::Request;
use reference::room::SINES;
use reference::sheet::{
    Record, ENTER_CENTRAL, ENTER_PENUMBRA, ENTER_STAR, LEAVE_CENTRAL, LEAVE_PENUMBRA, LEAVE_STAR,
};
use reference::star::StarRequest;
use std::collections::BTreeMap;
use std::time::Instant;

/// Calls of each request with any numbers.
const EACH: u64 = 4;

/// What was seen of one export.
#[derive(Default)]
struct Seen {
    /// calls by number and, of 1, 4 and 22, place.
    numbers: BTreeMap<(u64, u64), u64>,
    /// brackets by their width in hundredths, 11 for any above 10.
    widths: BTreeMap<i64, u64>,
    /// enters and leaves of sheets with a guard of 32 or more.
    entries: u64,
}

impl Seen {
    /// Brackets that were found.
    fn found(&self) -> u64 {
        self.widths.values().sum()
    }

    fn print(&self, name: &str) {
        let total: u64 = self.numbers.values().sum();
        let parts = self.numbers.iter().map(|((number, place), n)| format!("{number} {place}: {n}"));
        println!("{name:13} {total} calls, by number and place {}", parts.collect::<Vec<_>>().join(", "));
        let widths = self.widths.iter().map(|(width, n)| format!("{width}: {n}"));
        println!(
            "{name:13} brackets by width in hundredths, 11 for more than 10: {}",
            widths.collect::<Vec<_>>().join(", ")
        );
        println!(
            "{name:13} {} enters and leaves of sheets with a guard of 32 or more, each with a bracket",
            self.entries
        );
    }
}

/// A request to try and, where it is within its limits, its guard and the phase and seconds of each enter and leave.
struct Drawn {
    bytes: Vec<u8>,
    window: Option<Window>,
    guard: i64,
    entries: Vec<[i64; 3]>,
}

/// The phase and the two seconds of each enter and leave.
fn entries(records: &[Record]) -> Vec<[i64; 3]> {
    let changes = records.iter().filter_map(|record| {
        let phase = match record.kind {
            ENTER_PENUMBRA | LEAVE_PENUMBRA | ENTER_STAR | LEAVE_STAR => 0,
            ENTER_CENTRAL | LEAVE_CENTRAL => 1,
            _ => return None,
        };
        Some([phase, i64::from(record.fields[0]) - 10_800, i64::from(record.fields[1]) - 10_800])
    });
    changes.collect()
}

fn eclipse(random: &mut Random) -> Drawn {
    let bytes = if random.once_in(2) {
        draws::request(random)
    } else {
        let arranged = draws::arranged(random);
        draws::in_window(random, arranged).to_bytes().expect("numbers that have room").to_vec()
    };
    let request = Request::from_bytes(&bytes).ok();
    let made = request.as_ref().and_then(|request| request.check().ok());
    Drawn {
        window: request.as_ref().map(|request| request.window),
        guard: request.map_or(0, |request| request.guard),
        entries: made.map_or(Vec::new(), |made| entries(&made.records())),
        bytes,
    }
}

fn star(random: &mut Random) -> Drawn {
    let bytes = if random.once_in(2) {
        stars::request(random)
    } else {
        stars::within(random).to_bytes().expect("numbers that have room").to_vec()
    };
    let request = StarRequest::from_bytes(&bytes).ok();
    let made = request.as_ref().and_then(|request| request.check().ok());
    Drawn {
        window: request.as_ref().map(|request| request.window),
        guard: request.map_or(0, |request| request.guard),
        entries: made.map_or(Vec::new(), |made| entries(&made.records())),
        bytes,
    }
}

fn differ(what: &str, given: &[u8], asked: [i64; 3]) -> ! {
    println!("DIFFERENCE: {what}, phase and seconds {asked:?}\ngiven {given:?}");
    std::process::exit(1);
}

/// Compares a call; whether it found a bracket.
fn compare(
    random: &mut Random,
    asked: &Contact,
    seen: &mut Seen,
    request: &[u8],
    numbers @ [_, from, to]: [i64; 3],
    rooms: [usize; 2],
) -> bool {
    let ((number, value), left) = contact_both(random, asked, request, numbers, rooms);
    let place = if [1, 4, 22].contains(&number) { value } else { 0 };
    *seen.numbers.entry((number, place)).or_default() += 1;
    if number != 0 {
        return false;
    }
    let [earlier, later] = [left[0], left[1]];
    if value != 2 || earlier < from * HUNDREDTHS || later <= earlier || to * HUNDREDTHS < later {
        differ("no bracket between the seconds", request, numbers);
    }
    *seen.widths.entry((later - earlier).min(11)).or_default() += 1;
    true
}

/// Any two seconds and any phase.
fn any(random: &mut Random, window: Option<Window>) -> [i64; 3] {
    let phase = match random.below(8) {
        0 => -1,
        1 => 2,
        2 => random.bits() as i64,
        3 | 4 => 1,
        _ => 0,
    };
    let (a, b) = (horizons::second(random, window), horizons::second(random, window));
    match random.below(8) {
        0 => [phase, a, b],
        1 => [phase, a, a],
        2 => [phase, i64::MIN, i64::MAX],
        _ => [phase, a.min(b), a.max(b)],
    }
}

/// Compares until so many brackets were found.
fn run(random: &mut Random, asked: &Contact, brackets: u64, draw: fn(&mut Random) -> Drawn) -> Seen {
    let mut seen = Seen::default();
    while seen.found() < brackets {
        let drawn = draw(random);
        for &numbers in &drawn.entries {
            let found = compare(random, asked, &mut seen, &drawn.bytes, numbers, [SINES, 2]);
            if drawn.guard >= LEAST_GUARD {
                seen.entries += 1;
                if !found {
                    differ("an enter or a leave without a bracket", &drawn.bytes, numbers);
                }
            }
            let [phase, from, to] = numbers;
            let apart = [phase, from - random.within(&(0..=3)), to + random.within(&(0..=600))];
            compare(random, asked, &mut seen, &drawn.bytes, apart, [SINES, 2]);
        }
        for _ in 0..EACH {
            let numbers = match drawn.entries.first() {
                Some(&entry) if random.once_in(2) => entry,
                _ => any(random, drawn.window),
            };
            let rooms = [draws::sines_room(random), draws::numbers_room(random, 2)];
            compare(random, asked, &mut seen, &drawn.bytes, numbers, rooms);
        }
    }
    seen
}

fn main() {
    let mut arguments =
        std::env::args().skip(1).map(|word| word.parse().expect("usage: contacts BRACKETS SEED"));
    let (brackets, seed) = (arguments.next().unwrap_or(10_000), arguments.next().unwrap_or(1));
    let start = Instant::now();
    let mut random = Random::new(seed);
    let of_suns = run(&mut random, &CONTACT, brackets, eclipse);
    let of_stars = run(&mut random, &STAR_CONTACT, brackets, star);
    println!(
        "contacts      {brackets} brackets of eclipses and as many of stars agree, {:.1} s",
        start.elapsed().as_secs_f64()
    );
    of_suns.print("contact");
    of_stars.print("star_contact");
}
