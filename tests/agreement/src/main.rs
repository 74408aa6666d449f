//! `agreement REQUESTS SHEETS SEED`: the compiled library against document 01 in plain Rust.
//!
//! Compared for each call: the refusal's number, the value beside it, and each whole buffer with 64 numbers past its
//! end; the buffer for table S among them, of no numbers, 900, 901, 902, or any count.
//!
//! - a sheet for each request, within and outside the limits, under guards of all sizes, near the edge, slow, along
//!   it, of other shapes;
//!   its buffer exact, one less, none, plenty; and of each request within the limits the states of its seconds under a
//!   larger guard: unsure,
//!   or as they were;
//! - the sheet with its share for each request likewise: it is the other one with the share of the closest second
//!   before the end;
//! - eight seconds of each request, within ±10,800 and outside, and their shares;
//! - as many shares as requests where the discs overlap, central, at the edge of the total phase, or anywhere:
//!   1,000,000 where that phase
//!   is sure, 0 where the penumbra is surely left;
//! - the mirror of each request; its sheet, with the share or without, and its seconds against the request's own,
//!   directions left out;
//!   the mirror of the mirror;
//! - sheets, whole and damaged, of eclipses with a share and without and of stars, read and listed; and entries,
//!   whole and damaged,
//!   written; what was read is written again, and the other way;
//! - as many fits as sheets, within the tolerance and at its edge, with numbers changed, of other lengths;
//! - as many roots as sheets, with their rounds, and those of all numbers up to 70,000.
//!
//! Prints counts; the first difference stops it with all that gives it again.

use agreement::both::{
    extent_both, listing_both, mirror_both, must_agree, read_both, reply, second_both, share_both, sheet_both, write_both,
    Asked, Left, PLAIN, SECOND, SHARED,
};
use agreement::draws;
use agreement::fits;
use agreement::library::{self, Reply};
use agreement::sheets;
use reference::elements::FARTHEST;
use reference::fit::judge;
use reference::numbers::rounds;
use reference::random::Random;
use reference::request::{Request, REQUEST_LENGTH};
use reference::room::SINES;
use reference::shadow::GUARDS;
use reference::sheet::{self, Record, CLOSEST, END, SHARE, WORDS};
use std::time::Instant;

/// Calls and replies by number, 0 to 18.
struct Count {
    name: &'static str,
    replies: [u64; 19],
}

impl Count {
    fn new(name: &'static str) -> Count {
        Count { name, replies: [0; 19] }
    }

    fn add(&mut self, number: u64) {
        self.replies[number as usize] += 1;
    }

    fn print(&self) {
        let total: u64 = self.replies.iter().sum();
        let parts = self.replies.iter().enumerate().filter(|(_, &n)| n > 0).map(|(k, n)| format!("{k}: {n}"));
        println!("{:15} {total} calls, by number {}", self.name, parts.collect::<Vec<_>>().join(", "));
    }
}

/// One for each function but the root.
struct Counts {
    sheets: Count,
    shared: Count,
    seconds: Count,
    shares: Count,
    mirrors: Count,
    reads: Count,
    extents: Count,
    writes: Count,
    listings: Count,
    fits: Count,
}

impl Counts {
    fn new() -> Counts {
        Counts {
            sheets: Count::new("sheet"),
            shared: Count::new("sheet_and_share"),
            seconds: Count::new("second"),
            shares: Count::new("share"),
            mirrors: Count::new("mirror"),
            reads: Count::new("read"),
            extents: Count::new("extent"),
            writes: Count::new("write"),
            listings: Count::new("listing"),
            fits: Count::new("fit"),
        }
    }

    fn print(&self) {
        let Counts { sheets, shared, seconds, shares, mirrors, reads, extents, writes, listings, fits } = self;
        for count in [sheets, shared, seconds, shares, mirrors, reads, extents, writes, listings, fits] {
            count.print();
        }
    }
}

/// The entries of a sheet that the library read with a buffer that is long enough, by the library.
fn entries_of(random: &mut Random, sheet: &[u8]) -> Option<Vec<u32>> {
    let ((number, count), mut entries) = read_both(random, sheet, WORDS * sheet.len());
    entries.truncate(WORDS * count as usize);
    (number == 0).then_some(entries)
}

/// A sheet read and written again is the same. Its entries, if it has any.
fn round_trip(random: &mut Random, sheet: &[u8]) -> Vec<u32> {
    let entries = entries_of(random, sheet);
    if let Some(entries) = &entries {
        let ((number, length), bytes) = write_both(random, entries, sheet.len());
        if number != 0 || bytes[..length as usize] != *sheet {
            println!("DIFFERENCE: a sheet read and written again is another: {sheet:?}");
            std::process::exit(1);
        }
    }
    entries.unwrap_or_default()
}

/// What a second has in common with its mirror: u, the size of v, L1, L2, states and magnitude.
fn beside_north(reply: Reply, shadow: &[i64; 8]) -> (Reply, [i64; 7]) {
    let [u, v, l1, l2, penumbra, central, magnitude, _] = *shadow;
    (reply, [u, v, l1, l2, penumbra, central, magnitude])
}

/// A request and its mirror: the same answer, the same entries but for directions, the same seconds but for v's sign,
/// the same shares.
fn compare_mirror(random: &mut Random, request: &[u8], asked: &Asked, sheet: &Left<u8>) {
    let ((number, length), mirrored) = mirror_both(random, request, 200);
    if number != 0 {
        return;
    }
    let mirrored = &mirrored[..length as usize];
    let back = mirror_both(random, mirrored, REQUEST_LENGTH).1;
    let other = sheet_both(random, asked, mirrored, SINES, 65_536);
    let mut same = back[..REQUEST_LENGTH] == *request && other.0 == sheet.0;
    if sheet.0 .0 == 0 {
        let undirected = |bytes: &[u8]| {
            let mut entries = vec![0; WORDS * bytes.len()];
            let (_, count) = library::read(bytes, &mut entries);
            entries.truncate(WORDS * count as usize);
            for entry in
                entries.chunks_exact_mut(WORDS).filter(|entry| [0x10, 0x11, 0x20, 0x21].contains(&entry[0]))
            {
                entry[3] = 0;
            }
            entries
        };
        let length = sheet.0 .1 as usize;
        same &= undirected(&sheet.1[..length]) == undirected(&other.1[..length]);
    }
    let mut sines = [0; SINES];
    for _ in 0..4 {
        let second = random.within(&(-FARTHEST..=FARTHEST));
        let (mut north, mut south) = ([0; 8], [0; 8]);
        let replies = (
            library::second(request, second, &mut sines, &mut north),
            library::second(mirrored, second, &mut sines, &mut south),
        );
        south[1] = -south[1];
        same &= beside_north(replies.0, &north) == beside_north(replies.1, &south);
        same &= library::share(request, second, &mut sines) == library::share(mirrored, second, &mut sines);
    }
    if !same {
        println!("DIFFERENCE between a request and its mirror: {request:?}");
        std::process::exit(1);
    }
}

/// A request within the limits under a larger guard: at seconds of its window the same numbers, and states the same
/// or unsure. How many states were withheld.
fn compare_guards(random: &mut Random, bytes: &[u8]) -> u64 {
    let Ok(request) = Request::from_bytes(bytes) else { return 0 };
    if request.check().is_err() {
        return 0;
    }
    let guard = random.within(&(request.guard..=*GUARDS.end()));
    let larger = Request { guard, ..request }.to_bytes().expect("a guard that has room");
    let mut withheld = 0;
    let mut sines = [0; SINES];
    for _ in 0..8 {
        let second = random.within(&request.window.seconds());
        let (mut few, mut many) = ([0; 8], [0; 8]);
        let replies = (
            library::second(bytes, second, &mut sines, &mut few),
            library::second(&larger, second, &mut sines, &mut many),
        );
        let [states, others] = [few, many].map(|n| [n[4], n[5]]);
        let lengths = [few, many].map(|n| (n[0], n[1], n[2], n[3], n[7]));
        let same = replies.0 == replies.1 && lengths[0] == lengths[1];
        if !same || states.iter().zip(&others).any(|(state, other)| state != other && *other != 2) {
            println!("DIFFERENCE between guards at {second}: {bytes:?} under {guard}");
            std::process::exit(1);
        }
        withheld += states.iter().zip(&others).filter(|(state, other)| state != other).count() as u64;
    }
    withheld
}

/// The sheet with the share is the plain one with a record more before its end: the share at the closest second.
fn compare_shared(request: &[u8], plain: &[u8], shared: &[u8]) {
    let records = sheet::records_of(plain).expect("a sheet reads well");
    let [.., closest, end] = records[..] else { panic!("a closest and an end") };
    assert_eq!((closest.kind, end.kind), (CLOSEST, END));
    let second = i64::from(closest.fields[0]) - FARTHEST;
    let (number, share) = library::share(request, second, &mut [0; SINES]);
    let more = sheet::bytes_of(&[Record::new(SHARE, [share as u32, 0, 0, 0]), end]);
    if number != 0 || *shared != [&plain[..plain.len() - 1], &more].concat() {
        println!(
            "DIFFERENCE: the sheet with the share is not the other and the share at {second}: {request:?}"
        );
        std::process::exit(1);
    }
}

fn request(random: &mut Random, counts: &mut Counts, kinds: &mut [u64; 128], withheld: &mut u64) {
    let request = draws::request(random);
    let [plain, shared] = [PLAIN, SHARED].map(|asked| sheet_both(random, &asked, &request, SINES, 65_536));
    let (asked, sheet) = if random.once_in(2) { (PLAIN, &plain) } else { (SHARED, &shared) };
    compare_mirror(random, &request, &asked, sheet);
    *withheld += compare_guards(random, &request);
    let room = draws::room(random, REQUEST_LENGTH);
    counts.mirrors.add(mirror_both(random, &request, room).0 .0);
    counts.sheets.add(plain.0 .0);
    counts.shared.add(shared.0 .0);
    let mut needed = [45, 50];
    if plain.0 .0 == 0 {
        needed = [plain.0 .1, shared.0 .1].map(|length| length as usize);
        let written = [&plain.1[..needed[0]], &shared.1[..needed[1]]];
        compare_shared(&request, written[0], written[1]);
        round_trip(random, written[0]);
        for entry in round_trip(random, written[1]).chunks_exact(WORDS) {
            kinds[entry[0] as usize] += 1;
        }
    }
    // one of the two, since the seconds of a window are most of the work
    let (asked, needed, count) = if random.once_in(2) {
        (PLAIN, needed[0], &mut counts.sheets)
    } else {
        (SHARED, needed[1], &mut counts.shared)
    };
    let room = draws::room(random, needed);
    let lent = draws::sines_room(random);
    count.add(sheet_both(random, &asked, &request, lent, room).0 .0);
    for _ in 0..8 {
        let second = draws::second(random);
        let (room, lent) = (draws::numbers_room(random, 8), draws::sines_room(random));
        counts.seconds.add(second_both(random, &SECOND, &request, second, lent, room).0 .0);
        let lent = draws::sines_room(random);
        counts.shares.add(share_both(random, &request, second, lent).0 .0);
    }
}

/// How many shares are 0, between, and the whole disc.
type Covered = [u64; 3];

/// The share of overlapping discs, against the states and sizes that the library gives at the same second.
fn share(random: &mut Random, count: &mut Count, covered: &mut Covered) {
    let (request, second) = draws::overlapping(random);
    let ((number, share), mut sines) = share_both(random, &request, second, SINES);
    count.add(number);
    let mut shadow = [0; 8];
    let seen = library::second(&request, second, &mut sines[..SINES], &mut shadow);
    let [_, _, _, l2, penumbra, central, ..] = shadow;
    let wrong = (l2 < 0 && central == 1 && share != 1_000_000) || (penumbra == 0 && share != 0);
    if (number, seen) != (0, (0, 8)) || share > 1_000_000 || wrong {
        println!("DIFFERENCE: a share of {share} beside {shadow:?} at {second}: {request:?}");
        std::process::exit(1);
    }
    covered[usize::from(share > 0) + usize::from(share == 1_000_000)] += 1;
}

/// The bytes of a sheet with others after them: another sheet's, or any.
fn followed(random: &mut Random, sheet: &[u8]) -> Vec<u8> {
    let after = match random.below(3) {
        0 => sheet.to_vec(),
        1 => vec![random.below(256) as u8],
        _ => (0..random.below(40)).map(|_| random.below(256) as u8).collect(),
    };
    [sheet, &after].concat()
}

fn sheet(random: &mut Random, counts: &mut Counts) {
    let mut entries = sheets::entries(random);
    let mut bytes = vec![0; 7 * entries.len()];
    let length = sheet::write(&entries, &mut bytes).expect("entries that keep all rules");
    bytes.truncate(length);

    sheets::damage(random, &mut bytes);
    let room = match random.below(3) {
        // buffers that are no whole number of entries too
        0 => draws::room(random, entries.len()),
        1 => WORDS * draws::room(random, entries.len() / WORDS),
        _ => WORDS * bytes.len(),
    };
    counts.reads.add(read_both(random, &bytes, room).0 .0);
    counts.extents.add(extent_both(&bytes).0);
    counts.extents.add(extent_both(&followed(random, &bytes)).0);
    round_trip(random, &bytes);
    let needed = match library::listing(&bytes, &mut []) {
        (4, needed) => needed as usize,
        _ => 200,
    };
    let room = draws::room(random, needed);
    counts.listings.add(listing_both(random, &bytes, room).0 .0);

    sheets::damage_entries(random, &mut entries);
    let room = if random.once_in(2) { draws::room(random, length) } else { 7 * entries.len() };
    let ((number, written), sheet) = write_both(random, &entries, room);
    counts.writes.add(number);
    if number == 0 && entries_of(random, &sheet[..written as usize]).as_ref() != Some(&entries) {
        println!("DIFFERENCE: entries written and read again are others: {entries:?}");
        std::process::exit(1);
    }
}

fn fit(random: &mut Random, count: &mut Count) {
    let (coefficients, tabulated, tolerance) = fits::draw(random);
    let none: Vec<u8> = Vec::new();
    let ours = (library::fit(&coefficients, &tabulated, tolerance), none.clone());
    let theirs = (reply(judge(&coefficients, &tabulated, tolerance), |()| 0), none);
    must_agree("ukhtvaresh_fit", &(coefficients, tabulated, tolerance), &ours, &theirs);
    count.add(ours.0 .0);
}

fn root(n: u64) {
    let none: Vec<u8> = Vec::new();
    let ours = (library::root(n), none.clone());
    must_agree("ukhtvaresh_root", &n, &ours, &((n.isqrt(), rounds(n)), none));
}

fn main() {
    let arguments: Vec<u64> = std::env::args().skip(1).map(|a| a.parse().expect("a number")).collect();
    let [requests, sheets, seed] = arguments[..] else {
        eprintln!("usage: agreement REQUESTS SHEETS SEED");
        std::process::exit(2);
    };
    let start = Instant::now();
    let mut random = Random::new(seed);
    let mut counts = Counts::new();
    let (mut kinds, mut withheld, mut covered) = ([0; 128], 0, [0; 3]);
    for _ in 0..requests {
        request(&mut random, &mut counts, &mut kinds, &mut withheld);
        share(&mut random, &mut counts.shares, &mut covered);
    }
    println!("{requests} requests agree, {:.1} s", start.elapsed().as_secs_f64());
    let by_kind =
        kinds.iter().enumerate().filter(|(_, &n)| n > 0).map(|(kind, n)| format!("{kind:02X}: {n}"));
    println!("entries of their sheets, by kind {}", by_kind.collect::<Vec<_>>().join(", "));
    println!("{withheld} states that larger guards withheld");
    println!(
        "shares of overlapping discs: 0 {}, between {}, 1,000,000 {}",
        covered[0], covered[1], covered[2]
    );
    for _ in 0..sheets {
        sheet(&mut random, &mut counts);
    }
    println!("{sheets} sheets and lists of entries agree, {:.1} s", start.elapsed().as_secs_f64());
    for _ in 0..sheets {
        fit(&mut random, &mut counts.fits);
    }
    println!("{sheets} fits agree, {:.1} s", start.elapsed().as_secs_f64());
    (0..=70_000).for_each(root);
    (0..sheets).for_each(|_| root(draws::number(&mut random)));
    println!("{} roots agree, {:.1} s", 70_001 + sheets, start.elapsed().as_secs_f64());
    counts.print();
    println!("no difference");
}
