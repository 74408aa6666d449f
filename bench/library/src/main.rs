//! `bench ROUNDS`: the compiled library and document 01 in plain Rust, timed in turns in one process; the best of all rounds of each.
//! `bench goals ROUNDS STREAM`: the table of goals alone, with the double-precision solver as the yardstick; STREAM is the program.

mod goals;
mod solver;

use agreement::draws;
use agreement::library;
use agreement::networks::stations;
use reference::doubles;
use reference::elements::Window;
use reference::listing::{sheet_of_input, star_of_input};
use reference::network::{network, Network, Node};
use reference::random::Random;
use reference::request::{Request, REQUEST_LENGTH};
use reference::sample::{self, Manner};
use reference::sample_star;
use reference::shadow::Phase;
use reference::sheet;
use reference::star::StarRequest;
use std::hint::black_box;
use std::time::Instant;

/// The shortest times in seconds of the two, each run `times` times on end in a round.
fn best(rounds: usize, times: usize, mut ours: impl FnMut(), mut theirs: impl FnMut()) -> (f64, f64) {
    let time = |run: &mut dyn FnMut()| {
        let start = Instant::now();
        for _ in 0..times {
            run();
        }
        start.elapsed().as_secs_f64() / times as f64
    };
    let mut least = (f64::MAX, f64::MAX);
    for _ in 0..rounds {
        least.0 = least.0.min(time(&mut ours));
        least.1 = least.1.min(time(&mut theirs));
    }
    least
}

/// A window of so many seconds.
fn window(seconds: i64) -> Window {
    let first = if seconds == 21_601 { -10_800 } else { -200 };
    Window { first, last: first + seconds - 1 }
}

/// A request's bytes under such a window.
fn in_window(request: &Request, seconds: i64) -> [u8; REQUEST_LENGTH] {
    Request { window: window(seconds), ..*request }.to_bytes().expect("numbers that have room")
}

fn sheets(rounds: usize) {
    let mut random = Random::new(7);
    let requests = [
        ("hand-worked", sample::hand_worked()),
        ("Kiev 1954", sample::kiev_1954()),
        ("drawn", sample::draw(&mut random, Manner::Anywhere)),
    ];
    for (name, request) in requests {
        for seconds in [600, 6_000, 21_601] {
            let bytes = in_window(&request, seconds);
            let (mut a, mut b, mut sines) = ([0; 4096], [0; 4096], [0; 901]);
            let (ours, theirs) = best(
                rounds,
                (200_000 / seconds).max(1) as usize,
                || _ = black_box(library::sheet(black_box(&bytes), &mut sines, &mut a)),
                || _ = black_box(sheet_of_input(black_box(&bytes), &mut b)),
            );
            assert_eq!(a, b);
            println!(
                "sheet, {name:11} {seconds:6} s: library {:8.1} us, reference {:8.1} us, ratio {:.4}",
                ours * 1e6,
                theirs * 1e6,
                ours / theirs
            );
        }
    }
}

/// Requests of a kind over ±10,800 s: the least, the median, nine of ten and the largest of the ratios of times, each pair timed in turns.
fn drawn(rounds: usize, name: &str, count: usize, mut draw: impl FnMut(&mut Random) -> Request) {
    let mut random = Random::new(7);
    let mut ratios: Vec<(f64, f64)> = (0..count)
        .map(|_| {
            let bytes = in_window(&draw(&mut random), 21_601);
            let (mut a, mut b, mut sines) = (vec![0; 800_000], vec![0; 800_000], [0; 901]);
            let (ours, theirs) = best(
                rounds.min(5),
                1,
                || _ = black_box(library::sheet(black_box(&bytes), &mut sines, &mut a)),
                || _ = black_box(sheet_of_input(black_box(&bytes), &mut b)),
            );
            assert_eq!(a, b);
            (ours / theirs, ours)
        })
        .collect();
    ratios.sort_by(|a, b| a.0.total_cmp(&b.0));
    let at = |place: usize| ratios[place.min(count - 1)];
    println!(
        "sheets, {name:22} {count} of 21601 s: ratios {:.4} least, {:.4} median, {:.4} of nine in ten, {:.4} largest; median {:.1} us",
        at(0).0,
        at(count / 2).0,
        at(count * 9 / 10).0,
        at(count).0,
        at(count / 2).1 * 1e6
    );
}

/// Requests drawn in the manners that make much or little work.
fn kinds(rounds: usize) {
    drawn(rounds, "natural", 200, |random| sample::draw(random, Manner::Natural));
    drawn(rounds, "anywhere", 100, |random| sample::draw(random, Manner::Anywhere));
    drawn(rounds, "at the limits", 100, |random| sample::draw(random, Manner::AtLimits));
    drawn(rounds, "edges, slow, at a pole", 200, draws::arranged);
    // the axis stands still over a pole: no second can be skipped
    drawn(rounds, "standing still", 5, |random| {
        let mut request = sample::hand_worked();
        sample::slow_down(&mut request, 0, 0, 0);
        request.guard = 16 + random.below(16) as i64;
        request
    });
    // and at the penumbra's edge
    drawn(rounds, "still at the edge", 5, |random| {
        let mut request = sample::hand_worked();
        sample::slow_down(&mut request, 0, 0, 0);
        sample::put_near_edge(random, &mut request, 0, Phase::Penumbra);
        request
    });
}

/// The sheets of stars.
fn stars(rounds: usize) {
    let mut random = Random::new(7);
    let potsdam = include_bytes!("../../../examples/potsdam1956.bin");
    let requests = [
        ("over the pole", sample_star::over_the_pole()),
        ("Potsdam 1956", StarRequest::from_bytes(potsdam).expect("a star request")),
        ("drawn", sample_star::draw(&mut random, Manner::Anywhere)),
    ];
    for (name, request) in requests {
        for seconds in [600, 6_000, 21_601] {
            let request = StarRequest { window: window(seconds), ..request };
            let bytes = request.to_bytes().expect("numbers that have room");
            let (mut a, mut b, mut sines) = ([0; 4096], [0; 4096], [0; 901]);
            let (ours, theirs) = best(
                rounds,
                (200_000 / seconds).max(1) as usize,
                || _ = black_box(library::star(black_box(&bytes), &mut sines, &mut a)),
                || _ = black_box(star_of_input(black_box(&bytes), &mut b)),
            );
            assert_eq!(a, b);
            println!(
                "star, {name:13} {seconds:6} s: library {:8.1} us, reference {:8.1} us, ratio {:.4}",
                ours * 1e6,
                theirs * 1e6,
                ours / theirs
            );
        }
    }
}

/// A list of eleven stations, one degree of latitude apart, each on the clock of the one before: the library, the reference, and the
/// library's eleven sheets.
fn networks(rounds: usize) {
    let kiev = sample::kiev_1954();
    let node = |place: i64| {
        let mut station = kiev.station;
        station.number = place + 1;
        station.latitude += 1_000_000 * place;
        Node { station, clock: place }
    };
    for seconds in [600, 6_000, 21_601] {
        let nodes = (0..11).map(node).collect();
        let asked = Network { elements: kiev.elements, window: window(seconds), guard: kiev.guard, nodes };
        let (eclipse, list) = (asked.eclipse(), stations(&asked));
        let requests: Vec<_> =
            asked.nodes.iter().map(|node| in_window(&asked.request(node), seconds)).collect();
        let (mut a, mut b, mut sines, mut other, mut sheet) =
            ([0; 64], [0; 64], [0; 901], [0; 901], [0; 4096]);
        let times = (20_000 / seconds).max(1) as usize;
        let (ours, theirs) = best(
            rounds,
            times,
            || _ = black_box(library::network(black_box(&eclipse), &list, &mut sines, &mut a)),
            || _ = black_box(network(black_box(&eclipse), &asked.nodes, &mut other, &mut b)),
        );
        assert_eq!(a, b);
        let (_, alone) = best(
            rounds,
            times,
            || (),
            || {
                for request in &requests {
                    _ = black_box(library::sheet(black_box(request), &mut sines, &mut sheet));
                }
            },
        );
        println!(
            "network of eleven {seconds:6} s: library {:8.1} us, reference {:8.1} us, ratio {:.4}; eleven sheets {:8.1} us, ratio {:.2}",
            ours * 1e6,
            theirs * 1e6,
            ours / theirs,
            alone * 1e6,
            ours / alone
        );
    }
}

/// What the share adds to the library's sheet, and what a share alone takes, with the filling of table S that each call begins with: the
/// second's numbers beside it begin so too.
fn shares(rounds: usize) {
    let moscow = sample::moscow_1954();
    for (name, request, closest) in [
        ("hand-worked", sample::hand_worked(), 0),
        ("Kiev 1954", sample::kiev_1954(), 4_389),
        ("Moscow 1954", moscow, 4_115),
    ] {
        for seconds in [600, 21_601] {
            let bytes = in_window(&request, seconds);
            let (mut a, mut b, mut sines, mut others) = ([0; 4096], [0; 4096], [0; 901], [0; 901]);
            let (with, without) = best(
                10 * rounds,
                (20_000 / seconds).max(1) as usize,
                || _ = black_box(library::sheet_and_share(black_box(&bytes), &mut sines, &mut a)),
                || _ = black_box(library::sheet(black_box(&bytes), &mut others, &mut b)),
            );
            assert!(a != b && sines == others);
            println!(
                "sheet, {name:11} {seconds:6} s: with share {:8.1} us, without {:8.1} us, ratio {:.3}, the share {:.1} us",
                with * 1e6,
                without * 1e6,
                with / without,
                (with - without) * 1e6
            );
        }
        let bytes = in_window(&request, 600);
        let (mut sines, mut others, mut shadow) = ([0; 901], [0; 901], [0; 8]);
        let (share, second) = best(
            10 * rounds,
            100,
            || _ = black_box(library::share(black_box(&bytes), black_box(closest), &mut sines)),
            || {
                _ = black_box(library::second(
                    black_box(&bytes),
                    black_box(closest),
                    &mut others,
                    &mut shadow,
                ))
            },
        );
        println!(
            "share, {name:11} at {closest:5}: {:5.1} us, second {:5.1} us, ratio {:.2}",
            share * 1e6,
            second * 1e6,
            share / second
        );
    }
}

/// As many enters, leaves and grazes as a window of 21,601 seconds holds side by side, so many of each phase.
fn long_list(of_each: u32) -> Vec<u32> {
    let mut entries = vec![0x01, 999, 0, 21_600, 16];
    for base in [0x10, 0x20] {
        for k in 0..of_each {
            let (kind, direction) = [(0, 900), (2, 0), (1, 2700)][k as usize % 3];
            entries.extend([base + kind, 2 * k, 2 * k + 2, direction, 0]);
        }
    }
    entries.extend([0x30, 10_800, 1_000_000, 0, 0, 0x7F, 0, 0, 0, 0]);
    entries
}

/// The same with kinds in no pattern: a graze, or the next of enter and leave, by lot.
fn drawn_list(of_each: u32) -> Vec<u32> {
    let mut random = Random::new(7);
    let mut entries = vec![0x01, 999, 0, 21_600, 16];
    for base in [0x10, 0x20] {
        let mut turn = 1;
        for k in 0..of_each {
            let graze = random.once_in(2);
            turn = if graze { turn } else { 1 - turn };
            let (kind, direction) = if graze { (2, 0) } else { (turn, 900) };
            entries.extend([base + kind, 2 * k, 2 * k + 2, direction, 0]);
        }
    }
    entries.extend([0x30, 10_800, 1_000_000, 0, 0, 0x7F, 0, 0, 0, 0]);
    entries
}

fn records(rounds: usize, name: &str, entries: &[u32], times: usize) {
    let mut bytes = vec![0; 7 * entries.len()];
    let length = sheet::write(entries, &mut bytes).expect("entries that keep all rules");
    bytes.truncate(length);
    let (mut a, mut b) = (vec![0; entries.len()], vec![0; entries.len()]);
    let (ours, theirs) = best(
        rounds,
        times,
        || _ = black_box(library::read(black_box(&bytes), &mut a)),
        || _ = black_box(sheet::read(black_box(&bytes), &mut b)),
    );
    assert!(a == entries && b == entries);
    let speed = |seconds: f64| length as f64 / seconds / 1e6;
    let line = |what: &str, ours: f64, theirs: f64| {
        println!(
            "{what}, {name:11} {length:6} bytes: library {:6.0} MB/s, reference {:6.0} MB/s, ratio of times {:.2}",
            speed(ours),
            speed(theirs),
            ours / theirs
        )
    };
    line("read ", ours, theirs);
    let (mut a, mut b) = (vec![0; length], vec![0; length]);
    let (ours, theirs) = best(
        rounds,
        times,
        || _ = black_box(library::write(black_box(entries), &mut a)),
        || _ = black_box(sheet::write(black_box(entries), &mut b)),
    );
    assert!(a == bytes && b == bytes);
    line("write", ours, theirs);
}

/// The root of a thousand numbers of so many bits, with its rounds; Rust's own root beside it, which reports none.
fn roots(rounds: usize) {
    let mut random = Random::new(7);
    for bits in [16, 32, 48, 60, 64] {
        let numbers: Vec<u64> = (0..1_000).map(|_| random.bits() >> (64 - bits) | 1 << (bits - 1)).collect();
        let (mut a, mut b) = (0, 0);
        let (ours, theirs) = best(
            rounds,
            20,
            || a = numbers.iter().map(|&n| black_box(library::root(black_box(n))).0).sum::<u64>(),
            || b = numbers.iter().map(|&n| black_box(black_box(n).isqrt())).sum::<u64>(),
        );
        assert_eq!(a, b);
        println!(
            "root, {bits} bits: library {:5.1} ns, Rust {:5.1} ns, ratio {:.2}",
            ours * 1e6,
            theirs * 1e6,
            ours / theirs
        );
    }
}

/// A year file mended: 100,000 sheets; with a hole in every tenth; any bytes; and files made to be slow.
fn files(rounds: usize, sheet: &[u8]) {
    let mut random = Random::new(7);
    let year = sheet.repeat(100_000);
    let mut holes = year.clone();
    for block in holes.chunks_exact_mut(10 * sheet.len()) {
        let from = random.below(block.len() as u64 - 60) as usize;
        block[from..from + 1 + random.below(60) as usize].fill(random.bits() as u8);
    }
    let head = &sheet[..9];
    let opens = [&[0x13], &head[3..5], &head[3..5]].concat();
    let files = [
        ("100,000 sheets", year.clone()),
        ("the same with holes", holes),
        ("any bytes", (0..year.len()).map(|_| random.bits() as u8).collect()),
        ("bytes of 01", vec![1; year.len()]),
        ("heads alone", head.repeat(year.len() / 9)),
        ("a sheet without an end", [head, &opens.repeat(year.len() / 5)].concat()),
        ("nested beginnings", [0x13, 0x01, 0x00, 0x01, 0x00].repeat(year.len() / 5)),
    ];
    for (name, file) in files {
        let (mut sheets, mut dropped) = (vec![0; file.len()], vec![0; file.len() + 16]);
        let (time, _) = best(
            rounds.min(10),
            1,
            || _ = black_box(library::mend(black_box(&file), &mut sheets, &mut dropped)),
            || (),
        );
        println!(
            "mend, {name:22} {:.1} MB: {:4.0} MB/s",
            file.len() as f64 / 1e6,
            file.len() as f64 / time / 1e6
        );
    }
}

/// Positions as doubles: 23 doubles that no sheet follows, since a station value is out of its range; and 23 units as doubles.
fn positions(rounds: usize) {
    let request = sample::kiev_1954();
    let mut units = request.elements.fields().to_vec();
    units.push(request.station.longitude);
    let (mut a, mut b) = ([0.0; 23], [0.0; 23]);
    let (ours, theirs) = best(
        rounds,
        2_000,
        || _ = black_box(library::doubles(black_box(&units), &mut a)),
        || _ = black_box(doubles::doubles(black_box(&units), &mut b)),
    );
    assert_eq!(a, b);
    let line = |what: &str, ours: f64, theirs: f64| {
        println!(
            "{what}: library {:6.0} ns, reference {:6.0} ns, ratio {:.2}",
            ours * 1e9,
            theirs * 1e9,
            ours / theirs
        )
    };
    line("doubles, 23 units", ours, theirs);
    let rest = [1_000, 0, 0, 0, 0, 0, 16];
    let (mut sines, mut other) = ([0; 901], [0; 901]);
    let (ours, theirs) = best(
        rounds,
        2_000,
        || {
            let reply = library::sheet_of_doubles(black_box(&a[..22]), a[22], 0, &rest, &mut sines, &mut []);
            assert_eq!(black_box(reply), (3, 0))
        },
        || {
            let answer = doubles::sheet(black_box(&b[..22]), b[22], 0, &rest, &mut other, &mut []);
            assert_eq!(black_box(answer).map_err(|refusal| refusal.number()), Err(3))
        },
    );
    line("23 doubles read", ours, theirs);
}

fn main() {
    let words: Vec<String> = std::env::args().skip(1).collect();
    if words.first().is_some_and(|word| word == "goals") {
        return goals::print(words[1].parse().expect("a number of rounds"), &words[2]);
    }
    let rounds = words.first().map_or(100, |n| n.parse().expect("a number of rounds"));
    sheets(rounds);
    kinds(rounds);
    stars(rounds);
    networks(rounds);
    shares(rounds);
    let mut hand = [0; 45];
    sample::hand_worked().sheet(&mut hand).expect("room enough");
    let short: Vec<u32> = sheet::records_of(&hand)
        .expect("a well-formed sheet")
        .iter()
        .flat_map(|record| record.words())
        .collect();
    records(rounds, "hand-worked", &short, 2_000);
    records(rounds, "medium", &long_list(30), 500);
    records(rounds, "long", &long_list(3_000), 20);
    records(rounds, "drawn", &drawn_list(3_000), 20);
    roots(rounds);
    files(rounds, &hand);
    positions(rounds);
}
