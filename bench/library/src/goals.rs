//! The table of goals: what a call takes, beside document 01 in plain Rust or beside the double-precision solver, in one run.

use crate::solver::Eclipse;
use crate::{best, in_window};
use agreement::draws;
use agreement::library;
use agreement::networks::stations;
use reference::elements::Window;
use reference::listing::sheet_of_input;
use reference::network::{Network, Node};
use reference::random::Random;
use reference::request::Request;
use reference::sample::{self, Manner};
use reference::shadow::Phase;
use std::hint::black_box;
use std::process::Command;

/// Microseconds of one call, the best of some rounds of `times` calls.
fn time(rounds: usize, times: usize, run: impl FnMut()) -> f64 {
    best(rounds, times, run, || ()).0 * 1e6
}

fn sheet_time(rounds: usize, bytes: &[u8]) -> f64 {
    let (mut a, mut sines) = (vec![0; 800_000], [0; 901]);
    time(10 * rounds, 2, || _ = black_box(library::sheet(black_box(bytes), &mut sines, &mut a)))
}

fn sorted(mut times: Vec<f64>) -> Vec<f64> {
    times.sort_by(f64::total_cmp);
    times
}

/// Sheets of 21,601 seconds: the library, document 01 in plain Rust, and the solver, whose contacts are those of the sheet to a second.
fn sheets(rounds: usize) {
    let hopkinsville = Request::from_bytes(include_bytes!("../../../examples/hopkinsville2017.bin")).expect("a request");
    let mut sums = [0.0; 3];
    for (name, request) in [
        ("hand-worked", sample::hand_worked()),
        ("Kiev 1954", sample::kiev_1954()),
        ("Moscow 1954", sample::moscow_1954()),
        ("Hopkinsville 2017", hopkinsville),
    ] {
        let bytes = in_window(&request, 21_601);
        let (mut a, mut b, mut sines) = ([0; 4096], [0; 4096], [0; 901]);
        let (ours, theirs) = best(
            10 * rounds,
            1,
            || _ = black_box(library::sheet(black_box(&bytes), &mut sines, &mut a)),
            || _ = black_box(sheet_of_input(black_box(&bytes), &mut b)),
        );
        assert_eq!(a, b);
        let solver = time(10 * rounds, 100, || _ = black_box(Eclipse::of(black_box(&request)).circumstances()));
        let found = Eclipse::of(&request).circumstances();
        let enter = i64::from(u16::from_be_bytes([a[10], a[11]])) - 10_800;
        let seconds = found.contacts[0][0] * 3600.0;
        assert!((-3.0..3.0).contains(&found.closest));
        assert!(a[9] != 0x10 || (enter as f64 - 1.0..enter as f64 + 2.0).contains(&seconds), "{name}: {enter} {seconds}");
        let row = [ours * 1e6, theirs * 1e6, solver];
        println!(
            "sheet, 21601 s, {name:17}: library {:6.2} us, reference {:8.1} us, ratio {:.4}; solver {:.2} us, ratio {:.1}",
            row[0], row[1], row[0] / row[1], row[2], row[0] / row[2]
        );
        for k in 0..3 {
            sums[k] += row[k];
        }
    }
    println!("sheet, 21601 s, together: ratio {:.4} (goal 0.0025), to the solver {:.1}", sums[0] / sums[1], sums[0] / sums[2]);
}

fn drawn(rounds: usize, count: usize, mut draw: impl FnMut(&mut Random) -> Request) -> Vec<f64> {
    let mut random = Random::new(7);
    sorted((0..count).map(|_| sheet_time(rounds, &in_window(&draw(&mut random), 21_601))).collect())
}

fn calls(rounds: usize) {
    let kiev = sample::kiev_1954();
    let one = in_window(&kiev, 1);
    let (mut sines, mut shadow, mut mirrored, mut sheet) = ([0; 901], [0; 8], [0; 115], [0; 4096]);
    println!(
        "sheet of one second; second; mirror: {:.2}; {:.2}; {:.2} us (goals 0.9; 0.7; 0.4)",
        sheet_time(rounds, &one),
        time(10 * rounds, 20, || _ = black_box(library::second(black_box(&one), 0, &mut sines, &mut shadow))),
        time(10 * rounds, 20, || _ = black_box(library::mirror(black_box(&one), &mut mirrored)))
    );
    let long = in_window(&kiev, 21_601);
    println!(
        "share; sheet with share: {:.2}; {:.2} us (goals 5; 9)",
        time(10 * rounds, 5, || _ = black_box(library::share(black_box(&long), 4_389, &mut sines))),
        time(10 * rounds, 2, || _ = black_box(library::sheet_and_share(black_box(&long), &mut sines, &mut sheet)))
    );
}

fn network(rounds: usize) {
    let kiev = sample::kiev_1954();
    let node = |place: i64| {
        let mut station = kiev.station;
        station.number = place + 1;
        station.latitude += 200_000 * place;
        Node { station, clock: place }
    };
    let window = Window { first: -10_800, last: 10_800 };
    let asked = Network { elements: kiev.elements, window, guard: kiev.guard, nodes: (0..64).map(node).collect() };
    let (eclipse, list) = (asked.eclipse(), stations(&asked));
    let (mut sines, mut steps) = ([0; 901], [0; 64]);
    let took = time(10 * rounds, 1, || _ = black_box(library::network(black_box(&eclipse), &list, &mut sines, &mut steps)));
    println!("network of 64 stations, six hours: {took:.0} us (goal 170)");
}

/// No window is slower than a longer one that contains it: the largest ratio of two such times.
fn windows(rounds: usize) {
    let mut worst = (0.0, 0, 0);
    for request in [sample::hand_worked(), sample::kiev_1954(), sample::moscow_1954()] {
        let lengths = [1, 2, 4, 6, 8, 10, 11, 12, 13, 16, 24, 49, 50, 75, 99, 100, 101, 200, 400, 600, 1_200, 3_000];
        let times = lengths.map(|n| {
            let window = Window { first: 0, last: n - 1 };
            sheet_time(rounds, &Request { window, ..request }.to_bytes().expect("numbers that have room"))
        });
        for i in 0..lengths.len() {
            for j in i + 1..lengths.len() {
                let ratio = times[i] / times[j];
                if worst.0 < ratio {
                    worst = (ratio, lengths[i], lengths[j]);
                }
            }
        }
    }
    println!("a window and a longer one: ratio {:.2} at most, of {} and {} s (goal 1.1)", worst.0, worst.1, worst.2);
}

/// Seconds of processor time that the shell's children took, from what its `times` prints.
fn processor_time(text: &str) -> f64 {
    let of = |word: &str| {
        let (minutes, seconds) = word.trim_end_matches('s').split_once('m').expect("minutes and seconds");
        60.0 * minutes.parse::<f64>().expect("minutes") + seconds.parse::<f64>().expect("seconds")
    };
    text.lines().last().expect("a line of children").split_whitespace().map(of).sum()
}

/// Requests one after the other through the program, by its processor time.
fn stream(program: &str) {
    let mut random = Random::new(7);
    let count = 50_000;
    let bytes: Vec<u8> = (0..count).flat_map(|_| in_window(&sample::draw(&mut random, Manner::Natural), 21_601)).collect();
    let file = std::env::temp_dir().join("bench_stream.bin");
    std::fs::write(&file, bytes).expect("a file of requests");
    let script = "\"$0\" <\"$1\" >/dev/null 2>&1; times";
    let output = Command::new("sh").arg("-c").arg(script).arg(program).arg(&file).output().expect("a shell");
    std::fs::remove_file(&file).expect("the file of requests");
    let took = processor_time(&String::from_utf8_lossy(&output.stdout));
    println!("stream: {:.0} requests a second of processor time (goal 180,000)", count as f64 / took);
}

pub fn print(rounds: usize, program: &str) {
    sheets(rounds);
    let natural = drawn(rounds, 400, |random| sample::draw(random, Manner::Natural));
    println!("natural, 400 drawn: median {:.1} us (goal a third of 16.9), nine in ten {:.1} us", natural[200], natural[360]);
    let edges = drawn(rounds.min(5), 400, draws::arranged);
    println!(
        "grazing, slow, polar, 400 drawn: mean {:.1} us (goal a third of 56), median {:.1} us",
        edges.iter().sum::<f64>() / 400.0,
        edges[200]
    );
    let still = drawn(rounds.min(5), 5, |random| {
        let mut request = sample::hand_worked();
        sample::slow_down(&mut request, 0, 0, 0);
        sample::put_near_edge(random, &mut request, 0, Phase::Penumbra);
        request
    });
    println!("standing still at the edge: largest of five {:.0} us (goal 1.1 times 1,100)", still[4]);
    calls(rounds);
    network(rounds);
    windows(rounds);
    stream(program);
}
