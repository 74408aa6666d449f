//! The covered share, proved and in plain Rust, timed in turns in one process: best of many runs, in microseconds a
//! share. And the reference's sheet of 21,601 seconds, of which a share is so many parts. First the two are compared
//! on drawn numbers.
//!
//!     RATTLE_STATICLIB=.. cargo run --offline --release

use reference::elements::Window;
use reference::random::Random;
use reference::sample;
use reference::share::share;
use std::hint::black_box;
use std::time::Instant;

extern "C" {
    fn rattle_share(l1: i64, l2: i64, m: i64) -> u32;
}

/// L1, L2 and the distance of the centres.
const CASES: [(&str, i64, i64, i64); 5] = [
    ("total, central", 54_000_000, -1_000_000, 0),
    ("total, half covered", 54_000_000, -1_000_000, 27_000_000),
    ("just begun", 54_000_000, -1_000_000, 52_000_000),
    ("annular, central", 54_000_000, 1_000_000, 0),
    ("outside", 54_000_000, 1_000_000, 55_000_000),
];

/// Both give the same in drawn cases: anywhere, nearly central, and far off.
fn compared(count: usize) {
    let mut random = Random::new(1954);
    for _ in 0..count {
        let l1 = random.within(&(48_860_000..=61_140_000));
        let l2 = random.within(&(-6_140_000..=6_140_000));
        let most = [l2.abs() + 20, l1 + 20, 1_000_000_000][random.below(3) as usize];
        let distance = random.within(&(0..=most));
        let m = (distance * distance + random.within(&(0..=20))).min(1_000_000_000_000_000_000);
        assert_eq!(i64::from(unsafe { rattle_share(l1, l2, m) }), share(l1, l2, m), "{l1} {l2} {m}");
    }
    println!("the same share in {count} drawn cases");
}

/// Microseconds of a run, and what it gave.
fn time<T>(run: impl FnOnce() -> T) -> (f64, T) {
    let start = Instant::now();
    let given = black_box(run());
    (start.elapsed().as_nanos() as f64 / 1e3, given)
}

fn main() {
    let rounds: usize = std::env::args().nth(1).map_or(60, |n| n.parse().expect("ROUNDS is a number"));
    compared(100_000);
    let mut worst: f64 = 0.0;
    for (name, l1, l2, distance) in CASES {
        let m = distance * distance;
        let (mut ours, mut theirs) = (f64::MAX, f64::MAX);
        for _ in 0..10 * rounds {
            let (a, x) = time(|| unsafe { rattle_share(black_box(l1), black_box(l2), black_box(m)) });
            let (b, y) = time(|| share(black_box(l1), black_box(l2), black_box(m)));
            assert_eq!(i64::from(x), y);
            (ours, theirs) = (ours.min(a), theirs.min(b));
        }
        worst = worst.max(ours);
        println!("{name:20} proved {ours:6.1} us, reference {theirs:6.1} us, ratio {:.2}", ours / theirs);
    }
    let request = sample::kiev_1954();
    let whole = reference::request::Request { window: Window { first: -10_800, last: 10_800 }, ..request };
    let mut buffer = [0; 4096];
    let sheet =
        (0..rounds).map(|_| time(|| whole.sheet(black_box(&mut buffer)).is_ok()).0).fold(f64::MAX, f64::min);
    println!(
        "a sheet of 21,601 seconds by the reference {sheet:.0} us; the longest share is {:.3} of it",
        worst / sheet
    );
}
