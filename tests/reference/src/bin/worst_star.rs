//! `worst_star SEED N`: how far a star's distance less L can be from the exact one, by choice and not by luck.
//!
//! At second ±10,799, where each rounding of a value at a second can be a half, x3, x2, x1 are chosen so that the
//! three roundings err the same way, and y3, y2, y1 too; N stations are drawn for ξ and η that err most against them,
//! the declination at its limits or anywhere; then the axis is put on the cylinder's edge in the direction of the
//! error. Prints the worst found.

use reference::axis::put;
use reference::course::{Course, Second};
use reference::elements::{Station, Window, STATION_RANGES};
use reference::exact::{units, D};
use reference::numbers::near;
use reference::random::Random;
use reference::star::{star_ranges, StarElements, StarRequest, RADII};
use reference::wide::Wide;

const SECOND: i64 = 10_799;

/// What rounding adds to n/3600, in 3600ths.
fn added(n: i64) -> i64 {
    3600 * near(n, 3600) - n
}

/// Coefficients, the constant 0, whose three roundings at a second all go the way of `sign` by as much as they can.
fn coefficients(second: i64, sign: i64) -> [i64; 4] {
    let mut value = 0;
    let mut found = [0; 4];
    for power in [3, 2, 1] {
        // An error is carried on times second/3600, so the way that each has to go turns with the second's sign.
        let way = if power % 2 == 1 { sign } else { sign * second.signum() };
        let best = (-1_800..1_800).max_by_key(|c| way * added((value + c) * second));
        found[power] = best.unwrap_or(0);
        value = near((value + found[power]) * second, 3600);
    }
    found
}

/// How much more than the exact number, in units.
fn more((rounded, exact): (i64, Wide)) -> f64 {
    (units(rounded) - exact).to_f64() / D as f64
}

fn second_of(request: &StarRequest, second: i64) -> Second {
    <StarRequest as Course>::second(&request.checked().expect("within its ranges"), second)
}

/// How far the distance less L is off.
fn whole(request: &StarRequest, second: i64) -> f64 {
    let Second { m, phases, .. } = second_of(request, second);
    let (l, distance) = (phases[0].l as f64, (m as f64).sqrt());
    let rounded = (i128::from(m) - i128::from(phases[0].l).pow(2)) as f64 / (distance + l);
    (rounded - phases[0].edge.beyond()).abs()
}

fn main() {
    let mut arguments = std::env::args().skip(1).map(|word| word.parse().expect("usage: worst_star SEED N"));
    let (seed, stations) = (arguments.next().unwrap_or(1), arguments.next().unwrap_or(1_000_000));
    let mut random = Random::new(seed);
    let ways = [SECOND, -SECOND].map(|second| (second, [1, -1].map(|sign| coefficients(second, sign))));
    let mut worst: Option<(f64, StarRequest, i64)> = None;
    for _ in 0..stations {
        let (second, signs) = ways[random.below(2) as usize];
        let [x, y] = [0; 2].map(|_: i64| signs[random.below(2) as usize]);
        let mut numbers = star_ranges().map(|range| random.within(&range));
        numbers[8] = [30_000_000, -30_000_000, numbers[8]][random.below(3) as usize];
        let mut request = StarRequest {
            elements: StarElements { x, y, ..StarElements::from_fields(numbers) },
            radius: random.within(&RADII),
            station: Station::from_fields(STATION_RANGES.map(|range| random.within(&range))),
            window: Window { first: second, last: second },
            guard: 16,
        };
        let Second { u, v, .. } = second_of(&request, second);
        let (u, v) = (more(u), more(v));
        // Only what can be worse than the worst so far; then on the edge, on the error's side and on the other.
        if worst.as_ref().is_some_and(|(before, ..)| u.hypot(v) <= *before) {
            continue;
        }
        for angle in [u.atan2(v), (-u).atan2(-v)] {
            if put(&mut request, second, (), 0, angle) {
                let found = whole(&request, second);
                if worst.as_ref().is_none_or(|(before, ..)| found > *before) {
                    worst = Some((found, request, second));
                }
            }
        }
    }
    let Some((found, request, second)) = worst else { return println!("no station") };
    let Second { u, v, .. } = second_of(&request, second);
    println!("distance less L off by {found:.4}; u by {:.4}, v by {:.4}", more(u), more(v));
    println!("    at {second} with {:?}", request.numbers());
}
