//! Rows of Sun and Moon, and all that elements are made of, to try.

use reference::fitted::{RADII, RADIUS_RANGES, SIDEREAL};
use reference::random::Random;
use reference::tables::{Row, NUMBERS};
use std::f64::consts::TAU;

/// A place some `distance` off, its third coordinate at most `most` of it in size.
fn place(random: &mut Random, distance: f64, most: f64) -> [i64; 3] {
    let turn = random.bits() as f64 / 2f64.powi(64) * std::f64::consts::TAU;
    let sine = (random.bits() as f64 / 2f64.powi(63) - 1.0) * most;
    let cosine = (1.0 - sine * sine).sqrt();
    [turn.cos() * cosine, turn.sin() * cosine, sine].map(|share| (share * distance) as i64)
}

/// One coordinate moved so that the distance is as near `exact` as a whole number allows, or one unit more or less.
fn at_limit(random: &mut Random, place: &mut [i64; 3], exact: i64) {
    let at = random.below(3) as usize;
    let others: i128 = (0..3).filter(|&k| k != at).map(|k| i128::from(place[k]).pow(2)).sum();
    let rest = i128::from(exact).pow(2) - others;
    if rest >= 0 {
        let root = rest.isqrt() as i64 + random.within(&(-1..=1));
        place[at] = if random.once_in(2) { root } else { -root };
    }
}

/// A place exactly `limit` units off, by whole numbers whose squares add up to one: 9² + 6² + 2² = 11² and the like; or one unit beside it.
fn exactly(random: &mut Random, limit: i64) -> [i64; 3] {
    let (shares, whole) = match limit {
        5_500_000_000 => ([9, 6, 2], 11),
        6_500_000_000 => ([12, 4, 3], 13),
        2_300_000_000_000 => ([22, 6, 3], 23),
        _ => ([2, 2, 1], 3),
    };
    let turn = random.below(3) as usize;
    let mut place = [0, 1, 2].map(|k| {
        let share = shares[(k + turn) % 3] * (limit / whole);
        if random.once_in(2) {
            share
        } else {
            -share
        }
    });
    place[random.below(3) as usize] += random.within(&(-1..=1));
    place
}

/// A row near the ecliptic or anywhere, at its limits or one unit off, at the ends of 64 bits.
pub fn row(random: &mut Random) -> Row {
    let radius = 1e8;
    let mut moon_off = 55.0 + 10.0 * (random.bits() as f64 / 2f64.powi(64));
    let mut sun_off = 23_000.0 + 1_000.0 * (random.bits() as f64 / 2f64.powi(64));
    if random.once_in(64) {
        moon_off += [-10.0, 10.0][random.below(2) as usize];
    }
    if random.once_in(64) {
        sun_off += [-1_000.0, 1_000.0][random.below(2) as usize];
    }
    let highest = if random.once_in(32) { 0.46 } else { 0.429 };
    let mut sun = place(random, sun_off * radius, highest);
    // mostly before the Sun, as at an eclipse; else anywhere
    let mut moon = if random.once_in(4) {
        place(random, moon_off * radius, 1.0)
    } else {
        let share = moon_off / sun_off;
        sun.map(|c| (c as f64 * share) as i64 + random.within(&(-200_000_000..=200_000_000)))
    };
    if random.once_in(16) {
        let exact = [5_500_000_000, 6_500_000_000][random.below(2) as usize];
        if random.once_in(2) {
            moon = exactly(random, exact);
        } else {
            at_limit(random, &mut moon, exact);
        }
    }
    if random.once_in(16) {
        let exact = [2_300_000_000_000, 2_400_000_000_000][random.below(2) as usize];
        if random.once_in(2) {
            sun = exactly(random, exact);
        } else {
            at_limit(random, &mut sun, exact);
        }
    }
    if random.once_in(16) {
        // the last Gz at a sine of 0.43, or one unit off: 8151 Gz² = 1849 (Gx² + Gy²)
        let flat: i128 = (0..2).map(|k| (i128::from(sun[k]) - i128::from(moon[k])).pow(2)).sum();
        let last = (flat * 1849 / 8151).isqrt() as i64 + random.within(&(-1..=1));
        sun[2] = moon[2] + if random.once_in(2) { last } else { -last };
    }
    let mut row = [sun[0], sun[1], sun[2], moon[0], moon[1], moon[2]];
    if random.once_in(64) {
        row[random.below(6) as usize] = [i64::MIN, i64::MIN + 1, i64::MAX, 0][random.below(4) as usize];
    }
    row
}

/// Rows, sidereal angles, radii and the tolerance.
pub type Given = (Vec<i64>, Vec<i64>, Vec<i64>, i64);

/// A number from `low` to `high`.
fn between(random: &mut Random, low: f64, high: f64) -> f64 {
    low + (high - low) * (random.bits() as f64 / 2f64.powi(64))
}

/// A direction on the ecliptic's sphere as seen from the equator's, times a distance in radii, in units.
fn ecliptic(longitude: f64, latitude: f64, distance: f64) -> [i64; 3] {
    let (tilt_sine, tilt_cosine) = 23.44f64.to_radians().sin_cos();
    let (x, y, z) =
        (longitude.cos() * latitude.cos(), longitude.sin() * latitude.cos(), latitude.sin());
    [x, y * tilt_cosine - z * tilt_sine, y * tilt_sine + z * tilt_cosine].map(|part| (part * distance * 1e8) as i64)
}

/// Seven hours around a conjunction: Sun and Moon near the ecliptic, at their speeds and distances.
fn conjunction(random: &mut Random) -> Vec<i64> {
    let start = between(random, 0.0, TAU);
    let (sun_off, moon_off) = (between(random, 23_050.0, 23_850.0), between(random, 56.0, 63.8));
    let (sun_rate, moon_rate) = (0.0411f64.to_radians(), between(random, 0.49, 0.62).to_radians());
    let moon_speed = between(random, -0.02, 0.02);
    let lead = between(random, -0.7, 0.7).to_radians();
    let latitude = between(random, -1.5, 1.5).to_radians();
    let slope = between(random, -0.057, 0.057).to_radians();
    let mut numbers = Vec::with_capacity(NUMBERS);
    for hour in -3..=3 {
        let h = f64::from(hour);
        numbers.extend(ecliptic(start + sun_rate * h, 0.0, sun_off));
        numbers.extend(ecliptic(start + lead + moon_rate * h, latitude + slope * h, moon_off + moon_speed * h));
    }
    numbers
}

fn sidereal(random: &mut Random) -> Vec<i64> {
    let start = match random.below(4) {
        // so that it passes 360 degrees
        0 => random.within(&(-46_000_000..=46_000_000)),
        _ => random.within(&(0..=359_999_999)),
    };
    (-3..=3).map(|hour| (start + 15_041_069 * hour).rem_euclid(360_000_000)).collect()
}

fn radii(random: &mut Random) -> Vec<i64> {
    match random.below(3) {
        0 => vec![10_904_847_000, 27_227_400, 27_227_400],
        1 => (0..RADII).map(|at| random.within(&RADIUS_RANGES[at])).collect(),
        _ => (0..RADII)
            .map(|at| if random.once_in(2) { *RADIUS_RANGES[at].start() } else { *RADIUS_RANGES[at].end() })
            .collect(),
    }
}

/// What elements are asked for of: mostly the hours around a conjunction, some with a number changed by little, to a limit
/// or to anything, with lists of other lengths, or with rows that do not belong together.
pub fn given(random: &mut Random) -> Given {
    let mut rows = conjunction(random);
    if random.once_in(16) {
        rows = (0..7).flat_map(|_| row(random)).collect();
    }
    let (mut angles, mut lengths) = (sidereal(random), radii(random));
    let mut tolerance = match random.below(4) {
        0 => 1_000,
        1 => random.within(&(0..=60)),
        _ => random.within(&(0..=1_000)),
    };
    if random.once_in(3) {
        for _ in 0..1 + random.below(3) {
            let change = random.within(&(-2_000..=2_000));
            let small = random.within(&(-3..=3));
            let wild = [i64::MIN, i64::MAX, 0, -1, random.bits() as i64][random.below(5) as usize];
            let far = random.once_in(8);
            match random.below(8) {
                0..=3 => {
                    let at = random.below(rows.len() as u64) as usize;
                    rows[at] = if far { wild } else { rows[at].saturating_add(change) };
                }
                4 => {
                    let at = random.below(SIDEREAL as u64) as usize;
                    angles[at] = if far { [wild, -1, 360_000_000, 359_999_999][random.below(4) as usize] } else { angles[at] + change };
                }
                5 => {
                    let at = random.below(RADII as u64) as usize;
                    let ends = [*RADIUS_RANGES[at].start(), *RADIUS_RANGES[at].end()];
                    lengths[at] = if far { wild } else { ends[random.below(2) as usize] + small };
                }
                6 => tolerance = if far { wild } else { [0, 1_000][random.below(2) as usize] + small },
                _ => {
                    let list = [&mut rows, &mut angles, &mut lengths].into_iter().nth(random.below(3) as usize);
                    let list = list.expect("one of three");
                    if random.once_in(4) {
                        let length = random.below(2 * list.len() as u64) as usize;
                        list.resize(length, 0);
                    }
                }
            }
            if rows.is_empty() || angles.len() < SIDEREAL || lengths.len() < RADII {
                break;
            }
        }
    }
    (rows, angles, lengths, tolerance)
}
