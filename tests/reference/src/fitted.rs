//! Elements from rows (docs/ELEMENTS.md): the 22 elements and the six misfits of seven hourly rows of Sun and Moon.
//!
//! Written from that page. The search for an angle goes down from 45 degrees by whole numbers only at the end: it starts
//! from a guess in floating point, and the neighbours decide.

use crate::elements::{first_outside, value_at, Elements};
use crate::refusal::Refusal;
use crate::sine::sine;
use crate::tables::{accepted, Row, NUMBERS, ROWS};
use std::ops::RangeInclusive;

pub const SIDEREAL: usize = 7;
pub const RADII: usize = 3;
pub const ELEMENTS: usize = 22;
pub const MISFITS: usize = 6;
const SINES: usize = 901;

const UNIT: i128 = 100_000_000;
const DEGREE: i64 = 1_000_000;
const TURN: i64 = 360 * DEGREE;
const HOURS: [i64; ROWS] = [-3, -2, -1, 0, 1, 2, 3];

/// The ranges of the three radii, the Sun's first, and of a sidereal angle.
pub const RADIUS_RANGES: [RangeInclusive<i64>; RADII] =
    [10_890_000_000..=10_930_000_000, 27_200_000..=27_300_000, 27_200_000..=27_300_000];
pub const SIDEREAL_RANGE: RangeInclusive<i64> = 0..=359_999_999;
pub const TOLERANCE_RANGE: RangeInclusive<i64> = 0..=1_000;

/// n/k to the nearest, halves away from zero.
fn near(n: i128, k: i128) -> i128 {
    n.signum() * ((2 * n.abs() + k) / (2 * k))
}

fn root(n: i128) -> i128 {
    n.isqrt()
}

/// The largest whole angle from 0 to 45 degrees whose sine is at most v.
pub fn arc(v: i64) -> i64 {
    let most = 45 * DEGREE;
    let guess = ((v as f64 / 1e8).min(1.0).asin().to_degrees() * 1e6) as i64;
    // the rule's sine is within 2 units of the true one, so within a few millionths of a degree of the guess
    let high = (guess + 50).min(most);
    (0..=high).rev().find(|&angle| sine(angle) <= v).expect("the sine of 0 is 0")
}

/// The angle whose cosine is x and whose sine is y, from 0 up to 360 degrees.
pub fn direction(x: i64, y: i64) -> i64 {
    let (p, q) = (x.abs(), y.abs());
    let b = if q <= p { arc(q) } else { 90 * DEGREE - arc(p) };
    match (x < 0, y < 0) {
        (false, false) => b,
        (true, false) => 180 * DEGREE - b,
        (true, true) => 180 * DEGREE + b,
        (false, true) => (TURN - b) % TURN,
    }
}

/// What one row gives: x, y, d, l1, l2, the axis' right ascension, tan f1, tan f2.
struct Hour {
    x: i64,
    y: i64,
    d: i64,
    l1: i64,
    l2: i64,
    a: i64,
    tan_f1: i64,
    tan_f2: i64,
}

fn hour(row: &Row, radii: &[i64; RADII]) -> Hour {
    let [sun_x, sun_y, sun_z, x, y, z] = row.map(i128::from);
    let [gx, gy, gz] = [sun_x - x, sun_y - y, sun_z - z].map(|part| near(part, 1000));
    let p = gx * gx + gy * gy;
    let n = p + gz * gz;
    let (flat, length) = (root(p), root(n));
    let (cos_a, sin_a) = (near(UNIT * gx, flat), near(UNIT * gy, flat));
    let (sin_d, cos_d) = (near(UNIT * gz, length), near(UNIT * flat, length));
    let east = near(y * cos_a - x * sin_a, UNIT);
    let q = near(x * cos_a + y * sin_a, UNIT);
    let north = near(z * cos_d - q * sin_d, UNIT);
    let along = near(z * sin_d + q * cos_d, UNIT);
    let [sun, outer, inner] = radii.map(i128::from);
    let cone = |s: i128, k: i128| {
        let t = root(n - near(s * s, 1_000_000));
        let tan_f = near(100_000 * s, t);
        (tan_f, near(along * tan_f, UNIT), near(k * length, t))
    };
    let (tan_f1, slope_1, foot_1) = cone(sun + outer, outer);
    let (tan_f2, slope_2, foot_2) = cone(sun - inner, inner);
    Hour {
        x: east as i64,
        y: north as i64,
        d: sin_d.signum() as i64 * arc(sin_d.abs() as i64),
        l1: (slope_1 + foot_1) as i64,
        l2: (slope_2 - foot_2) as i64,
        a: direction(cos_a as i64, sin_a as i64),
        tan_f1: tan_f1 as i64,
        tan_f2: tan_f2 as i64,
    }
}

fn sums(values: &[i64; ROWS]) -> [i128; 4] {
    let times = |weight: fn(i64) -> i64| -> i128 {
        HOURS.iter().zip(values).map(|(&h, &value)| i128::from(weight(h)) * i128::from(value)).sum()
    };
    [times(|_| 1), times(|h| h), times(|h| h * h - 4), times(|h| (h * h * h - 7 * h) / 6)]
}

/// The cubic of least squares.
pub fn cubic(values: &[i64; ROWS]) -> [i64; 4] {
    let [a0, a1, a2, a3] = sums(values);
    let c3 = near(a3, 36);
    let c2 = near(a2, 84);
    let c1 = near(a1 - 196 * c3, 28);
    let c0 = near(a0 - 28 * c2, 7);
    [c0, c1, c2, c3].map(|c| c as i64)
}

/// The quadratic.
pub fn quadratic(values: &[i64; ROWS]) -> [i64; 3] {
    let [a0, a1, a2, _] = sums(values);
    let c2 = near(a2, 84);
    [near(a0 - 28 * c2, 7), near(a1, 28), c2].map(|c| c as i64)
}

/// How far the polynomial is from each of its values.
fn misses<const N: usize>(coefficients: &[i64; N], values: &[i64; ROWS]) -> [i64; ROWS] {
    let mut all = [0; ROWS];
    for (miss, (&h, &value)) in all.iter_mut().zip(HOURS.iter().zip(values)) {
        *miss = (value_at(coefficients, 3600 * h) - value).abs();
    }
    all
}

/// Whether the numbers are taken: 10, 18, 21, 11.
fn taken(
    rows: &[i64],
    sidereal: &[i64],
    radii: &[i64],
    tolerance: i64,
) -> Result<([Row; ROWS], [i64; SIDEREAL], [i64; RADII]), Refusal> {
    if rows.len() != NUMBERS {
        return Err(Refusal::Shape);
    }
    let angles: [i64; SIDEREAL] = sidereal.try_into().map_err(|_| Refusal::Shape)?;
    let lengths: [i64; RADII] = radii.try_into().map_err(|_| Refusal::Shape)?;
    if !TOLERANCE_RANGE.contains(&tolerance) {
        return Err(Refusal::Given(0));
    }
    if let Some(at) = first_outside(&lengths, &RADIUS_RANGES) {
        return Err(Refusal::Places(at));
    }
    if let Some(at) = angles.iter().position(|angle| !SIDEREAL_RANGE.contains(angle)) {
        return Err(Refusal::Places(RADII + at));
    }
    let mut table = [[0; 6]; ROWS];
    for (row, six) in table.iter_mut().zip(rows.chunks_exact(6)) {
        row.copy_from_slice(six);
    }
    match table.iter().position(|row| !accepted(row)) {
        Some(first) => Err(Refusal::Row(first)),
        None => Ok((table, angles, lengths)),
    }
}

/// The elements and the misfits, with so much room for table S, for the elements and for the misfits; or the refusal, and
/// whether table S was filled before it.
pub fn elements(
    rows: &[i64],
    sidereal: &[i64],
    radii: &[i64],
    tolerance: i64,
    rooms: [usize; 3],
) -> Result<([i64; ELEMENTS], [i64; MISFITS]), (Refusal, bool)> {
    let (table, angles, lengths) = taken(rows, sidereal, radii, tolerance).map_err(|refusal| (refusal, false))?;
    if rooms[0] < SINES {
        return Err((Refusal::Room(SINES), false));
    }
    let hours = table.map(|row| hour(&row, &lengths));
    let column = |value: fn(&Hour) -> i64| -> [i64; ROWS] { std::array::from_fn(|i| value(&hours[i])) };
    // sidereal time less right ascension less 15 degrees an hour, from that of hour 0
    let turned: [i64; ROWS] = std::array::from_fn(|i| angles[i] - hours[i].a - 15 * DEGREE * HOURS[i]);
    let middle = turned[3];
    let off = turned.map(|angle| (angle - middle + 180 * DEGREE).rem_euclid(TURN) - 180 * DEGREE);
    let (xs, ys) = (column(|h| h.x), column(|h| h.y));
    let (ds, first, second) = (column(|h| h.d), column(|h| h.l1), column(|h| h.l2));
    let (x, y) = (cubic(&xs), cubic(&ys));
    let (d, l1, l2, m) = (quadratic(&ds), quadratic(&first), quadratic(&second), quadratic(&off));
    let mu = [(middle + m[0]).rem_euclid(TURN), m[1] + 15 * DEGREE, m[2]];
    let (tan_f1, tan_f2) = (hours[3].tan_f1, hours[3].tan_f2);
    let made = Elements { x, y, d, l1, l2, mu, tan_f1, tan_f2 };
    made.check().map_err(|refusal| (refusal, true))?;
    let all = [misses(&x, &xs), misses(&y, &ys), misses(&d, &ds), misses(&l1, &first), misses(&l2, &second), misses(&m, &off)];
    for (fit, misses) in all.iter().enumerate() {
        if let Some(at) = misses.iter().position(|&miss| miss > tolerance) {
            return Err((Refusal::Hour(10 * fit + at), true));
        }
    }
    if rooms[1] < ELEMENTS {
        return Err((Refusal::Room(ELEMENTS), true));
    }
    if rooms[2] < MISFITS {
        return Err((Refusal::Room(MISFITS), true));
    }
    Ok((made.fields(), all.map(|misses| misses.into_iter().max().expect("seven hours"))))
}

#[cfg(test)]
mod tests {
    use super::*;

    #[test]
    fn angles() {
        assert_eq!((arc(0), arc(70_710_678), arc(100_000_000)), (0, 45 * DEGREE, 45 * DEGREE));
        assert_eq!(direction(100_000_000, 0), 0);
        assert_eq!(direction(0, 100_000_000), 90 * DEGREE);
        assert_eq!(direction(-100_000_000, 0), 180 * DEGREE);
        assert_eq!(direction(0, -100_000_000), 270 * DEGREE);
        // exactly the largest: the next one has a larger sine
        for v in [1, 2, 1_000, 12_345_678, 43_000_000, 70_000_000] {
            assert!(sine(arc(v)) <= v && v < sine(arc(v) + 1));
        }
    }

    #[test]
    fn own_values_come_back() {
        let c = [123_456_789, -54_321_000, -4_321, 789];
        let values = HOURS.map(|h| value_at(&c, 3600 * h));
        assert_eq!(cubic(&values), c);
        let q = [14_000_000, -12_345, 67];
        assert_eq!(quadratic(&HOURS.map(|h| value_at(&q, 3600 * h))), q);
    }
}
