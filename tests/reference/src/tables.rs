//! Elements from tables of Sun and Moon (document 02, wish 2): which rows are refused, and how far values may lie
//! from the exact ones.
//!
//! The document leaves open how the values are made, so here they are judged, not made. Directions are vectors: with
//! G from the Moon's centre to the Sun's, east is (-Gy, Gx, 0) and north G × east, so an exact value is a product of
//! whole vectors over the root of a whole number. Squares are compared over whole numbers.

use crate::refusal::Refusal;
use crate::wide::Wide;

/// Rows, and numbers in and out.
pub const ROWS: usize = 7;
pub const NUMBERS: usize = 6 * ROWS;
pub const VALUES: usize = 8 * ROWS;

type Vector = [Wide; 3];

/// A row: the Sun's x, y, z and the Moon's, in units.
pub type Row = [i64; 6];

fn vector(numbers: &[i64]) -> Vector {
    [Wide::from(numbers[0]), Wide::from(numbers[1]), Wide::from(numbers[2])]
}

fn dot(a: Vector, b: Vector) -> Wide {
    a[0] * b[0] + a[1] * b[1] + a[2] * b[2]
}

fn minus(a: Vector, b: Vector) -> Vector {
    [a[0] - b[0], a[1] - b[1], a[2] - b[2]]
}

fn whole(number: i64) -> Wide {
    Wide::from(number)
}

/// A distance from `low` to `high` radii, ends included.
fn off(place: Vector, low: i64, high: i64) -> bool {
    let radius = whole(100_000_000);
    let square = dot(place, place);
    (whole(low) * radius).square() <= square && square <= (whole(high) * radius).square()
}

/// The Moon 55 to 65 radii off, the Sun 23,000 to 24,000, the size of the exact sine of d at most 0.43.
pub fn accepted(row: &Row) -> bool {
    let (sun, moon) = (vector(&row[..3]), vector(&row[3..]));
    let g = minus(sun, moon);
    off(moon, 55, 65)
        && off(sun, 23_000, 24_000)
        && (whole(100) * g[2]).square() <= whole(43).square() * dot(g, g)
}

/// Where `value` lies to the exact a / √b: below 0 if it is more than `e` too small, above 0 if it is more than `e`
/// too large.
fn side(value: i64, e: i64, a: Wide, b: Wide) -> i32 {
    // c √b against a, both squared with their signs
    let signed = |x: Wide| if x.is_negative() { -x.square() } else { x.square() };
    if signed(whole(value + e)) * b < signed(a) {
        -1
    } else if signed(a) < signed(whole(value - e)) * b {
        1
    } else {
        0
    }
}

/// The first of the eight values of an accepted row that is too far from its exact value, counted from 0.
pub fn first_far(row: &Row, values: &[i64]) -> Option<usize> {
    let (sun, moon) = (vector(&row[..3]), vector(&row[3..]));
    let g = minus(sun, moon);
    let n = dot(g, g);
    let east = [-g[1], g[0], whole(0)];
    let north =
        [g[1] * east[2] - g[2] * east[1], g[2] * east[0] - g[0] * east[2], g[0] * east[1] - g[1] * east[0]];
    let unit = whole(100_000_000);
    let along = dot(moon, g);
    // solar radius 109.04847, lunar 0.272274
    let (solar, lunar) = (whole(10_904_847_000), whole(27_227_400));
    let (outer, inner) = (solar + lunar, solar - lunar);
    // the third of north is its share of the pole: cos d is that over its length
    let exact: [(i64, Wide, Wide); 8] = [
        (1_000, dot(moon, east), dot(east, east)),
        (1_000, dot(moon, north), dot(north, north)),
        (4, unit * g[2], n),
        (4, unit * north[2], dot(north, north)),
        (4, unit * outer, n - outer.square()),
        (4, unit * inner, n - inner.square()),
        (1_000, along * outer + lunar * n, n * (n - outer.square())),
        (1_000, along * inner - lunar * n, n * (n - inner.square())),
    ];
    exact.iter().zip(values).position(|(&(e, a, b), &value)| side(value, e, a, b) != 0)
}

/// What is refused, with a buffer of so many values: 10, 11, 4.
pub fn check(numbers: &[i64], room: usize) -> Result<[Row; ROWS], Refusal> {
    if numbers.len() != NUMBERS {
        return Err(Refusal::Shape);
    }
    let mut rows = [[0; 6]; ROWS];
    for (row, six) in rows.iter_mut().zip(numbers.chunks_exact(6)) {
        row.copy_from_slice(six);
    }
    if let Some(first) = rows.iter().position(|row| !accepted(row)) {
        return Err(Refusal::Row(first));
    }
    if room < VALUES {
        return Err(Refusal::Room(VALUES));
    }
    Ok(rows)
}
