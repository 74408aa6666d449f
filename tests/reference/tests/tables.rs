//! Document 02, wish 2: which rows are refused, and which values lie too far off.

use reference::refusal::Refusal;
use reference::tables::{accepted, check, first_far, Row, NUMBERS, VALUES};

/// The least distances, the Sun and the Moon on the x axis.
const NEAREST: Row = [2_300_000_000_000, 0, 0, 5_500_000_000, 0, 0];

fn with(place: usize, number: i64) -> Row {
    let mut row = NEAREST;
    row[place] = number;
    row
}

#[test]
fn distances_with_their_ends() {
    for (place, number, good) in [
        (0, 2_300_000_000_000, true),
        (0, 2_400_000_000_000, true),
        (0, 2_299_999_999_999, false),
        (0, 2_400_000_000_001, false),
        (3, 6_500_000_000, true),
        (3, 5_499_999_999, false),
        (3, 6_500_000_001, false),
        (1, i64::MIN, false),
        (5, i64::MAX, false),
    ] {
        assert_eq!(accepted(&with(place, number)), good, "{place} {number}");
    }
    // 3² + 4² + 12² = 13²: exactly 65 radii, and a unit more
    let unit = 500_000_000;
    assert!(accepted(&[2_300_000_000_000, 0, 0, 12 * unit, 3 * unit, 4 * unit]));
    assert!(!accepted(&[2_300_000_000_000, 0, 0, 12 * unit, 3 * unit, 4 * unit + 1]));
}

#[test]
fn sine_of_d() {
    let gx = 2_100_000_000_000i64;
    let last = (i128::from(gx).pow(2) * 1849 / 8151).isqrt() as i64;
    let row = |gz: i64| [gx + 5_500_000_000, 0, gz, 5_500_000_000, 0, 0];
    for sign in [1, -1] {
        assert!(accepted(&row(sign * last)));
        assert!(!accepted(&row(sign * (last + 1))));
    }
}

#[test]
fn order_of_refusals() {
    let good: Vec<i64> = NEAREST.repeat(7);
    assert_eq!(check(&good[..NUMBERS - 1], 0), Err(Refusal::Shape));
    assert_eq!(check(&good, VALUES - 1), Err(Refusal::Room(VALUES)));
    assert!(check(&good, VALUES).is_ok());
    let mut bad = good;
    (bad[6 * 4], bad[6 * 2 + 3]) = (0, 0);
    assert_eq!(check(&bad, 0), Err(Refusal::Row(2)));
}

#[test]
fn values_within_their_bounds() {
    // by hand: x, y, sin d 0, cos d 1; tan f = S/√(G² − S²), l = z tan f ± k/cos f with G = 22,945 radii, z = 55
    let values = [0, 0, 0, 100_000_000, 476_452, 474_079, 53_432_569, -1_153_361];
    assert_eq!(first_far(&NEAREST, &values), None);
    for (place, e) in [1_000, 1_000, 4, 4, 4, 4, 1_000, 1_000].into_iter().enumerate() {
        for far in [2 * e + 1, -2 * e - 1] {
            let mut changed = values;
            changed[place] += far;
            assert_eq!(first_far(&NEAREST, &changed), Some(place));
        }
    }
}
