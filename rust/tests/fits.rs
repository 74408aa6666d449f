//! Document 02's fits through the crate: x of 30 June 1954, the tolerance to the unit, every refusal in its order.

use ukhtvaresh::{fit, Refusal};

// x of 30 June 1954, and the hourly values 9h to 15h of source document 001 that it was fitted to, in units.
const X: [i64; 4] = [-19_869_267, 55_341_229, -3_333, -800];
const HOURLY: [i64; 7] =
    [-185_901_200, -130_559_000, -75_213_000, -19_869_000, 35_468_000, 90_793_000, 146_103_000];

// The refusal of x with the number at a place changed: 0 to 3 the coefficients, 4 to 10 the tabulated values.
fn changed(changes: &[(usize, i64)], tolerance: i64) -> Option<(u64, u64)> {
    let (mut coefficients, mut tabulated) = (X, HOURLY);
    for &(place, number) in changes {
        match place {
            0..=3 => coefficients[place] = number,
            _ => tabulated[place - 4] = number,
        }
    }
    fit(&coefficients, &tabulated, tolerance).err().map(|refusal| (refusal.number(), refusal.place()))
}

#[test]
fn x_of_1954() {
    assert_eq!(fit(&X, &HOURLY, 500), Ok(()));
    // at 14h it is 459 units off
    assert_eq!(fit(&X, &HOURLY, 459), Ok(()));
    assert_eq!(fit(&X, &HOURLY, 458), Err(Refusal::Hour { hour: 5 }));
    assert_eq!(fit(&X, &HOURLY, 0), Err(Refusal::Hour { hour: 0 }));
}

#[test]
fn tolerance_to_the_unit() {
    let exact = [-3, -2, -1, 0, 1, 2, 3].map(|h| X[0] + h * (X[1] + h * (X[2] + h * X[3])));
    for hour in 0..7 {
        for tolerance in [0, 1, 1_000] {
            let off = |units: i64| {
                let mut tabulated = exact;
                tabulated[hour] += units;
                fit(&X, &tabulated, tolerance)
            };
            assert_eq!([off(-tolerance), off(tolerance)], [Ok(()); 2]);
            let refused = Err(Refusal::Hour { hour: hour as u64 });
            assert_eq!([off(-tolerance - 1), off(tolerance + 1)], [refused; 2]);
        }
    }
}

#[test]
fn refusals_in_their_order() {
    assert_eq!(changed(&[], -1), Some((18, 0)));
    assert_eq!(changed(&[], 1_001), Some((18, 0)));
    assert_eq!(changed(&[(4, i64::MIN), (0, i64::MAX)], i64::MIN), Some((18, 0)));
    for place in 4..11 {
        for number in [-1_000_000_001, 1_000_000_001, i64::MIN, i64::MAX] {
            let at = Some((18, place as u64 - 3));
            assert_eq!(changed(&[(place, number), (0, number)], 500), at);
            assert_eq!(changed(&[(place, number), (10, number)], 500), at);
        }
        for number in [-1_000_000_000, 1_000_000_000] {
            assert_eq!(changed(&[(place, number)], 500), Some((17, place as u64 - 4)));
        }
    }
    for (place, most) in [200_000_000, 100_000_000, 100_000, 10_000].into_iter().enumerate() {
        for number in [-most - 1, most + 1, i64::MIN, i64::MAX] {
            assert_eq!(changed(&[(place, number), (3, number)], 0), Some((2, place as u64)));
        }
        for number in [-most, most] {
            assert_eq!(changed(&[(place, number)], 0).map(|(number, _)| number), Some(17));
        }
    }
}

#[test]
fn refusals_as_words() {
    let refusal = fit(&X, &HOURLY, 0).expect_err("a refusal");
    assert_eq!(refusal.to_string(), "refused 17 0: a fit further from a tabulated value than the tolerance");
    let refusal = fit(&X, &HOURLY, -1).expect_err("a refusal");
    assert_eq!(refusal.to_string(), "refused 18 0: a tolerance or a tabulated value outside its range");
}
