//! Elements from tables of Sun and Moon through the crate: the books' rows, distances at their limits, every refusal.

use ukhtvaresh::{
    elements, elements_into, from_tables, from_tables_into, Besselian, Position, Radii, Refusal, Row, DOCUMENT_02, ROWS,
};

// 30 June 1954, 9h to 15h Universal Time, from the places that the handbook prints: examples/rows1954.txt.
const ROWS_1954: &str = include_str!("../../examples/rows1954.txt");

fn books_numbers() -> Vec<i64> {
    ROWS_1954
        .lines()
        .filter(|line| !line.starts_with('#'))
        .flat_map(str::split_whitespace)
        .map(|word| word.parse().expect("a whole number"))
        .collect()
}

fn row(numbers: &[i64]) -> Row {
    Row {
        sun: Position { x: numbers[0], y: numbers[1], z: numbers[2] },
        moon: Position { x: numbers[3], y: numbers[4], z: numbers[5] },
    }
}

fn books() -> [Row; ROWS] {
    let rows: Vec<Row> = books_numbers().chunks_exact(6).map(row).collect();
    rows.try_into().expect("seven rows")
}

// The least distances, the Sun and the Moon on the x axis.
const NEAREST: [i64; 6] = [2_300_000_000_000, 0, 0, 5_500_000_000, 0, 0];

#[test]
fn books_rows() {
    let elements = from_tables(&books()).expect("accepted");
    // the handbook's x, y at 9h, 12h and 15h, six and five decimals; tan f at 9h
    for (hour, x, y) in
        [(0, -185_901_200, 91_715_400), (3, -19_869_000, 65_294_000), (6, 146_103_000, 38_527_000)]
    {
        assert!((elements[hour].x - x).abs() < 2_000, "x at {hour}: {}", elements[hour].x);
        assert!((elements[hour].y - y).abs() < 2_000, "y at {hour}: {}", elements[hour].y);
    }
    assert!((elements[0].tan_f1 - 459_878).abs() < 20, "{}", elements[0].tan_f1);
    assert!((elements[0].tan_f2 - 457_587).abs() < 20, "{}", elements[0].tan_f2);
    assert!(elements.iter().all(|e| e.l2 < 0), "total");
}

#[test]
fn straight_rows() {
    let values = from_tables(&[row(&NEAREST); ROWS]).expect("accepted");
    let expected = Besselian {
        x: 0,
        y: 0,
        sin_d: 0,
        cos_d: 100_000_000,
        tan_f1: 476_452,
        tan_f2: 474_079,
        l1: 53_432_569,
        l2: -1_153_361,
    };
    assert_eq!(values, [expected; ROWS]);
}

#[test]
fn distances_at_their_limits() {
    let with = |place: usize, number: i64| {
        let mut numbers = NEAREST;
        numbers[place] = number;
        from_tables(&[row(&numbers); ROWS]).map(|_| ())
    };
    let refused = Err(Refusal::Row { row: 0 });
    assert_eq!(with(0, 2_400_000_000_000), Ok(()));
    assert_eq!(with(0, 2_400_000_000_001), refused);
    assert_eq!(with(0, 2_299_999_999_999), refused);
    assert_eq!(with(3, 6_500_000_000), Ok(()));
    assert_eq!(with(3, 6_500_000_001), refused);
    assert_eq!(with(3, 5_499_999_999), refused);
    assert_eq!(with(3, -5_500_000_000), Ok(()));
    for place in 0..6 {
        for end in [i64::MIN, i64::MIN + 1, i64::MAX] {
            assert_eq!(with(place, end), refused);
        }
    }
}

#[test]
fn sine_at_its_limit() {
    // Gx = 2,100,000,000,000, Gy = 0: the last Gz with 8151 Gz² ≤ 1849 Gx²
    let gx: i128 = 2_100_000_000_000;
    let last = (gx * gx * 1849 / 8151).isqrt() as i64;
    let with = |gz: i64| {
        let numbers = [2_100_000_000_000 + 5_500_000_000, 0, gz, 5_500_000_000, 0, 0];
        from_tables(&[row(&numbers); ROWS]).map(|_| ())
    };
    assert_eq!(with(last), Ok(()));
    assert_eq!(with(-last), Ok(()));
    assert_eq!(with(last + 1), Err(Refusal::Row { row: 0 }));
    assert_eq!(with(-last - 1), Err(Refusal::Row { row: 0 }));
}

#[test]
fn first_row_refused() {
    for first in 0..ROWS {
        let mut rows = [row(&NEAREST); ROWS];
        for row in &mut rows[first..] {
            row.moon.x = 0;
        }
        let refusal = from_tables(&rows).unwrap_err();
        assert_eq!((refusal.number(), refusal.place()), (11, first as u64));
    }
    let refusal = Refusal::Row { row: 3 };
    assert_eq!(refusal.to_string(), "refused 11 3: a row of the tables outside its distances");
}

#[test]
fn lengths_and_rooms() {
    let numbers = books_numbers();
    let mut values = [7; 60];
    assert_eq!(from_tables_into(&numbers[..41], &mut values), Err(Refusal::Shape));
    assert_eq!(from_tables_into(&[], &mut values), Err(Refusal::Shape));
    assert_eq!(from_tables_into(&[0; 43], &mut values), Err(Refusal::Shape));
    assert_eq!(from_tables_into(&[0; 42], &mut values[..3]), Err(Refusal::Row { row: 0 }));
    assert_eq!(from_tables_into(&numbers, &mut values[..55]), Err(Refusal::Room { needed: 56 }));
    assert_eq!(values, [7; 60]);
    assert_eq!(from_tables_into(&numbers, &mut values), Ok(56));
    assert_eq!(values[56..], [7; 4]);
    assert_eq!(values[24], from_tables(&books()).expect("accepted")[3].x);
}

// 30 June 1954, 12h Universal Time.
const SIDEREAL: [i64; 7] =
    [52_896_802, 67_937_871, 82_978_940, 98_020_009, 113_061_078, 128_102_147, 143_143_216];

#[test]
fn elements_of_the_books_rows() {
    let (made, off) = elements(&books(), &SIDEREAL, DOCUMENT_02, 200).expect("made");
    let rows = from_tables(&books()).expect("accepted");
    assert_eq!((made.tan_f1, made.tan_f2), (rows[3].tan_f1, rows[3].tan_f2));
    let x = [made.x0, made.x1, made.x2, made.x3];
    let apart = (-3i64..=3).zip(&rows).map(|(h, row)| (((x[3] * h + x[2]) * h + x[1]) * h + x[0] - row.x).abs());
    assert_eq!(apart.max(), Some(off.x));
    assert!(off.x <= 200 && made.l2_0 < 0);
}

#[test]
fn elements_refused() {
    let mut far = books();
    far[4].moon.y *= 2;
    let radii = Radii { central: 27_300_001, ..DOCUMENT_02 };
    assert_eq!(elements(&far, &[-1; 7], radii, 1_001), Err(Refusal::Given { place: 0 }));
    assert_eq!(elements(&far, &[-1; 7], radii, 0), Err(Refusal::Places { place: 2 }));
    assert_eq!(elements(&far, &[-1; 7], DOCUMENT_02, 0), Err(Refusal::Places { place: 3 }));
    assert_eq!(elements(&far, &SIDEREAL, DOCUMENT_02, 0), Err(Refusal::Row { row: 4 }));
    assert_eq!(elements(&books(), &[0; 7], DOCUMENT_02, 0), Err(Refusal::Element { field: 18 }));
    assert_eq!(elements(&books(), &SIDEREAL, DOCUMENT_02, 0), Err(Refusal::Hour { hour: 0 }));
}

#[test]
fn elements_leave_the_rest() {
    let radii = [10_904_847_000, 27_227_400, 27_227_400];
    let numbers = books_numbers();
    let (mut made, mut off) = ([7; 23], [7; 7]);
    for (first, second, needed) in [(21, 6, 22), (22, 5, 6), (0, 0, 22)] {
        let answer = elements_into(&numbers, &SIDEREAL, &radii, 200, &mut made[..first], &mut off[..second]);
        assert_eq!(answer, Err(Refusal::Room { needed }));
    }
    assert_eq!(elements_into(&numbers[1..], &SIDEREAL, &radii, 200, &mut made, &mut off), Err(Refusal::Shape));
    assert_eq!((made, off), ([7; 23], [7; 7]));
    assert_eq!(elements_into(&numbers, &SIDEREAL, &radii, 200, &mut made, &mut off), Ok(22));
    assert_eq!((made[22], off[6]), (7, 7));
}
