//! `table22`: the station's place compared with table 22 of source document 001, which prints ρ sin φ' and
//! ρ cos φ' on Krasovsky's spheroid for each degree of latitude to five decimals, as differences from sin φ
//! and cos φ, their logarithms and ρ². Prints each figure that differs by more than half its last digit, with
//! the value by the rules; then the book's example.

use reference::place::place;
use reference::sine::{sine_cosine, UNIT};

/// Table 22 as printed: latitude, -s, c, lg S, lg C, ρ².
const TABLE: &str = include_str!("../../tests/data/table22.txt");
const COLUMNS: [&str; 5] = ["s", "c", "lg S", "lg C", "rho squared"];

/// The figures of a row by the rules; none where a logarithm of 0 would be needed.
fn row(degree: i64) -> [Option<f64>; 5] {
    let place = place(1_000_000 * degree, 0);
    let (sine, cosine) = sine_cosine(1_000_000 * degree);
    let [p, r, sine, cosine, unit] = [place.p, place.r, sine, cosine, UNIT].map(|n| n as f64);
    let logarithm = |a: f64, b: f64| (b != 0.0).then(|| (a / b).log10());
    [
        Some((sine - p) / unit),
        Some((r - cosine) / unit),
        logarithm(p, sine).map(|value| 10.0 + value),
        logarithm(r, cosine),
        Some((r * r + p * p) / (unit * unit)),
    ]
}

/// The figures that differ: degree, column, as printed, by the rules; and how many were compared.
fn differences() -> (Vec<(i64, &'static str, f64, f64)>, usize) {
    let half_a_digit = 0.5e-5 + 2e-7;
    let mut found = Vec::new();
    let mut compared = 0;
    for line in TABLE.lines().filter(|line| !line.starts_with('#')) {
        let mut numbers = line.split(' ').map(|number| number.parse::<f64>().expect("a number"));
        let degree = numbers.next().expect("a latitude") as i64;
        for ((printed, computed), column) in numbers.zip(row(degree)).zip(COLUMNS) {
            let Some(computed) = computed else { continue };
            compared += 1;
            if (printed - computed).abs() > half_a_digit {
                found.push((degree, column, printed, computed));
            }
        }
    }
    (found, compared)
}

fn main() {
    let (found, compared) = differences();
    for (degree, column, printed, computed) in &found {
        println!("{degree} degrees, {column}: printed {printed:.5}, by the rules {computed:.8}");
    }
    println!("{compared} figures, {} differ", found.len());
    let example = place(55_755_000, 166);
    println!("55 degrees 45.3', 166 m: P {} (the book 0.82301), R {} (0.56403)", example.p, example.r);
}

#[cfg(test)]
mod tests {
    use super::*;

    #[test]
    fn all_but_three_figures_agree() {
        let (found, compared) = differences();
        // Both logarithms at the end where they have no meaning are left out.
        assert_eq!(compared, 5 * 91 - 2);
        // ρ² at 33° is a misprint for 0.99802; the last digit of c is one too large at 49° and at 83°.
        let places: Vec<(i64, &str)> = found.iter().map(|&(degree, column, ..)| (degree, column)).collect();
        assert_eq!(places, [(33, "rho squared"), (49, "c"), (83, "c")]);
    }

    /// The book adds three rounded figures, cos φ, c and the height's part, so its last digit may be one off:
    /// 0.56403 where R is 0.56403879.
    #[test]
    fn the_books_example() {
        let place = place(55_755_000, 166);
        assert_eq!((place.p, place.r), (82_301_160, 56_403_879));
        assert!((place.p - 82_301_000).abs() <= 500 && (place.r - 56_403_000).abs() <= 1_000);
    }
}
