//! The catalogue of solar eclipses from 1900 to 2100, and the list of leap seconds. Both are texts of `almanac/`.

use crate::clock::day_number;
use crate::failure::{Failure, Outcome};
use crate::library::{self, Refused};

static ECLIPSES: &str = include_str!("../../../almanac/catalogue/eclipses.txt");
static LEAP_SECONDS: &str = include_str!("../../../almanac/leap_seconds.txt");

/// Years that the catalogue has all eclipses of.
pub const YEARS: (i64, i64) = (1900, 2100);
/// Hours from the reference instant that have seven rows around them.
pub const REACH: i64 = 1;

const LINES: usize = 8;
const ORDER: usize = 4;
const TURN: i64 = 360_000_000;
const TOLERANCE: i64 = 1_000;

/// A day of the calendar.
#[derive(Clone, Copy, Debug, PartialEq, Eq, PartialOrd, Ord)]
pub struct Day {
    pub year: i64,
    pub month: i64,
    pub day: i64,
}

impl Day {
    pub fn number(self) -> i64 {
        day_number(self.year, self.month, self.day)
    }

    pub fn of_number(number: i64) -> Day {
        let (year, month, day) = crate::clock::date_of(number);
        Day { year, month, day }
    }

    /// The day that YYYY-MM-DD names.
    pub fn of(text: &str, name: &str) -> Outcome<Day> {
        let form = || {
            Failure::Refused(format!("{name} {text} is not written as YYYY-MM-DD, for example 2024-04-08"))
        };
        let parts: Vec<&str> = text.split('-').collect();
        let digits = |part: &str, count: usize| {
            (part.len() == count && part.bytes().all(|byte| byte.is_ascii_digit()))
                .then(|| part.parse::<i64>().ok())
        };
        let [year, month, day] = parts[..] else {
            return Err(form());
        };
        let number = |part, count| digits(part, count).flatten().ok_or_else(form);
        let (year, month, day) = (number(year, 4)?, number(month, 2)?, number(day, 2)?);
        if !(1..=12).contains(&month) {
            return Err(Failure::Refused(format!("{name} {text} is not a day: months are 01 to 12")));
        }
        let made = Day { year, month, day };
        if day < 1 || Day::of_number(made.number()) != made {
            let after = if month == 12 { (year + 1, 1) } else { (year, month + 1) };
            let last = Day::of_number(day_number(after.0, after.1, 1) - 1).day;
            let words = format!("{name} {text} is not a day: this month has the days 01 to {last}");
            return Err(Failure::Refused(words));
        }
        Ok(made)
    }
}

impl std::fmt::Display for Day {
    fn fmt(&self, f: &mut std::fmt::Formatter<'_>) -> std::fmt::Result {
        write!(f, "{:04}-{:02}-{:02}", self.year, self.month, self.day)
    }
}

/// An eclipse of the catalogue. Its rows are read when they are needed.
pub struct Eclipse {
    /// Of greatest eclipse, by universal time.
    pub day: Day,
    /// Hours of the reference instant from 0h of that day, ephemeris time.
    hour: i64,
    kind: char,
    /// Hundredths of a second, and where it comes from.
    pub delta_t: i64,
    delta_t_source: char,
    pub saros: i64,
    columns: [&'static str; 7],
}

/// Radii of Sun and Moon in 10^-8 of the Earth's equatorial radius: the Sun's, the Moon's for the penumbra, and the
/// Moon's for the central cone.
pub type Radii = [i64; 3];

/// Radii by their names. Those of the International Astronomical Union have the Sun's radius of 959.63" at one
/// astronomical unit, for the solar parallax of 8.80" that the catalogue's distances are set by.
pub const RADII: [(&str, Radii); 2] = [
    ("document02", [10_904_847_000, 27_227_400, 27_227_400]),
    ("iau", [10_904_847_028, 27_250_760, 27_228_100]),
];

/// Elements of an eclipse for one of its reference hours.
pub struct Made {
    pub elements: [i64; 22],
    /// The largest misfits of x, y, d, l1, l2 and μ.
    pub misfits: [i64; 6],
}

impl Made {
    /// The sum of what the fits of x, y and l are off, kept within the range of a guard.
    pub fn guard(&self) -> i64 {
        let [x, y, _, l1, l2, _] = self.misfits;
        (x + y + l1.max(l2)).clamp(16, 1_000)
    }
}

// The values of a line of differences.
fn summed(line: &str) -> [i64; 9] {
    let mut values = [0; 9];
    for (value, word) in values.iter_mut().zip(line.split(' ')) {
        *value = word.parse().expect("a number of the catalogue");
    }
    for order in (1..=ORDER).rev() {
        for at in order..values.len() {
            values[at] += values[at - 1];
        }
    }
    values
}

impl Eclipse {
    pub fn kind(&self) -> &'static str {
        match self.kind {
            'P' => "partial",
            'A' => "annular",
            'T' => "total",
            _ => "hybrid",
        }
    }

    pub fn delta_t_source(&self) -> &'static str {
        match self.delta_t_source {
            'O' => "observed",
            'X' => "extrapolated table",
            _ => "formula",
        }
    }

    /// The day and the hour of ephemeris time some hours after the reference instant.
    pub fn instant(&self, hour: i64) -> (Day, i64) {
        let hours = self.hour + hour;
        (Day::of_number(self.day.number() + hours.div_euclid(24)), hours.rem_euclid(24))
    }

    /// The elements for the reference hour -1, 0 or 1 from the reference instant.
    pub fn made(&self, hour: i64, radii: &Radii) -> Result<Made, Refused> {
        let first = usize::try_from(hour + REACH).expect("an hour of the catalogue");
        let (mut rows, mut sidereal) = ([0; 42], [0; 7]);
        for (place, line) in self.columns.iter().enumerate() {
            let values = summed(line);
            for row in 0..7 {
                match place {
                    6 => sidereal[row] = values[first + row].rem_euclid(TURN),
                    _ => rows[6 * row + place] = values[first + row],
                }
            }
        }
        let (elements, misfits) = library::elements(&rows, &sidereal, radii, TOLERANCE)?;
        Ok(Made { elements, misfits })
    }
}

/// The eclipses of the catalogue in the order of time.
pub fn eclipses() -> Vec<Eclipse> {
    let lines: Vec<&'static str> = ECLIPSES.lines().filter(|line| !line.starts_with('#')).collect();
    lines
        .chunks_exact(LINES)
        .map(|record| {
            let words: Vec<&str> = record[0].split(' ').collect();
            let number = |at: usize| words[at].parse::<i64>().expect("a number of the catalogue");
            let letter = |at: usize| words[at].chars().next().expect("a letter of the catalogue");
            let day = Day::of(words[0], "date").expect("a day of the catalogue");
            let columns = std::array::from_fn(|at| record[at + 1]);
            Eclipse {
                day,
                hour: number(1),
                kind: letter(2),
                delta_t: number(3),
                delta_t_source: letter(4),
                saros: number(5),
                columns,
            }
        })
        .collect()
}

/// TAI - UTC on a day, and the day from which on it is presumed; `None` before 1972.
pub fn tai_utc(on: Day) -> Option<(i64, Option<Day>)> {
    let mut lines = LEAP_SECONDS.lines().filter(|line| !line.starts_with('#'));
    let day = |text: &str| Day::of(text, "date").expect("a day of the list");
    let expires = day(lines.next()?.strip_prefix("expires ")?);
    let number = lines
        .map_while(|line| line.split_once(' '))
        .take_while(|(since, _)| day(since) <= on)
        .last()
        .and_then(|(_, number)| number.parse().ok())?;
    Some((number, (on >= expires).then_some(expires)))
}

#[cfg(test)]
mod tests {
    use super::*;

    #[test]
    fn the_catalogue_is_whole() {
        let all = eclipses();
        assert_eq!(all.len(), 454);
        assert!(all.windows(2).all(|pair| pair[0].day < pair[1].day));
        let (day, hour) = all[0].instant(0);
        assert_eq!((day.to_string().as_str(), hour), ("1900-05-28", 15));
        assert_eq!(summed("50529703 15041070 0 0 -1 3 -3 1 0")[1], 50_529_703 + 15_041_070);
    }

    #[test]
    fn days_and_leap_seconds() {
        let day = |text| Day::of(text, "date").unwrap();
        assert_eq!(tai_utc(day("1971-12-31")), None);
        assert_eq!(tai_utc(day("1972-01-01")), Some((10, None)));
        assert_eq!(tai_utc(day("2016-12-31")), Some((36, None)));
        assert_eq!(tai_utc(day("2024-04-08")), Some((37, None)));
        assert_eq!(tai_utc(day("2044-08-23")), Some((37, Some(day("2027-06-28")))));
        for text in ["2024-02-30", "2024-3-1", "2024-13-01", "2024-00-10", "2024-01-00", "today", "20240408"]
        {
            assert!(Day::of(text, "date").is_err(), "{text}");
        }
    }
}
