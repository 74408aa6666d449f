//! Times of day of seconds and of hundredths, exact to the thousandth of a second: nothing is rounded here.
//!
//! ET is ephemeris time, UT universal time by the request's ΔT, UTC by the request's TAI - UTC (docs/CLOCK.md).

use crate::library::Instant;

const DAY: i64 = 86_400_000; // thousandths

/// The scales of time.
#[derive(Clone, Copy, Debug, PartialEq, Eq)]
pub enum Scale {
    Et,
    Ut,
    Utc,
}

impl Scale {
    pub const ALL: [Scale; 3] = [Scale::Et, Scale::Ut, Scale::Utc];

    pub fn name(self) -> &'static str {
        match self {
            Scale::Et => "ET",
            Scale::Ut => "UT",
            Scale::Utc => "UTC",
        }
    }
}

/// Days from 1 March of the year 0 by the Gregorian calendar.
pub fn day_number(year: i64, month: i64, day: i64) -> i64 {
    let (year, month) = if month > 2 { (year, month - 3) } else { (year - 1, month + 9) };
    365 * year + year.div_euclid(4) - year.div_euclid(100)
        + year.div_euclid(400)
        + (153 * month + 2) / 5
        + day
        - 1
}

/// Year, month and day of such a number of days.
pub fn date_of(days: i64) -> (i64, i64, i64) {
    let era = days.div_euclid(146_097);
    let of_era = days.rem_euclid(146_097);
    let year = (of_era - of_era / 1_460 + of_era / 36_524 - of_era / 146_096) / 365;
    let of_year = of_era - (365 * year + year / 4 - year / 100);
    let shifted = (5 * of_year + 2) / 153;
    let day = of_year - (153 * shifted + 2) / 5 + 1;
    let month = if shifted < 10 { shifted + 3 } else { shifted - 9 };
    (era * 400 + year + i64::from(month <= 2), month, day)
}

/// What is needed to say the time of a second: the instant and ΔT in hundredths.
#[derive(Clone, Copy)]
pub struct Clock {
    instant: Instant,
    delta_t: i64,
}

impl Clock {
    pub fn new(instant: Instant, delta_t: i64) -> Clock {
        Clock { instant, delta_t }
    }

    /// The scales that are known: none without an instant; with a ΔT of 0 the instant's own and what follows of it.
    pub fn scales(&self) -> Vec<Scale> {
        Scale::ALL.into_iter().filter(|scale| self.thousandths(*scale, 0).is_some()).collect()
    }

    // Thousandths from 0h of the instant's day to some hundredths after the instant.
    fn thousandths(&self, scale: Scale, hundredths: i64) -> Option<i64> {
        let [typed, _, _, _, of_day, tai_utc] = self.instant;
        let own = 10 * (of_day + hundredths);
        let ephemeris = match typed {
            1 => Some(own),
            2 if self.delta_t != 0 => Some(own + 10 * self.delta_t),
            _ => None,
        };
        match scale {
            Scale::Et => ephemeris,
            Scale::Ut if typed == 2 => Some(own),
            Scale::Ut => ephemeris.filter(|_| self.delta_t != 0).map(|time| time - 10 * self.delta_t),
            Scale::Utc => ephemeris.filter(|_| tai_utc != 0).map(|time| time - 32_184 - 1_000 * tai_utc),
        }
    }

    /// The time of day, with `+1d` or `-1d` on the day after or before the instant's.
    pub fn time(&self, scale: Scale, hundredths: i64) -> Option<String> {
        let time = self.thousandths(scale, hundredths)?;
        let days = time.div_euclid(DAY);
        let mark = if days == 0 { String::new() } else { format!("{days:+}d") };
        Some(format!("{}{mark}", of_day(time)))
    }

    /// Date and time of day, as in 2024-04-08T18:40:36.620.
    pub fn date_time(&self, scale: Scale, hundredths: i64) -> Option<String> {
        let time = self.thousandths(scale, hundredths)?;
        let [_, year, month, day, ..] = self.instant;
        let (year, month, day) = date_of(day_number(year, month, day) + time.div_euclid(DAY));
        Some(format!("{year:04}-{month:02}-{day:02}T{}", of_day(time)))
    }
}

// HH:MM:SS with the decimals that are there, two or three.
fn of_day(thousandths: i64) -> String {
    let rest = thousandths.rem_euclid(DAY);
    let (seconds, part) = (rest / 1_000, rest % 1_000);
    let part = if part % 10 == 0 { format!("{:02}", part / 10) } else { format!("{part:03}") };
    format!("{:02}:{:02}:{:02}.{part}", seconds / 3_600, seconds / 60 % 60, seconds % 60)
}

/// The instant as the listing has it.
pub fn instant_text(instant: &Instant) -> Option<String> {
    let [scale, year, month, day, hundredths, _] = *instant;
    let scale = match scale {
        1 => "ET",
        2 => "UT",
        _ => return None,
    };
    let (seconds, part) = (hundredths / 100, hundredths % 100);
    let time = format!("{:02}:{:02}:{:02}.{part:02}", seconds / 3_600, seconds / 60 % 60, seconds % 60);
    Some(format!("{year:04}-{month:02}-{day:02} {time} {scale}"))
}

#[cfg(test)]
mod tests {
    use super::*;

    #[test]
    fn days_of_the_calendar() {
        let start = day_number(1583, 1, 1);
        let mut known = (1583, 1, 1);
        for days in start..start + 400 * 366 {
            assert_eq!(date_of(days), known);
            assert_eq!(day_number(known.0, known.1, known.2), days);
            let leap = known.0 % 4 == 0 && (known.0 % 100 != 0 || known.0 % 400 == 0);
            let long = [31, if leap { 29 } else { 28 }, 31, 30, 31, 30, 31, 31, 30, 31, 30, 31];
            known.2 += 1;
            if known.2 > long[usize::try_from(known.1 - 1).unwrap()] {
                known = if known.1 == 12 { (known.0 + 1, 1, 1) } else { (known.0, known.1 + 1, 1) };
            }
        }
    }

    #[test]
    fn times_of_three_scales() {
        let clock = Clock::new([1, 2017, 8, 21, 6_480_000, 37], 6_880);
        assert_eq!(clock.time(Scale::Et, -373_962).as_deref(), Some("16:57:40.38"));
        assert_eq!(clock.time(Scale::Ut, -373_962).as_deref(), Some("16:56:31.58"));
        assert_eq!(clock.time(Scale::Utc, -373_962).as_deref(), Some("16:56:31.196"));
        assert_eq!(clock.date_time(Scale::Ut, 2_400_000).as_deref(), Some("2017-08-22T00:38:51.20"));
        assert_eq!(clock.time(Scale::Ut, 2_400_000).as_deref(), Some("00:38:51.20+1d"));
        assert_eq!(Clock::new([2, 1954, 6, 30, 4_320_000, 0], 0).scales(), [Scale::Ut]);
        assert_eq!(Clock::new([0; 6], 0).scales(), []);
    }
}
