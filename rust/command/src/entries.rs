//! Entries of a sheet as JSON and CSV, with the times that the library's listing prints beside them.

use crate::output::csv;
use serde_json::{json, Map, Value};
use ukhtvaresh::{Entry, Phase};

/// Tenths as a number with one decimal.
pub fn tenths(units: impl Into<i64>) -> Value {
    scaled(units.into(), 10.0)
}

/// Millionths as a number.
pub fn millionths(units: impl Into<i64>) -> Value {
    scaled(units.into(), 1e6)
}

/// Hundredths as a number.
pub fn hundredths(units: i64) -> Value {
    scaled(units, 100.0)
}

// The double nearest to the quotient, which prints as the decimal number that it stands for.
#[allow(clippy::cast_precision_loss)] // all numbers here have fewer than 53 bits
fn scaled(units: i64, unit: f64) -> Value {
    json!(units as f64 / unit)
}

pub fn phase_name(phase: Phase) -> &'static str {
    match phase {
        Phase::Penumbra => "penumbra",
        Phase::Central => "central",
        Phase::Star => "star",
    }
}

/// The kind of an entry as the listing names it.
pub fn kind_name(entry: &Entry) -> &'static str {
    match entry {
        Entry::Head { .. } => "station",
        Entry::Enter { .. } => "enter",
        Entry::Leave { .. } => "leave",
        Entry::Graze { .. } => "graze",
        Entry::Open { .. } => "open",
        Entry::Closest { .. } => "closest",
        Entry::Share { .. } => "share",
        Entry::End => "end",
    }
}

/// What an entry has of a contact: phase, from, to and direction.
pub fn contact(entry: &Entry) -> Option<(Phase, i64, i64, Option<u16>)> {
    match *entry {
        Entry::Enter { phase, from, to, direction } | Entry::Leave { phase, from, to, direction } => {
            Some((phase, from, to, direction))
        }
        Entry::Graze { phase, from, to } | Entry::Open { phase, from, to } => Some((phase, from, to, None)),
        _ => None,
    }
}

/// A line of the library's listing: its clock times by scale, and the altitude.
#[derive(Default, Debug, PartialEq)]
pub struct Line {
    pub times: Vec<(String, Vec<String>)>,
    pub altitude: Option<String>,
}

/// A listing with clock times: a line for each entry but the end, and the notes.
#[derive(Default, Debug)]
pub struct Listing {
    pub lines: Vec<Line>,
    pub notes: Vec<String>,
}

impl Listing {
    /// The listing that the library printed.
    pub fn of(text: &str) -> Listing {
        let mut made = Listing::default();
        for line in text.lines() {
            match line.split(' ').next() {
                Some("instant") => {}
                Some("note") => made.notes.push(line["note".len()..].trim().to_owned()),
                _ => made.lines.push(Line::of(line)),
            }
        }
        made
    }
}

impl Line {
    fn of(line: &str) -> Line {
        let mut made = Line::default();
        let mut words = line.split(' ');
        while let Some(word) = words.next() {
            match word {
                "ET" | "UT" | "UTC" => made.times.push((word.to_owned(), Vec::new())),
                "alt" => made.altitude = words.next().map(str::to_owned),
                time if time.contains(':') => {
                    if let Some((_, times)) = made.times.last_mut() {
                        times.push(time.to_owned());
                    }
                }
                _ => {}
            }
        }
        made
    }

    /// The times of a scale.
    pub fn times_in(&self, scale: &str) -> &[String] {
        self.times.iter().find(|(name, _)| name == scale).map_or(&[], |(_, times)| times)
    }
}

/// An entry as JSON; the head and the end are `None`.
pub fn entry_json(entry: &Entry, line: Option<&Line>) -> Option<Value> {
    let mut made = Map::new();
    made.insert("kind".into(), json!(kind_name(entry)));
    match *entry {
        Entry::Head { .. } | Entry::End => return None,
        Entry::Closest { second, magnitude } => {
            made.insert("second".into(), json!(second));
            made.insert("magnitude".into(), millionths(magnitude));
        }
        Entry::Share { share } => {
            made.insert("share".into(), millionths(share));
        }
        _ => {
            let (phase, from, to, direction) = contact(entry)?;
            made.insert("phase".into(), json!(phase_name(phase)));
            made.insert("from".into(), json!(from));
            made.insert("to".into(), json!(to));
            if matches!(entry, Entry::Enter { .. } | Entry::Leave { .. }) {
                made.insert("direction".into(), direction.map_or(Value::Null, tenths));
            }
        }
    }
    if let Some(line) = line {
        let times: Map<String, Value> =
            line.times.iter().map(|(scale, times)| (scale.clone(), json!(times))).collect();
        if !times.is_empty() {
            made.insert("times".into(), Value::Object(times));
        }
        if let Some(altitude) = line.altitude.as_ref().and_then(|text| text.parse::<f64>().ok()) {
            made.insert("altitude".into(), json!(altitude));
        }
    }
    Some(Value::Object(made))
}

/// The head's fields and the entries of a sheet as JSON.
pub fn sheet_json(entries: &[Entry], lines: &[Line]) -> Map<String, Value> {
    let mut made = Map::new();
    if let Some(Entry::Head { station, first, last, guard }) = entries.first() {
        made.insert("station".into(), json!(station));
        made.insert("first".into(), json!(first));
        made.insert("last".into(), json!(last));
        made.insert("guard".into(), json!(guard));
    }
    let listed: Vec<Value> =
        entries.iter().enumerate().filter_map(|(at, entry)| entry_json(entry, lines.get(at))).collect();
    made.insert("entries".into(), Value::Array(listed));
    made
}

/// The columns of a sheet's CSV.
pub const COLUMNS: &str = "station,kind,phase,from,to,direction,magnitude,share,\
ET from,ET to,UT from,UT to,UTC from,UTC to,altitude";

fn number(value: &Value) -> String {
    if value.is_null() {
        String::new()
    } else {
        value.to_string()
    }
}

/// The lines of a sheet's CSV, one for each entry but the head and the end.
pub fn sheet_csv(entries: &[Entry], lines: &[Line]) -> Vec<String> {
    let station = match entries.first() {
        Some(Entry::Head { station, .. }) => station.to_string(),
        _ => String::new(),
    };
    let row = |(at, entry): (usize, &Entry)| {
        let (phase, from, to, direction) = match contact(entry) {
            Some((phase, from, to, direction)) => {
                let direction = direction.map_or(String::new(), |direction| number(&tenths(direction)));
                (phase_name(phase), from.to_string(), to.to_string(), direction)
            }
            None => ("", String::new(), String::new(), String::new()),
        };
        let (mut from, mut magnitude, mut share) = (from, String::new(), String::new());
        match entry {
            Entry::Head { .. } | Entry::End => return None,
            Entry::Closest { second, magnitude: units } => {
                from = second.to_string();
                magnitude = number(&millionths(*units));
            }
            Entry::Share { share: units } => share = number(&millionths(*units)),
            _ => {}
        }
        let mut columns = vec![
            station.clone(),
            kind_name(entry).to_owned(),
            phase.to_owned(),
            from,
            to,
            direction,
            magnitude,
            share,
        ];
        let line = lines.get(at);
        for scale in ["ET", "UT", "UTC"] {
            let times = line.map_or(&[][..], |line| line.times_in(scale));
            columns.extend((0..2).map(|k| times.get(k).cloned().unwrap_or_default()));
        }
        columns.push(line.and_then(|line| line.altitude.clone()).unwrap_or_default());
        Some(columns.iter().map(|text| csv(text)).collect::<Vec<_>>().join(","))
    };
    entries.iter().enumerate().filter_map(row).collect()
}

#[cfg(test)]
mod tests {
    use super::*;

    #[test]
    fn a_line_of_the_listing() {
        let line = Line::of(
            "closest 1630 1030585 ET 18:27:10.0 UT 18:26:01.2 UTC 18:26:00.8+1d alt -4.3 below the horizon",
        );
        assert_eq!(line.times_in("UTC"), ["18:26:00.8+1d"]);
        assert_eq!(line.times_in("ET"), ["18:27:10.0"]);
        assert_eq!(line.altitude.as_deref(), Some("-4.3"));
    }

    #[test]
    fn numbers_print_as_they_are() {
        assert_eq!(tenths(2928_u16).to_string(), "292.8");
        assert_eq!(millionths(870_151_u32).to_string(), "0.870151");
        assert_eq!(hundredths(-373_962).to_string(), "-3739.62");
    }
}
