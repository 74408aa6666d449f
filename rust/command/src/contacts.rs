//! `ukhtvaresh contacts`: each entry with its bracket in hundredths, altitude, azimuth and position angles.

use crate::asked::{Asked, Reading};
use crate::clock::{instant_text, Clock, Scale};
use crate::entries::{contact, hundredths, kind_name, millionths, phase_name, tenths};
use crate::failure::Outcome;
use crate::library::{self, Refused};
use crate::output::Output;
use crate::sheet::Form;
use clap::ArgMatches;
use serde_json::{json, Map, Value};
use ukhtvaresh::{Entry, Phase};

const TURN: u16 = 3_600;
/// The refusal of two seconds between which no bracket can be given.
const NOT_SURE: u64 = 22;
const WORDS: &str =
    "the bracket is true for these elements; limb, refraction and the elements' own errors are not in it";

/// An entry with what is said beside it. Angles are in tenths of a degree.
struct Row {
    kind: &'static str,
    phase: Option<&'static str>,
    from: i64,
    to: Option<i64>,
    /// Two hundredths between which the true contact lies.
    bracket: Option<[i64; 2]>,
    horizon: ukhtvaresh::Horizon,
    /// Of the Moon's centre from the Sun's or the star, from north through east.
    direction: Option<u16>,
    /// Of the point of contact, on the Sun's limb or of the star on the Moon's, from north and from the zenith.
    point: Option<u16>,
    from_zenith: Option<u16>,
    magnitude: Option<u32>,
}

fn less(angle: u16, other: u16) -> u16 {
    (angle + TURN - other) % TURN
}

fn row(asked: &Asked, entry: &Entry) -> Outcome<Option<Row>> {
    if let Entry::Closest { second, magnitude } = *entry {
        let horizon = asked.horizon(second)?;
        return Ok(Some(Row {
            kind: kind_name(entry),
            phase: None,
            from: second,
            to: None,
            bracket: None,
            horizon,
            direction: None,
            point: None,
            from_zenith: None,
            magnitude: (!asked.is_star()).then_some(magnitude),
        }));
    }
    let Some((phase, from, to, direction)) = contact(entry) else {
        return Ok(None);
    };
    // The second of the direction: the first or the last sure second inside.
    let second = if matches!(entry, Entry::Enter { .. }) { to } else { from };
    let horizon = asked.horizon(second)?;
    let bracket = match entry {
        Entry::Enter { .. } | Entry::Leave { .. } => {
            let central = i64::from(phase == Phase::Central);
            match library::contact(&asked.request, asked.is_star(), central, from, to) {
                Ok(bracket) => Some(bracket),
                // The seconds are not one surely outside and one surely inside under the larger guard.
                Err(Refused { number: NOT_SURE, place: 1 }) => None,
                Err(refused) => return Err(asked.refused(refused)),
            }
        }
        _ => None,
    };
    // The Moon touches the Sun's limb where her centre is, but in a total eclipse the last and the first light is on
    // the other side; a star touches the Moon's limb opposite to the direction of her centre.
    let opposite = match phase {
        Phase::Penumbra => false,
        Phase::Central => asked.second(second)?.l2 < 0,
        Phase::Star => true,
    };
    let point = direction.map(|direction| if opposite { less(direction, TURN / 2) } else { direction });
    let from_zenith = point.zip(horizon.zenith).map(|(point, zenith)| less(point, zenith));
    let (kind, phase) = (kind_name(entry), Some(phase_name(phase)));
    Ok(Some(Row {
        kind,
        phase,
        from,
        to: Some(to),
        bracket,
        horizon,
        direction,
        point,
        from_zenith,
        magnitude: None,
    }))
}

fn degrees(angle: Option<u16>) -> String {
    angle.map_or("-".to_owned(), |angle| format!("{}.{}", angle / 10, angle % 10))
}

fn altitude(tenths: i16) -> String {
    let size = tenths.unsigned_abs();
    format!("{}{}.{}", if tenths < 0 { "-" } else { "" }, size / 10, size % 10)
}

fn seconds(hundredths: i64) -> String {
    let size = hundredths.unsigned_abs();
    format!("{}{}.{:02}", if hundredths < 0 { "-" } else { "" }, size / 100, size % 100)
}

// How long a phase lasts, in hundredths, from the brackets of its first enter and its next leave: at least, at most.
fn duration(rows: &[Row], phase: &str) -> Option<[i64; 2]> {
    let of = |kind: &str| rows.iter().find(|row| row.kind == kind && row.phase == Some(phase))?.bracket;
    let (enter, leave) = (of("enter")?, of("leave")?);
    (leave[0] > enter[1]).then(|| [leave[0] - enter[1], leave[1] - enter[0]])
}

pub fn run(given: &ArgMatches) -> Outcome<()> {
    let form = Form::of(given);
    let asked = Asked::open(given.get_one("file"), &Reading::of(given))?;
    let mut output = Output::open(given.get_one("out"))?;
    let entries = ukhtvaresh::read(&asked.sheet()?).map_err(|refusal| asked.refused(refusal))?;
    let mut rows = Vec::new();
    for entry in &entries {
        rows.extend(row(&asked, entry)?);
    }
    let clock = Clock::new(asked.instant, asked.number("delta t").unwrap_or(0));
    match form {
        Form::Json => output.line(&json(&asked, &rows, &clock).to_string())?,
        Form::Csv => {
            let header =
                "kind,phase,from,to,bracket from,bracket to,ET from,ET to,UT from,UT to,UTC from,UTC to,\
altitude,azimuth,direction,point,point from zenith,magnitude";
            output.line(header)?;
            for row in &rows {
                output.line(&csv_line(row, &clock))?;
            }
        }
        _ => text(&asked, &rows, &clock, &mut output)?,
    }
    output.finish()
}

fn csv_line(row: &Row, clock: &Clock) -> String {
    let number = |value: Option<Value>| value.map_or(String::new(), |value| value.to_string());
    let ends = row.bracket.map_or([None, None], |[a, b]| [Some(a), Some(b)]);
    let mut columns = vec![
        row.kind.to_owned(),
        row.phase.unwrap_or_default().to_owned(),
        row.from.to_string(),
        row.to.map_or(String::new(), |to| to.to_string()),
    ];
    columns.extend(ends.map(|end| number(end.map(hundredths))));
    for scale in Scale::ALL {
        columns.extend(ends.map(|end| end.and_then(|end| clock.time(scale, end)).unwrap_or_default()));
    }
    columns.push(altitude(row.horizon.altitude));
    columns.extend(
        [row.horizon.azimuth, row.direction, row.point, row.from_zenith]
            .map(|angle| number(angle.map(tenths))),
    );
    columns.push(number(row.magnitude.map(millionths)));
    columns.join(",")
}

fn json(asked: &Asked, rows: &[Row], clock: &Clock) -> Value {
    let mut made = Map::new();
    made.insert("station".into(), json!(asked.number("station")));
    if let Some(instant) = instant_text(&asked.instant) {
        made.insert("instant".into(), json!(instant));
    }
    let contacts: Vec<Value> = rows.iter().map(|row| row_json(row, clock)).collect();
    made.insert("contacts".into(), Value::Array(contacts));
    for phase in ["penumbra", "central", "star"] {
        if let Some(lasts) = duration(rows, phase) {
            made.insert(format!("{phase} lasts"), json!(lasts.map(hundredths)));
        }
    }
    made.insert("note".into(), json!(WORDS));
    Value::Object(made)
}

fn row_json(row: &Row, clock: &Clock) -> Value {
    let angle = |angle: Option<u16>| angle.map_or(Value::Null, tenths);
    let mut made = Map::new();
    made.insert("kind".into(), json!(row.kind));
    match (row.phase, row.to) {
        (Some(phase), Some(to)) => {
            made.insert("phase".into(), json!(phase));
            made.insert("from".into(), json!(row.from));
            made.insert("to".into(), json!(to));
            made.insert(
                "bracket".into(),
                row.bracket.map_or(Value::Null, |ends| json!(ends.map(hundredths))),
            );
            let times: Map<String, Value> = clock
                .scales()
                .into_iter()
                .filter_map(|scale| {
                    let ends = row.bracket?.map(|end| clock.time(scale, end));
                    Some((scale.name().to_owned(), json!(ends)))
                })
                .collect();
            if !times.is_empty() {
                made.insert("times".into(), Value::Object(times));
            }
        }
        _ => {
            made.insert("second".into(), json!(row.from));
        }
    }
    made.insert("altitude".into(), tenths(row.horizon.altitude));
    made.insert("azimuth".into(), angle(row.horizon.azimuth));
    if row.phase.is_some() {
        made.insert("direction".into(), angle(row.direction));
        made.insert("point".into(), angle(row.point));
        made.insert("point from zenith".into(), angle(row.from_zenith));
    }
    if let Some(magnitude) = row.magnitude {
        made.insert("magnitude".into(), millionths(magnitude));
    }
    Value::Object(made)
}

fn text(asked: &Asked, rows: &[Row], clock: &Clock, output: &mut Output) -> Outcome<()> {
    let station = asked.number("station").unwrap_or(0);
    let instant = instant_text(&asked.instant)
        .map_or("their reference instant".to_owned(), |instant| instant.replace(".00 ", " "));
    output.line(&format!("station {station}; seconds from {instant}; angles in degrees"))?;
    let scales = clock.scales();
    let mut table =
        vec![vec!["entry".to_owned(), "from".into(), "to".into(), "bracket".into(), String::new()]];
    for scale in &scales {
        table[0].extend([scale.name().to_owned(), String::new()]);
    }
    for name in ["alt", "az", "direction", "point", "zenith"] {
        table[0].push(name.to_owned());
    }
    for row in rows {
        let name = match row.phase {
            Some(phase) => format!("{} {phase}", row.kind),
            None => row.kind.to_owned(),
        };
        let end = |at: usize| row.bracket.map(|ends| ends[at]);
        let mut line = vec![name, row.from.to_string(), row.to.map_or("-".to_owned(), |to| to.to_string())];
        line.extend([0, 1].map(|at| end(at).map_or("-".to_owned(), seconds)));
        for scale in &scales {
            // A closest second has no bracket: its own time stands in the first column.
            let first = end(0).or((row.to.is_none()).then_some(100 * row.from));
            line.push(first.and_then(|first| clock.time(*scale, first)).unwrap_or("-".to_owned()));
            line.push(end(1).and_then(|second| clock.time(*scale, second)).unwrap_or("-".to_owned()));
        }
        line.push(altitude(row.horizon.altitude));
        line.extend([row.horizon.azimuth, row.direction, row.point, row.from_zenith].map(degrees));
        table.push(line);
    }
    for line in columns(&table) {
        output.line(&line)?;
    }
    for (phase, name) in
        [("penumbra", "the eclipse"), ("central", "the central phase"), ("star", "the occultation")]
    {
        if let Some([least, most]) = duration(rows, phase) {
            output.line(&format!("{name} lasts {} to {} s", seconds(least), seconds(most)))?;
        }
    }
    for row in rows.iter().filter(|row| row.horizon.altitude < 0) {
        let name = row.phase.map_or(String::new(), |phase| format!(" {phase}"));
        output.line(&format!("note below the horizon: {}{name} {}", row.kind, row.from))?;
    }
    if rows.iter().any(|row| row.bracket.is_some()) {
        output.line(&format!("note {WORDS}"))?;
    }
    Ok(())
}

/// A table as lines, the first column to the left, the others to the right.
pub fn columns(table: &[Vec<String>]) -> Vec<String> {
    let count = table.iter().map(Vec::len).max().unwrap_or(0);
    let width = |at: usize| table.iter().filter_map(|row| row.get(at)).map(|cell| cell.chars().count()).max();
    let widths: Vec<usize> = (0..count).map(|at| width(at).unwrap_or(0)).collect();
    let line = |row: &Vec<String>| {
        let mut text = String::new();
        for (at, cell) in row.iter().enumerate() {
            let pad = " ".repeat(widths[at] - cell.chars().count());
            match at {
                0 => text.push_str(&format!("{cell}{pad}")),
                _ => text.push_str(&format!("  {pad}{cell}")),
            }
        }
        text.trim_end().to_owned()
    };
    table.iter().map(line).collect()
}
