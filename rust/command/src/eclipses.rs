//! `ukhtvaresh eclipses` and `ukhtvaresh eclipse`: from the catalogue to what is seen at a place.

use crate::asked::Asked;
use crate::catalogue::{eclipses, tai_utc, Day, Eclipse, Made, Radii, RADII, REACH, YEARS};
use crate::contacts::columns;
use crate::entries::{millionths, tenths};
use crate::failure::{note, Failure, Outcome};
use crate::fields::{decimal, fields, general, with_number, Field, STATION};
use crate::library::Refused;
use crate::output::{csv, Output};
use crate::sheet::{show, Form};
use crate::typed::argument;
use clap::ArgMatches;
use serde_json::json;
use ukhtvaresh::{Elements, Entry, Phase, Request, Station, Window};

const WIDEST: Window = Window { first: -10_800, last: 10_800 };
/// Tenths of a degree: at and above this altitude the Sun counts as up, by refraction and its semidiameter.
const UP: i16 = -8;
/// Seconds between the altitudes that are looked at.
const STEP: i64 = 300;
const DAY: i64 = 86_400;

/// An eclipse at a station: its reference hour, elements, request and entries.
struct Local<'a> {
    eclipse: &'a Eclipse,
    hour: i64,
    made: Made,
    request: Request,
    bytes: Vec<u8>,
    entries: Vec<Entry>,
}

fn refused(refused: impl Into<Refused>) -> Failure {
    let refused = refused.into();
    Failure::Refused(with_number(&general(refused), refused))
}

impl<'a> Local<'a> {
    /// The eclipse at a station, with the reference hour that is nearest to the station's closest second: the widest
    /// window then holds all of the eclipse there.
    fn at(eclipse: &'a Eclipse, station: Station, guard: Option<i64>, radii: &Radii) -> Outcome<Local<'a>> {
        let mut hour = 0;
        let mut tries = 0;
        loop {
            let made = eclipse.made(hour, radii).map_err(refused)?;
            let elements = Elements::from_numbers(made.elements);
            let guard = guard.unwrap_or_else(|| made.guard());
            let request = Request { elements, station, window: WIDEST, guard };
            let bytes = request.to_bytes().expect("numbers within their ranges").to_vec();
            let entries =
                ukhtvaresh::sheet_vec(&bytes).and_then(|sheet| ukhtvaresh::read(&sheet)).map_err(refused)?;
            let local = Local { eclipse, hour, made, request, bytes, entries };
            let nearest = (hour + hours(local.closest())).clamp(-REACH, REACH);
            tries += 1;
            if nearest == hour || tries == 3 {
                return Ok(local);
            }
            hour = nearest;
        }
    }

    fn closest(&self) -> i64 {
        let closest = self.entries.iter().find_map(|entry| match entry {
            Entry::Closest { second, .. } => Some(*second),
            _ => None,
        });
        closest.expect("a sheet has a closest second")
    }

    /// The first and the last second of the entries of a phase.
    fn spell(&self, wanted: Phase) -> Option<(i64, i64)> {
        let ends = self.entries.iter().filter_map(|entry| match *entry {
            Entry::Enter { phase, from, to, .. }
            | Entry::Leave { phase, from, to, .. }
            | Entry::Graze { phase, from, to }
            | Entry::Open { phase, from, to }
                if phase == wanted =>
            {
                Some((from, to))
            }
            _ => None,
        });
        ends.reduce(|(from, to), (first, last)| (from.min(first), to.max(last)))
    }

    fn altitude(&self, second: i64) -> Outcome<i16> {
        ukhtvaresh::horizon(&self.bytes, second).map(|horizon| horizon.altitude).map_err(refused)
    }

    fn is_up(&self, second: i64) -> Outcome<bool> {
        Ok(self.altitude(second)? >= UP)
    }

    /// Universal time of a second to the nearest second: the day's number, and seconds from 0h.
    fn moment(&self, second: i64) -> (i64, i64) {
        let (day, hour) = self.eclipse.instant(self.hour);
        let hundredths = 100 * (3_600 * hour + second) - self.request.station.delta_t;
        let seconds = (hundredths + 50).div_euclid(100);
        (day.number() + seconds.div_euclid(DAY), seconds.rem_euclid(DAY))
    }

    /// What the station sees; `None` where the penumbra does not reach it.
    fn seen(&self) -> Outcome<Option<Seen>> {
        let Some((begins, ends)) = self.spell(Phase::Penumbra) else {
            return Ok(None);
        };
        let closest = self.closest();
        let mut seconds: Vec<i64> = (begins..ends).step_by(STEP as usize).collect();
        seconds.extend([closest, ends]);
        seconds.sort_unstable();
        seconds.dedup();
        let ups = seconds.iter().map(|second| self.is_up(*second)).collect::<Outcome<Vec<bool>>>()?;
        let (first, last) = (ups[0], *ups.last().expect("two seconds at least"));
        let sun = match (ups.iter().all(|up| *up), ups.iter().any(|up| *up)) {
            (true, _) => Sun::Up,
            (_, false) => Sun::Down,
            _ if !first && last => Sun::Rises,
            _ if first && !last => Sun::Sets,
            _ => Sun::Partly,
        };
        let mut greatest = closest;
        if sun != Sun::Down && !self.is_up(closest)? {
            greatest = self.greatest_up(&seconds, &ups)?;
        }
        let at = ukhtvaresh::second(&self.bytes, greatest).map_err(refused)?;
        let mut central = self.spell(Phase::Central);
        if let (Some((from, to)), true) = (central, sun != Sun::Down) {
            if !self.is_up(from)? && !self.is_up(to)? {
                central = None;
            }
        }
        let here = match central {
            None => "partial",
            Some(_) if at.l2 < 0 => "total",
            Some(_) => "annular",
        };
        Ok(Some(Seen { here, sun, begins, greatest, ends, magnitude: at.magnitude, central }))
    }

    // The second of the greatest magnitude while the Sun is up, where it is down at the closest one: a second that was
    // looked at, or one at which the Sun rises or sets.
    fn greatest_up(&self, seconds: &[i64], ups: &[bool]) -> Outcome<i64> {
        let mut tried: Vec<i64> =
            seconds.iter().zip(ups).filter(|(_, up)| **up).map(|(second, _)| *second).collect();
        for at in 1..seconds.len() {
            if ups[at - 1] != ups[at] {
                let (mut low, mut high) = (seconds[at - 1], seconds[at]);
                while high - low > 1 {
                    let middle = (low + high) / 2;
                    if self.is_up(middle)? == ups[at - 1] {
                        low = middle;
                    } else {
                        high = middle;
                    }
                }
                tried.push(if ups[at] { high } else { low });
            }
        }
        let mut best = (0, seconds[0]);
        for second in tried {
            let magnitude = ukhtvaresh::second(&self.bytes, second).map_err(refused)?.magnitude;
            if magnitude >= best.0 {
                best = (magnitude, second);
            }
        }
        Ok(best.1)
    }
}

// Whole hours nearest to some seconds; halves go to the even hour.
fn hours(seconds: i64) -> i64 {
    let low = seconds.div_euclid(3_600);
    match seconds.rem_euclid(3_600) {
        0..=1_799 => low,
        1_800 => low + low.rem_euclid(2),
        _ => low + 1,
    }
}

/// Where the Sun is during an eclipse.
#[derive(Clone, Copy, Debug, PartialEq, Eq)]
enum Sun {
    Up,
    Down,
    Rises,
    Sets,
    Partly,
}

impl Sun {
    fn name(self) -> &'static str {
        match self {
            Sun::Up => "up",
            Sun::Down => "down",
            Sun::Rises => "rises",
            Sun::Sets => "sets",
            Sun::Partly => "partly",
        }
    }
}

/// What a station sees of an eclipse.
struct Seen {
    here: &'static str,
    sun: Sun,
    begins: i64,
    greatest: i64,
    ends: i64,
    magnitude: u32,
    central: Option<(i64, i64)>,
}

impl Seen {
    /// Seconds from the middle of the central phase's first contact to the middle of its last.
    fn lasts(&self) -> Option<i64> {
        self.central.map(|(from, to)| to - from - 1)
    }
}

/// What both subcommands take of the command line.
struct Place {
    station: Station,
    radii: Radii,
    radii_name: String,
    delta_t: Option<i64>,
    guard: Option<i64>,
}

fn place(given: &ArgMatches) -> Outcome<Place> {
    let round = given.get_flag("round");
    let text = |name: &str| given.get_one::<String>(name);
    let number =
        |field: &Field, name: &str| text(name).map(|value| argument(field, value, round)).transpose();
    let latitude = number(&STATION[1], "latitude")?.expect("needed");
    let longitude = number(&STATION[2], "longitude")?.expect("needed");
    let height = number(&STATION[3], "height")?.unwrap_or(0);
    let station = number(&STATION[0], "station")?.unwrap_or(1);
    let delta_t = number(&STATION[4], "delta-t")?;
    let guard = number(fields(false).last().expect("the guard"), "guard")?;
    let radii_name = text("radii").cloned().unwrap_or_else(|| RADII[0].0.to_owned());
    let radii = RADII.iter().find(|(name, _)| *name == radii_name).expect("one of the names").1;
    let station = Station { number: station, latitude, longitude, height, delta_t: delta_t.unwrap_or(0) };
    Ok(Place { station, radii, radii_name, delta_t, guard })
}

fn time_of_day(seconds: i64) -> String {
    format!("{:02}:{:02}:{:02}", seconds / 3_600, seconds / 60 % 60, seconds % 60)
}

fn angle(tenths: i16) -> String {
    let size = tenths.unsigned_abs();
    format!("{}{}.{}", if tenths < 0 { "-" } else { "" }, size / 10, size % 10)
}

fn lasting(seconds: i64) -> String {
    match seconds / 60 {
        0 => format!("{seconds} s"),
        minutes => format!("{minutes} min {} s", seconds % 60),
    }
}

const HEADER: &str = "date,kind,saros,here,sun,begins UT,begins altitude,greatest UT,greatest altitude,\
ends UT,ends altitude,magnitude,lasts s,delta t";

/// A line of the list of eclipses.
fn row(local: &Local, seen: Option<&Seen>, form: Form) -> Outcome<Vec<String>> {
    let known = local.eclipse.day;
    let moments = |second: i64| -> Outcome<(i64, String, i16)> {
        let (day, seconds) = local.moment(second);
        Ok((day, time_of_day(seconds), local.altitude(second)?))
    };
    let mut events = Vec::new();
    if let Some(seen) = seen {
        for second in [seen.begins, seen.greatest, seen.ends] {
            events.push(moments(second)?);
        }
    }
    let eclipse = local.eclipse;
    if form == Form::Text {
        let mut cells = vec![known.to_string(), eclipse.kind().to_owned()];
        let Some(seen) = seen else {
            cells.push("not here".to_owned());
            return Ok(cells);
        };
        cells.extend([seen.here.to_owned(), seen.sun.name().to_owned()]);
        for (day, time, altitude) in events {
            let days = day - known.number();
            cells.push(if days == 0 { time } else { format!("{time}{days:+}d") });
            cells.push(angle(altitude));
        }
        cells.push(format!("{}.{:03}", seen.magnitude / 1_000_000, seen.magnitude % 1_000_000 / 1_000));
        cells.push(seen.lasts().map_or(String::new(), lasting));
        return Ok(cells);
    }
    let event = |at: usize| {
        events.get(at).map(|(day, time, altitude)| (format!("{}T{time}", Day::of_number(*day)), *altitude))
    };
    if form == Form::Json {
        let at =
            |at: usize| event(at).map(|(time, altitude)| json!({"UT": time, "altitude": tenths(altitude)}));
        let value = json!({
            "date": known.to_string(),
            "kind": eclipse.kind(),
            "saros": eclipse.saros,
            "here": seen.map_or("none", |seen| seen.here),
            "sun": seen.map(|seen| seen.sun.name()),
            "begins": at(0),
            "greatest": at(1),
            "ends": at(2),
            "magnitude": seen.map(|seen| millionths(seen.magnitude)),
            "lasts": seen.and_then(Seen::lasts),
            "delta_t": crate::entries::hundredths(local.request.station.delta_t),
        });
        return Ok(vec![value.to_string()]);
    }
    let mut cells = vec![known.to_string(), eclipse.kind().to_owned(), eclipse.saros.to_string()];
    cells.push(seen.map_or("none", |seen| seen.here).to_owned());
    cells.push(seen.map_or("", |seen| seen.sun.name()).to_owned());
    for at in 0..3 {
        let (time, altitude) =
            event(at).map_or_else(Default::default, |(time, altitude)| (time, angle(altitude)));
        cells.extend([time, altitude]);
    }
    cells.push(seen.map_or(String::new(), |seen| millionths(seen.magnitude).to_string()));
    cells.push(seen.and_then(Seen::lasts).map_or(String::new(), |seconds| seconds.to_string()));
    cells.push(decimal(local.request.station.delta_t, 2));
    Ok(vec![cells.iter().map(|cell| csv(cell)).collect::<Vec<_>>().join(",")])
}

// The end of a span of days: a day, or the first or last day of a year.
fn end(given: &ArgMatches, name: &str, default: i64) -> Outcome<Day> {
    let (month, day) = if name == "from" { (1, 1) } else { (12, 31) };
    match given.get_one::<String>(name) {
        None => Ok(Day { year: default, month, day }),
        Some(text) if text.len() == 4 && text.bytes().all(|byte| byte.is_ascii_digit()) => {
            Ok(Day { year: text.parse().expect("four digits"), month, day })
        }
        Some(text) => Day::of(text, &format!("--{name}")),
    }
}

pub fn all(given: &ArgMatches) -> Outcome<()> {
    let form = Form::of(given);
    let place = place(given)?;
    let (from, to) = (end(given, "from", YEARS.0)?, end(given, "to", YEARS.1)?);
    if from > to {
        return Err(Failure::Refused(format!("--from {from} is after --to {to}")));
    }
    let (everywhere, visible) = (given.get_flag("all"), given.get_flag("visible"));
    let mut output = Output::open(given.get_one("out"))?;
    let (mut looked, mut reached, mut up, mut presumed) = (0, 0, 0, false);
    let mut table: Vec<Vec<String>> = Vec::new();
    if form == Form::Csv {
        output.line(HEADER)?;
    }
    for eclipse in eclipses().iter().filter(|eclipse| (from..=to).contains(&eclipse.day)) {
        let station = Station { delta_t: place.delta_t.unwrap_or(eclipse.delta_t), ..place.station };
        let local = Local::at(eclipse, station, None, &place.radii)?;
        let seen = local.seen()?;
        looked += 1;
        reached += i32::from(seen.is_some());
        up += i32::from(seen.as_ref().is_some_and(|seen| seen.sun != Sun::Down));
        let shown = match &seen {
            None => everywhere,
            Some(seen) => !visible || seen.sun != Sun::Down,
        };
        if !shown {
            continue;
        }
        presumed |= place.delta_t.is_none() && eclipse.delta_t_source() != "observed";
        let cells = row(&local, seen.as_ref(), form)?;
        match form {
            Form::Text => table.push(cells),
            _ => output.line(&cells[0])?,
        }
    }
    if !table.is_empty() {
        let names = [
            "date",
            "kind",
            "here",
            "Sun",
            "begins UT",
            "alt",
            "greatest",
            "alt",
            "ends",
            "alt",
            "magnitude",
        ];
        let mut head: Vec<String> = names.map(str::to_owned).to_vec();
        head.push("lasts".to_owned());
        table.insert(0, head);
        for line in columns(&table) {
            output.line(&line)?;
        }
    }
    output.finish()?;
    let eclipses = if looked == 1 { "eclipse" } else { "eclipses" };
    note(&format!("{looked} {eclipses} from {from} to {to}: {reached} at this place, {up} with the Sun up"));
    if presumed {
        note("times after 2022 depend on a forecast of delta t: --delta-t takes a better value");
    }
    Ok(())
}

// The eclipse of a day, or of the days beside it: a place's own day is not Greenwich's.
fn of_day(all: &[Eclipse], asked: Day) -> Outcome<&Eclipse> {
    if !(YEARS.0..=YEARS.1).contains(&asked.year) {
        let words = format!("date {asked} is outside the catalogue's years, {} to {}", YEARS.0, YEARS.1);
        return Err(Failure::Refused(words));
    }
    let number = asked.number();
    all.iter().find(|eclipse| (eclipse.day.number() - number).abs() <= 1).ok_or_else(|| {
        let before = all.iter().filter(|eclipse| eclipse.day < asked).next_back();
        let after = all.iter().find(|eclipse| eclipse.day > asked);
        let near: Vec<String> =
            before.into_iter().chain(after).map(|eclipse| eclipse.day.to_string()).collect();
        let near = near.join(" and ");
        Failure::Refused(format!(
            "there is no solar eclipse on {asked}: the nearest are on {near} (universal time)"
        ))
    })
}

pub fn one(given: &ArgMatches) -> Outcome<()> {
    let form = Form::of(given);
    let out = given.get_one::<String>("out");
    if matches!(form, Form::Stored { .. }) || given.get_flag("bytes") {
        Output::not_a_terminal(out, if given.get_flag("bytes") { "a request" } else { "a stored sheet" })?;
    }
    let date = given.get_one::<String>("date").expect("needed").replace('\u{2212}', "-");
    let asked = Day::of(&date, "date")?;
    let place = place(given)?;
    let all = eclipses();
    let eclipse = of_day(&all, asked)?;
    let station = Station { delta_t: place.delta_t.unwrap_or(eclipse.delta_t), ..place.station };
    let local = Local::at(eclipse, station, place.guard, &place.radii)?;
    for words in notes(asked, &local, &place)? {
        note(&words);
    }
    let title = given.get_one::<String>("title").map_or("Eclipse", String::as_str);
    let text = typed(title, &local, &place);
    let mut output = Output::open(out)?;
    if given.get_flag("request") {
        output.write(text.as_bytes())?;
    } else {
        let asked = Asked::of_text("the request", &text)?;
        if given.get_flag("bytes") {
            output.write(&asked.request)?;
        } else {
            show(&asked, form, 0, &mut output)?;
        }
    }
    output.finish()
}

// What the person who asks should know beside the sheet.
fn notes(asked: Day, local: &Local, place: &Place) -> Outcome<Vec<String>> {
    let mut made = Vec::new();
    let (day, seconds) = local.moment(local.closest());
    let eclipse = local.eclipse;
    let name = format!("{} eclipse of {}", eclipse.kind(), eclipse.day);
    if day != asked.number() {
        let (on, time) = (Day::of_number(day), time_of_day(seconds));
        made.push(format!(
            "at this place the {name} is greatest on {on} at {time} UT, and {asked} was asked for"
        ));
    }
    match local.seen()? {
        None => {
            let at = ukhtvaresh::second(&local.bytes, local.closest()).map_err(refused)?;
            made.push(format!("the eclipse is not visible from this place: {}", away(&at)));
        }
        Some(seen) if seen.sun == Sun::Down => {
            made.push(
                "the eclipse is not visible from this place: the Sun is below the horizon throughout"
                    .to_owned(),
            );
        }
        Some(seen) => {
            let events = [
                ("first contact", seen.begins),
                ("greatest eclipse", local.closest()),
                ("last contact", seen.ends),
            ];
            let mut below = Vec::new();
            for (name, second) in events {
                let altitude = local.altitude(second)?;
                if altitude < UP {
                    below.push(format!("{name} (altitude {})", angle(altitude)));
                }
            }
            if !below.is_empty() {
                made.push(format!("the Sun is below the horizon at {}", below.join(", ")));
            }
        }
    }
    if place.delta_t.is_none() && eclipse.delta_t_source() != "observed" {
        let delta_t = decimal(eclipse.delta_t, 2);
        made.push(format!(
            "delta t {delta_t} is a forecast ({}): --delta-t takes a better value",
            eclipse.delta_t_source()
        ));
    }
    if let Some((number, Some(expires))) = tai_utc(local.eclipse.instant(local.hour).0) {
        made.push(format!(
            "UTC is by a TAI - UTC of {number} s, presumed: the list of leap seconds ends on {expires}"
        ));
    }
    Ok(made)
}

// How far the penumbra passes, in words. It is a remark and no part of a sheet.
#[allow(clippy::cast_precision_loss)]
fn away(at: &ukhtvaresh::Second) -> String {
    let distance = (at.u as f64).hypot(at.v as f64) - at.l1 as f64;
    format!("no contact, the Moon's penumbra passes {:.0} km from it", distance * 1e-8 * 6_378.137)
}

/// The request as a person types it.
fn typed(title: &str, local: &Local, place: &Place) -> String {
    let eclipse = local.eclipse;
    let (day, hour) = eclipse.instant(local.hour);
    let title: Vec<&str> = title.split_whitespace().collect();
    let by = match place.delta_t {
        Some(_) => "given".to_owned(),
        None => format!("Swiss Ephemeris', {}", eclipse.delta_t_source()),
    };
    let [x, y, d, l1, l2, mu] = local.made.misfits;
    let mut text = format!(
        "# {}: elements from apparent places of Sun and Moon by the catalogue (Swiss Ephemeris), ephemeris time\n\
         # fits within so many units of the hourly values: x {x}, y {y}, d {d}, l1 {l1}, l2 {l2}, mu {mu}\n\
         # {} eclipse of {}; radii {}; delta t {by}\n\n\
         instant {day} {hour:02}:00:00 ET\n",
        title.join(" "),
        eclipse.kind(),
        eclipse.day,
        place.radii_name,
    );
    if let Some((number, _)) = tai_utc(day) {
        text.push_str(&format!("tai-utc {number}\n"));
    }
    text.push('\n');
    for (at, (field, units)) in fields(false).zip(request_numbers(&local.request)).enumerate() {
        if at == 22 {
            text.push('\n');
        }
        text.push_str(&format!("{} {}\n", field.name, decimal(units, field.decimals)));
    }
    text
}

fn request_numbers(request: &Request) -> Vec<i64> {
    let bytes = request.to_bytes().expect("numbers within their ranges");
    crate::fields::numbers(&bytes).expect("a request").1
}
