//! `ukhtvaresh network`: a typed list of stations.
//!
//! A line of a station has six values. The library has no reader of such lists, so each station's values are put to its
//! reader of typed requests as the lines `station`, `latitude` and so on, beside the eclipse's own lines: every number
//! is read by proved code.

use crate::entries::tenths;
use crate::failure::{Failure, Outcome};
use crate::fields::{general, with_number, STATION};
use crate::input::Input;
use crate::library::{self, Refused};
use crate::output::Output;
use crate::typed::{after, fault_words, find, prepared, round, said};
use clap::ArgMatches;
use serde_json::json;
use ukhtvaresh::{Eclipse, Entry, Node, Phase, Refusal, Request};

const MOST: usize = 1 << 20;
const VALUES: [&str; 6] = ["number", "latitude", "longitude", "height", "ΔT", "clock"];

/// A station's line: its place in the text, counted from 1, and its six values.
struct Line {
    at: usize,
    values: Vec<String>,
}

// The text without the stations' lines, and these.
fn divided(text: &[u8]) -> (Vec<u8>, Vec<Line>) {
    let (mut rest, mut stations) = (Vec::new(), Vec::new());
    for (at, line) in text.split(|byte| *byte == b'\n').enumerate() {
        if at > 0 {
            rest.push(b'\n');
        }
        match after(said(line), "station") {
            Some(values) => {
                let words = values.split(|byte| matches!(byte, b' ' | b'\t' | b'\r'));
                let values = words
                    .filter(|word| !word.is_empty())
                    .map(|word| String::from_utf8_lossy(word).into_owned())
                    .collect();
                stations.push(Line { at: at + 1, values });
            }
            None => rest.extend_from_slice(line),
        }
    }
    (rest, stations)
}

// The request of a station alone, read by the library.
fn request(eclipse: &[u8], line: &Line, rounding: bool) -> Outcome<Request> {
    let mut text = eclipse.to_vec();
    if !text.ends_with(b"\n") {
        text.push(b'\n');
    }
    let before = text.split(|byte| *byte == b'\n').count() - 1;
    for (field, value) in STATION.iter().zip(&line.values) {
        text.extend_from_slice(format!("{} {value}\n", field.name).as_bytes());
    }
    let text = if rounding { round(&text) } else { text };
    let read = library::typed(&text).map_err(|fault| {
        let place = fault.refused.place;
        let words = fault_words(&fault, &text);
        // A fault in the lines that were put in is one of the station's line.
        if place > before as u64 && place <= (before + STATION.len()) as u64 {
            Failure::Refused(
                words.replace(&format!("(line {place})"), &format!("(line {})", line.at)).replace(
                    &format!("[refusal {} {place}]", fault.refused.number),
                    &format!("[refusal {} {}]", fault.refused.number, line.at),
                ),
            )
        } else {
            Failure::Refused(words)
        }
    })?;
    Request::from_bytes(&read.request)
        .ok_or_else(|| Failure::Refused("a network is for an eclipse: leave the line radius out".to_owned()))
}

fn clock(line: &Line) -> Outcome<i64> {
    let word = &line.values[5];
    word.parse::<i64>().ok().filter(|_| !word.starts_with('+')).ok_or_else(|| {
        let words =
            format!("clock {word} is not a whole number (line {}): write 0 or a station's number", line.at);
        Failure::Refused(with_number(&words, Refused { number: 20, place: line.at as u64 }))
    })
}

fn words(refused: Refused, lines: &[Line], text: &[u8]) -> String {
    let at = |place: u64| usize::try_from(place).ok().and_then(|place| lines.get(place));
    let number = |line: &Line| line.values[0].clone();
    let said = match refused.number {
        3 => match at(refused.place / 10).zip(STATION.get((refused.place % 10) as usize)) {
            Some((line, field)) => {
                let value = &line.values[(refused.place % 10) as usize];
                format!("{} (line {})", field.outside(value), line.at)
            }
            None => general(refused),
        },
        14 => at(refused.place).map_or_else(
            || general(refused),
            |line| {
                format!(
                    "station {} is already in the list (line {}): give each its own number",
                    number(line),
                    line.at
                )
            },
        ),
        15 => at(refused.place).map_or_else(
            || general(refused),
            |line| {
                let clock = &line.values[5];
                format!(
                    "station {} follows the clock of {clock}, which is not in the list (line {})",
                    number(line),
                    line.at
                )
            },
        ),
        16 => at(refused.place).map_or_else(
            || general(refused),
            |line| {
                format!(
                    "the clocks from station {} on never reach the antenna, 0 (line {})",
                    number(line),
                    line.at
                )
            },
        ),
        19 => match lines.len() {
            0 => "there is no station: add a line such as station 101 55.755 37.57 166 0 0".to_owned(),
            count => format!("there are {count} stations, and a network has 64 at most"),
        },
        _ => {
            let request =
                lines.first().and_then(|line| request(text, line, false).ok()).and_then(|r| r.to_bytes());
            let request = request.map_or(Vec::new(), |bytes| bytes.to_vec());
            return crate::fields::words(refused, &request, &|name| find(text, name));
        }
    };
    with_number(&said, refused)
}

pub fn run(given: &ArgMatches) -> Outcome<()> {
    let mut input = Input::open(given.get_one("file"), "a typed list of stations")?;
    let name = input.name.clone();
    let Some(text) = input.all(MOST)? else {
        return Err(Failure::Refused(format!("there are more than {MOST} bytes of text")).of(&name));
    };
    made(given, &text).map_err(|failure| failure.of(&name))
}

fn made(given: &ArgMatches, text: &[u8]) -> Outcome<()> {
    let rounding = given.get_flag("round");
    let (eclipse, lines) = divided(&prepared(text)?);
    if lines.is_empty() {
        // What is wrong with the eclipse's lines comes first.
        let alone = Line { at: 0, values: STATION.iter().map(|field| field.example.to_owned()).collect() };
        request(&eclipse, &alone, rounding)?;
        return Err(Failure::Refused(words(Refusal::List.into(), &lines, &eclipse)));
    }
    let mut nodes = Vec::new();
    let mut common = None;
    for line in &lines {
        if line.values.len() != VALUES.len() {
            let needs = format!("station takes {} values, {}", VALUES.len(), VALUES.join(", "));
            let words = format!("{needs}, and {} are typed (line {})", line.values.len(), line.at);
            return Err(Failure::Refused(with_number(&words, Refused { number: 20, place: line.at as u64 })));
        }
        let request = request(&eclipse, line, rounding)?;
        nodes.push(Node::new(request.station, clock(line)?));
        common.get_or_insert_with(|| Eclipse::of(&request));
    }
    let common = common.expect("a station");
    let network = ukhtvaresh::network(&common, &nodes)
        .map_err(|refusal| Failure::Refused(words(refusal.into(), &lines, &eclipse)))?;
    let first = match network.first {
        None => None,
        Some(number) => {
            let node = nodes.iter().find(|node| node.number == number).expect("a station of the list");
            Some(first_seen(&common.request(node.station()))?)
        }
    };
    let mut output = Output::open(given.get_one("out"))?;
    if given.get_flag("json") {
        let stations: Vec<_> = nodes
            .iter()
            .zip(&network.steps)
            .map(|(node, steps)| json!({"station": node.number, "steps": steps, "clock": node.clock}))
            .collect();
        let first = first.map(|seen| {
            let up = seen.altitude >= 0;
            json!({"station": seen.station, "to": seen.to, "altitude": tenths(seen.altitude), "sun up": up})
        });
        output.line(&json!({"stations": stations, "first": first}).to_string())?;
    } else {
        for (node, steps) in nodes.iter().zip(&network.steps) {
            output.line(&format!("station {} steps {steps}", node.number))?;
        }
        match first {
            None => {
                output.line("first 0")?;
                output.line("note no station enters the penumbra in the window")?;
            }
            Some(seen) => {
                let sun = if seen.altitude < 0 { "down" } else { "up" };
                output.line(&format!("first {} to {} sun {sun}", seen.station, seen.to))?;
                let size = seen.altitude.unsigned_abs();
                let sign = if seen.altitude < 0 { "-" } else { "" };
                let below = if seen.altitude < 0 { ", below the horizon" } else { "" };
                output.line(&format!(
                    "note the Sun is then at altitude {sign}{}.{}{below}",
                    size / 10,
                    size % 10
                ))?;
            }
        }
    }
    output.finish()
}

struct Seen {
    station: i64,
    to: i64,
    altitude: i16,
}

// When the penumbra reaches a station, and the Sun's altitude there then.
fn first_seen(request: &Request) -> Outcome<Seen> {
    let bytes = request.to_bytes().expect("numbers that the library took");
    let wrong = |refusal: Refusal| Failure::Refused(with_number(&general(refusal.into()), refusal.into()));
    let entries = ukhtvaresh::sheet_vec(&bytes).and_then(|sheet| ukhtvaresh::read(&sheet)).map_err(wrong)?;
    let enter = entries.iter().find_map(|entry| match entry {
        Entry::Enter { phase: Phase::Penumbra, to, .. } => Some(*to),
        _ => None,
    });
    let to = enter.expect("the first station enters the penumbra");
    let altitude = ukhtvaresh::horizon(&bytes, to).map_err(wrong)?.altitude;
    Ok(Seen { station: request.station.number, to, altitude })
}
