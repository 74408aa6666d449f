//! What stands beside a sheet's listing for an observer: docs/CLOCK.md, "The altitude and the notes".

use crate::elements::{Window, FARTHEST};
use crate::listing::{line, ROOM};
use crate::refusal::Refusal;
use crate::request::Request;
use crate::shadow::{Phase, State};
use crate::sheet::{records_of, Family, Record};
use crate::star::{StarRequest, STAR_LENGTH};

/// An altitude in tenths of a degree as it is printed behind a line.
fn printed(tenths: i64) -> String {
    let sign = if tenths < 0 { "-" } else { "" };
    let below = if tenths < 0 { " below the horizon" } else { "" };
    format!(" alt {sign}{}.{}{below}", tenths.abs() / 10, tenths.abs() % 10)
}

/// The second at which a record has an altitude, and whether it is a contact.
fn second_of(record: &Record) -> Option<(i64, bool)> {
    let [a, b, ..] = record.fields.map(|field| i64::from(field) - FARTHEST);
    match record.family() {
        Family::Penumbra | Family::Central | Family::Star => Some((b, true)),
        Family::Closest => Some((a, false)),
        _ => None,
    }
}

/// The lines of a sheet with altitudes, then the notes; `words` are the body's and the event's.
fn listed(
    records: &[Record],
    window: Window,
    altitude: impl Fn(i64) -> i64,
    inside: impl Fn(i64) -> bool,
    [body, event]: [&str; 2],
) -> String {
    let mut text = String::new();
    let mut contacts = Vec::new();
    for record in records {
        let Some(line) = line(record) else { continue };
        text += &line;
        if let Some((second, contact)) = second_of(record) {
            let tenths = altitude(second);
            text += &printed(tenths);
            if contact {
                contacts.push(tenths);
            }
        }
        text += "\n";
    }
    if !contacts.is_empty() && contacts.iter().all(|tenths| *tenths < 0) {
        text += &format!("note the {body} is below the horizon at every contact\n");
    }
    if inside(window.first) {
        text += &format!("note the {event} began before the window\n");
    }
    if inside(window.last) {
        text += &format!("note the {event} ends after the window\n");
    }
    text
}

fn eclipse(input: &[u8], buffer: &mut [u8]) -> Result<String, Refusal> {
    let request = Request::from_bytes(input)?;
    let length = request.sheet(buffer)?;
    let found = request.check()?;
    let altitude = |second| request.horizon(second).expect("a second of the window").altitude;
    let inside = |second| found.shadow(second).state(Phase::Penumbra, request.guard) == State::Inside;
    Ok(listed(&records_of(&buffer[..length])?, request.window, altitude, inside, ["Sun", "eclipse"]))
}

fn star(input: &[u8], buffer: &mut [u8]) -> Result<String, Refusal> {
    let request = StarRequest::from_bytes(input)?;
    let length = request.sheet(buffer)?;
    let found = request.check()?;
    let altitude = |second| request.horizon(second).expect("a second of the window").altitude;
    let inside = |second| found.shadow(second).state(request.guard) == State::Inside;
    Ok(listed(&records_of(&buffer[..length])?, request.window, altitude, inside, ["star", "occultation"]))
}

/// What program `times` prints for a request's bytes where the text has no instant; or the refusal.
pub fn program(input: &[u8]) -> String {
    let mut buffer = vec![0; ROOM];
    let made = if input.len() == STAR_LENGTH { star(input, &mut buffer) } else { eclipse(input, &mut buffer) };
    made.unwrap_or_else(|refusal| format!("{refusal}\n"))
}
