//! `ukhtvaresh stream`: many requests to a year file.

use crate::failure::{complain, Failure, Outcome};
use crate::fields::words;
use crate::input::Input;
use crate::library::Refused;
use crate::output::Output;
use crate::progress::Progress;
use clap::ArgMatches;
use std::io::Write;

/// Requests that one core answers at a time.
const BATCH: usize = 2_048;
/// The refusal of bytes that are no request: nobody knows where the next one begins.
const SHAPE: u64 = 10;

/// What comes of a request: its sheet at the end of a buffer, or its refusal.
type Answer = Result<(), Refused>;

/// A request in a buffer: its first byte and its length.
#[derive(Clone, Copy)]
struct Place {
    at: usize,
    length: usize,
}

// How long the request is that begins with a byte. Other bytes begin none: the library refuses one alone.
fn length_by(first: u8) -> usize {
    match first {
        2 => ukhtvaresh::REQUEST_LENGTH,
        5 => ukhtvaresh::STAR_REQUEST_LENGTH,
        _ => 1,
    }
}

// The whole requests at the start of some bytes, at most so many.
fn places(bytes: &[u8], ended: bool, most: usize) -> Vec<Place> {
    let (mut made, mut at) = (Vec::new(), 0);
    while at < bytes.len() && made.len() < most {
        let length = length_by(bytes[at]);
        if at + length > bytes.len() && !ended {
            break;
        }
        let length = length.min(bytes.len() - at);
        made.push(Place { at, length });
        at += length;
        if length == 1 {
            break;
        }
    }
    made
}

fn answer(request: &[u8], sheets: &mut Vec<u8>) -> Answer {
    let made = match request.first() {
        Some(5) => ukhtvaresh::star_vec(request),
        _ => ukhtvaresh::sheet_vec(request),
    };
    sheets.extend_from_slice(&made?);
    Ok(())
}

// The sheets of some requests, one after the other, and what came of each.
fn answered(bytes: &[u8], places: &[Place]) -> (Vec<u8>, Vec<Answer>) {
    let mut sheets = Vec::new();
    let answers =
        places.iter().map(|place| answer(&bytes[place.at..place.at + place.length], &mut sheets)).collect();
    (sheets, answers)
}

#[derive(Default)]
struct Counts {
    requests: u64,
    sheets: u64,
    refused: u64,
    bytes: u64,
}

impl Counts {
    fn summary(&self, stopped: bool) -> String {
        let several = |count: u64, one: &str| format!("{count} {one}{}", if count == 1 { "" } else { "s" });
        format!(
            "{}: {} ({}), {} refused{}",
            several(self.requests, "request"),
            several(self.sheets, "sheet"),
            several(self.bytes, "byte"),
            self.refused,
            if stopped { "; stopped before the end of the input" } else { "" }
        )
    }
}

pub fn run(given: &ArgMatches) -> Outcome<()> {
    let out = given.get_one::<String>("out");
    Output::not_a_terminal(out, "a year file")?;
    let jobs = match given.get_one::<u64>("jobs") {
        Some(jobs) => usize::try_from(*jobs).expect("at most 1024"),
        None => std::thread::available_parallelism().map_or(1, usize::from),
    };
    let mut output = Output::open(out)?;
    let mut counts = Counts::default();
    let files: Vec<Option<&String>> = match given.get_many::<String>("file") {
        Some(files) => files.map(Some).collect(),
        None => vec![None],
    };
    let mut stopped = false;
    for file in files {
        let mut input = Input::open(file, "requests")?;
        if !requests(&mut input, jobs, &mut output, &mut counts)? {
            stopped = true;
            break;
        }
    }
    output.finish()?;
    if !given.get_flag("quiet") {
        let _ = writeln!(std::io::stderr(), "{}", counts.summary(stopped));
    }
    if counts.refused > 0 {
        return Err(Failure::Said);
    }
    Ok(())
}

// All requests of an input; gives whether it was read to its end.
fn requests(input: &mut Input, jobs: usize, output: &mut Output, counts: &mut Counts) -> Outcome<bool> {
    let mut progress = Progress::new(input.length);
    let (mut buffer, mut ended, mut before) = (Vec::new(), false, 0_u64);
    let piece = jobs * BATCH * ukhtvaresh::REQUEST_LENGTH;
    loop {
        if !ended && buffer.len() < piece {
            ended = input.more(&mut buffer, piece)? == 0;
        }
        let places = places(&buffer, ended, jobs * BATCH);
        if places.is_empty() && ended {
            progress.done();
            return Ok(true);
        }
        let mut at = 0;
        for (sheets, answers) in shared(&buffer, &places, jobs) {
            output.write(&sheets)?;
            counts.bytes += sheets.len() as u64;
            for answer in answers {
                let place = places[at];
                at += 1;
                counts.requests += 1;
                match answer {
                    Ok(()) => counts.sheets += 1,
                    Err(refused) => {
                        counts.refused += 1;
                        let request = &buffer[place.at..place.at + place.length];
                        let byte = before + place.at as u64;
                        progress.done();
                        said(&input.name, counts.requests, byte, refused, request);
                        if refused.number == SHAPE {
                            return Ok(false);
                        }
                    }
                }
            }
        }
        output.flush()?;
        let done = places.last().map_or(0, |place| place.at + place.length);
        buffer.drain(..done);
        before += done as u64;
        progress.at(before);
    }
}

fn said(name: &str, index: u64, byte: u64, refused: Refused, request: &[u8]) {
    let mut words = words(refused, request, &|_| None);
    if refused.number == SHAPE {
        words.push_str("; stopped here, since nothing says where another request begins");
    }
    complain(&format!("{name}: request {index} at byte {byte}: {words}"));
}

// The requests' answers in their order, made by so many threads.
fn shared(buffer: &[u8], places: &[Place], jobs: usize) -> Vec<(Vec<u8>, Vec<Answer>)> {
    let part = places.len().div_ceil(jobs).max(64);
    if places.len() <= part {
        return vec![answered(buffer, places)];
    }
    std::thread::scope(|scope| {
        let parts: Vec<_> =
            places.chunks(part).map(|places| scope.spawn(move || answered(buffer, places))).collect();
        parts.into_iter().map(|part| part.join().expect("an answer")).collect()
    })
}
