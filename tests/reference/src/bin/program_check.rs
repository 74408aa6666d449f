//! `program_check SEED N PROGRAM`: draws N requests, has the compiled program `sheet_vectors` answer them, a hundred a
//! run, and compares each answer with this implementation's: the listing, or the refusal.
//!
//! Requests lie within their ranges (for which rounding matters, or as eclipses are, with windows up to all of
//! -10,800..10,800), just outside them, anywhere, and are no requests at all; the buffer is large, just enough,
//! one byte short, or small. Prints what was compared; the first difference stops it.

use reference::elements::{Window, ELEMENT_RANGES, FARTHEST, STATION_RANGES};
use reference::listing::{listing, sheet_of_input};
use reference::random::Random;
use reference::request::{Request, KIND_PLACES, REQUEST_LENGTH};
use reference::sample::{self, Manner};
use reference::sheet::records_of;
use std::collections::BTreeMap;
use std::io::{Read, Write};
use std::process::{Command, Stdio};

/// The longest buffer that a record of the program can name.
const MOST_ROOM: usize = 65_535;

/// How many cases the program is given in a run: it takes 262,144 bytes of them.
const BATCH: usize = 100;

struct Case {
    room: usize,
    input: Vec<u8>,
}

impl Case {
    /// As the program reads it: a letter, how many bytes follow, the buffer's length, the input.
    fn bytes(&self) -> Vec<u8> {
        let length = 2 + self.input.len() as u16;
        let room = self.room as u16;
        [b"q", &length.to_be_bytes()[..], &room.to_be_bytes()[..], &self.input].concat()
    }

    fn answer(&self) -> String {
        let mut buffer = vec![0; self.room];
        match sheet_of_input(&self.input, &mut buffer) {
            Ok(length) => {
                let records = records_of(&buffer[..length]).expect("a sheet reads well");
                listing(&records)
            }
            Err(refusal) => format!("{refusal}\n"),
        }
    }
}

fn within(random: &mut Random) -> Request {
    let mut request = match random.below(4) {
        0 => sample::draw(random, Manner::Natural),
        _ => sample::difficult(random),
    };
    if random.once_in(4) {
        let width = [100, 2000, 2 * FARTHEST][random.below(3) as usize];
        request.window = Window {
            first: (request.window.first - random.within(&(0..=width))).max(-FARTHEST),
            last: (request.window.last + random.within(&(0..=width))).min(FARTHEST),
        };
    }
    request
}

/// A number next to its range or far outside it, as far as its bytes reach.
fn outside(random: &mut Random, least: i64, most: i64, bits: u32) -> i64 {
    let reach = 1i64 << (bits - 1);
    [least - 1, most + 1, -reach, reach - 1][random.below(4) as usize].clamp(-reach, reach - 1)
}

/// One or more numbers outside their ranges.
fn beyond(random: &mut Random) -> Request {
    let mut request = within(random);
    let mut fields = request.elements.fields();
    for _ in 0..=random.below(3) {
        match random.below(5) {
            0 | 1 => {
                let at = random.below(22) as usize;
                fields[at] = outside(random, *ELEMENT_RANGES[at].start(), *ELEMENT_RANGES[at].end(), 32);
            }
            2 => {
                let range = &STATION_RANGES[random.below(5) as usize];
                let drawn = outside(random, *range.start(), *range.end(), 32);
                match random.below(5) {
                    0 => request.station.number = [0, 1000, 65_535][random.below(3) as usize],
                    1 => request.station.latitude = drawn,
                    2 => request.station.longitude = drawn,
                    3 => request.station.height = drawn,
                    _ => request.station.delta_t = drawn,
                }
            }
            3 => request.guard = [0, 15, 1_001, 65_535][random.below(4) as usize],
            _ => match random.below(3) {
                0 => request.window.first = outside(random, -FARTHEST, FARTHEST, 16),
                1 => request.window.last = outside(random, -FARTHEST, FARTHEST, 16),
                _ => request.window.first = (request.window.last + 1).min(i64::from(i16::MAX)),
            },
        }
    }
    request.elements = reference::elements::Elements::from_fields(fields);
    request
}

/// Bytes that are no request: a length or a kind not in its place, or any bytes under the right kinds.
fn damaged(random: &mut Random, mut input: Vec<u8>) -> Vec<u8> {
    match random.below(4) {
        0 => input.truncate(random.below(REQUEST_LENGTH as u64) as usize),
        1 => input.push(random.below(256) as u8),
        2 => input[KIND_PLACES[random.below(3) as usize]] ^= 1 << random.below(8),
        _ => {
            for (at, byte) in input.iter_mut().enumerate() {
                if !KIND_PLACES.contains(&at) {
                    *byte = random.below(256) as u8;
                }
            }
        }
    }
    input
}

fn draw(random: &mut Random) -> Case {
    let request = if random.once_in(6) { beyond(random) } else { within(random) };
    let mut input = request.to_bytes().expect("numbers that fit their bytes").to_vec();
    if random.once_in(16) {
        input = damaged(random, input);
    }
    let needed = sheet_of_input(&input, &mut vec![0; MOST_ROOM]).unwrap_or(15);
    let room = match random.below(8) {
        0 => needed,
        1 => needed - 1,
        2 => random.below(64) as usize,
        _ => MOST_ROOM,
    };
    Case { room, input }
}

/// What the program prints for some cases.
fn answers_of(program: &str, cases: &[Case]) -> String {
    let mut run = Command::new(program)
        .stdin(Stdio::piped())
        .stdout(Stdio::piped())
        .spawn()
        .expect("the program can be run");
    let mut input = run.stdin.take().expect("a pipe");
    let given: Vec<u8> = cases.iter().flat_map(Case::bytes).collect();
    let writer = std::thread::spawn(move || input.write_all(&given).expect("the program reads"));
    let mut printed = String::new();
    run.stdout.take().expect("a pipe").read_to_string(&mut printed).expect("text");
    writer.join().expect("all was written");
    run.wait().expect("the program ends");
    printed
}

fn main() {
    let arguments: Vec<String> = std::env::args().skip(1).collect();
    let [seed, wanted, program] = &arguments[..] else {
        eprintln!("usage: program_check SEED N PROGRAM");
        std::process::exit(1);
    };
    let mut random = Random::new(seed.parse().expect("a number"));
    let wanted: usize = wanted.parse().expect("a number");
    let cases: Vec<Case> = (0..wanted).map(|_| draw(&mut random)).collect();

    let mut counts: BTreeMap<String, usize> = BTreeMap::new();
    for batch in cases.chunks(BATCH) {
        let printed = answers_of(program, batch);
        let mut rest = printed.as_str();
        for case in batch {
            let answer = case.answer();
            let Some(after) = rest.strip_prefix(&answer) else {
                println!("room {} request {:02x?}", case.room, case.input);
                println!(
                    "expected\n{answer}printed\n{}",
                    rest.lines().take(8).collect::<Vec<_>>().join("\n")
                );
                std::process::exit(1);
            };
            rest = after;
            for line in answer.lines() {
                let words: Vec<&str> = line.split(' ').collect();
                let sort = match words[0] {
                    "refused" | "enter" | "leave" | "graze" | "open" => words[..2].join(" "),
                    word => word.to_string(),
                };
                *counts.entry(sort).or_default() += 1;
            }
        }
        assert!(rest.is_empty(), "the program printed more: {rest}");
    }
    println!("{wanted} requests, no difference");
    for (sort, count) in counts {
        println!("{sort} {count}");
    }
}
