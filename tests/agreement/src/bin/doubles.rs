//! `doubles SURVEYS PATTERNS SEED [PROGRAM]`: the compiled library's positions as doubles against document 02, wish
//! 5, in plain Rust.
//!
//! - a sheet for each survey, its doubles units exactly, about the halves beside them, at the ends of the ranges and
//!   past them, too large,
//!   not finite, any bits; the longitude in degrees and in hours; of other lengths, another mark, in buffers of all
//!   sizes. Compared: the
//!   refusal's number, the value, and both buffers with 64 numbers past their ends;
//! - as many lists of units as doubles, at the ends of their ranges and past them, of other lengths; the doubles are
//!   compared bit by bit, and
//!   read back by the reference they give their units;
//! - where PROGRAM names the program `rule_vectors`, the units of PATTERNS doubles, any bits or about a half, at all
//!   three scales.
//!
//! Prints counts; the first difference stops it with all that gives it again.

use agreement::both::{must_agree, reply};
use agreement::{draws, library};
use reference::doubles::{double, doubles, sheet, units, DEGREE, HOUR, ONE, SCALES};
use reference::elements::{ELEMENT_RANGES, STATION_RANGES};
use reference::random::Random;
use std::io::Write;
use std::ops::RangeInclusive;
use std::process::{Command, Stdio};

const PAST: usize = 64;
const RANGES: usize = 23;

/// The range of each of the 22 elements and of the longitude.
fn range(field: usize) -> &'static RangeInclusive<i64> {
    ELEMENT_RANGES.get(field).unwrap_or(&STATION_RANGES[2])
}

/// The next double up, or down.
fn beside(x: f64, up: bool) -> f64 {
    let bits = x.to_bits();
    match (x.is_finite(), x == 0.0, (x > 0.0) == up) {
        (false, ..) => x,
        (_, true, _) => f64::from_bits(1).copysign(if up { 1.0 } else { -1.0 }),
        (_, _, true) => f64::from_bits(bits + 1),
        (_, _, false) => f64::from_bits(bits - 1),
    }
}

/// A double that is read as the unit: exactly its own, within its half, or at the half, where it may be read as the
/// next.
fn about(random: &mut Random, unit: i64, scale: u64) -> f64 {
    match random.below(4) {
        0 | 1 => double(unit, scale),
        2 => double(2 * unit + [-1, 1][random.below(2) as usize], 2 * scale),
        _ => {
            let half = double(2 * unit + [-1, 1][random.below(2) as usize], 2 * scale);
            let up = random.once_in(2);
            (0..random.below(3)).fold(half, |x, _| beside(x, up))
        }
    }
}

/// A double of any bits, not finite, too large for 64 bits or just not, tiny, or about the end of a range.
fn strange(random: &mut Random, field: usize, scale: u64) -> f64 {
    let sign = if random.once_in(2) { 1.0 } else { -1.0 };
    match random.below(8) {
        0 => f64::from_bits(random.bits()),
        1 => [f64::INFINITY, f64::NEG_INFINITY, f64::NAN, f64::from_bits(0xFFF0_0000_0000_0001)]
            [random.below(4) as usize],
        2 => sign * f64::from_bits(random.bits() >> (12 + random.below(52))),
        3 => sign * beside(9_223_372_036_854_775_808.0 / scale as f64, random.once_in(2)),
        4 => sign * f64::MAX,
        5 => -0.0,
        _ => {
            let end = if random.once_in(2) { *range(field).start() } else { *range(field).end() };
            let unit = end + random.within(&(-1..=1));
            about(random, unit, scale)
        }
    }
}

/// Elements, longitude, mark and the rest.
fn survey(random: &mut Random) -> (Vec<f64>, f64, u64, Vec<i64>) {
    let drawn = draws::arranged(random);
    let mut request = draws::in_window(random, drawn);
    if random.once_in(8) {
        draws::outside(random, &mut request);
    }
    let mut hours = random.below(2);
    let scales: Vec<u64> = SCALES.into_iter().chain([[DEGREE, HOUR][hours as usize]]).collect();
    let fields: Vec<i64> = request.elements.fields().into_iter().chain([request.station.longitude]).collect();
    let mut xs: Vec<f64> =
        fields.iter().zip(&scales).map(|(&unit, &scale)| about(random, unit, scale)).collect();
    for _ in 0..random.below(3) {
        if random.once_in(2) {
            let field = random.below(RANGES as u64) as usize;
            xs[field] = strange(random, field, scales[field]);
        }
    }
    let longitude = xs.pop().expect("23 doubles");
    let station = request.station;
    let mut rest = vec![station.number, station.latitude, station.height, station.delta_t];
    rest.extend([request.window.first, request.window.last, request.guard]);
    if random.once_in(32) {
        match random.below(4) {
            0 => xs.truncate(random.below(22) as usize),
            1 => xs.push(0.0),
            2 => rest.truncate(random.below(7) as usize),
            _ => rest.push(0),
        }
    }
    if random.once_in(64) {
        hours = 2 + (random.bits() >> random.below(64)).min(u64::MAX - 2);
    }
    if random.once_in(32) && !rest.is_empty() {
        let at = random.below(rest.len() as u64) as usize;
        rest[at] = random.bits() as i64;
    }
    (xs, longitude, hours, rest)
}

fn sheets(random: &mut Random, count: u64) {
    let mut replies = [0u64; 19];
    for _ in 0..count {
        let (xs, longitude, hours, rest) = survey(random);
        let lent = draws::sines_room(random);
        let mut room = draws::room(random, 46);
        let sines: Vec<u32> = (0..lent + PAST).map(|_| random.bits() as u32).collect();
        for _ in 0..2 {
            let old: Vec<u8> = (0..room + PAST).map(|_| random.bits() as u8).collect();
            let (mut ours, mut our_sines) = (((0, 0), old.clone()), sines.clone());
            ours.0 = library::sheet_of_doubles(
                &xs,
                longitude,
                hours,
                &rest,
                &mut our_sines[..lent],
                &mut ours.1[..room],
            );
            let (mut theirs, mut their_sines) = (((0, 0), old), sines.clone());
            let made = sheet(&xs, longitude, hours, &rest, &mut their_sines[..lent], &mut theirs.1[..room]);
            theirs.0 = reply(made, |length| length as u64);
            let given = (&xs, longitude, hours, &rest, lent, room);
            must_agree("ukhtvaresh_sheet_of_doubles", &given, &ours, &theirs);
            must_agree("its sines", &given, &(ours.0, our_sines), &(theirs.0, their_sines));
            replies[ours.0 .0 as usize] += 1;
            // once more with a buffer that is long enough
            if ours.0 .0 != 4 || ours.0 .1 == 901 {
                break;
            }
            room = ours.0 .1 as usize;
        }
    }
    print("sheet_of_doubles", &replies);
}

fn print(name: &str, replies: &[u64; 19]) {
    let parts = replies.iter().enumerate().filter(|(_, &n)| n > 0).map(|(k, n)| format!("{k}: {n}"));
    println!(
        "{name:17} {} calls, by number {}",
        replies.iter().sum::<u64>(),
        parts.collect::<Vec<_>>().join(", ")
    );
}

fn written(random: &mut Random, count: u64) {
    let mut replies = [0u64; 19];
    for _ in 0..count {
        let mut given: Vec<i64> = (0..RANGES)
            .map(|field| match random.below(4) {
                0 => *range(field).start(),
                1 => *range(field).end(),
                _ => random.within(range(field)),
            })
            .collect();
        if random.once_in(4) {
            let field = random.below(RANGES as u64) as usize;
            given[field] = match random.below(4) {
                0 => range(field).start() - 1,
                1 => range(field).end() + 1,
                2 => random.bits() as i64,
                _ => [i64::MIN, i64::MAX][random.below(2) as usize],
            };
        }
        if random.once_in(32) {
            given.resize(random.below(40) as usize, 0);
        }
        let room = draws::room(random, RANGES);
        let old: Vec<u64> = (0..room + PAST).map(|_| random.bits()).collect();
        let of_bits = |bits: &[u64]| -> Vec<f64> { bits.iter().map(|&bits| f64::from_bits(bits)).collect() };
        let to_bits = |xs: &[f64]| -> Vec<u64> { xs.iter().map(|x| x.to_bits()).collect() };
        let (mut ours, mut theirs) = (of_bits(&old), of_bits(&old));
        let our_reply = library::doubles(&given, &mut ours[..room]);
        let their_reply = reply(doubles(&given, &mut theirs[..room]), |count| count as u64);
        must_agree(
            "ukhtvaresh_doubles",
            &(&given, room),
            &(our_reply, to_bits(&ours)),
            &(their_reply, to_bits(&theirs)),
        );
        if our_reply.0 == 0 {
            for (field, (&unit, &x)) in given.iter().zip(&ours).enumerate() {
                let scale = SCALES.get(field).copied().unwrap_or(DEGREE);
                assert_eq!(units(x, scale), Some(unit.into()), "read back, field {field}");
            }
        }
        replies[our_reply.0 as usize] += 1;
    }
    print("doubles", &replies);
}

/// How many doubles the program is given in a run.
const AT_ONCE: usize = 2048;

fn readings(random: &mut Random, count: u64, program: &str) {
    let mut tried = 0;
    while tried < count {
        let patterns: Vec<u64> = (0..AT_ONCE)
            .map(|_| {
                if random.once_in(2) {
                    return random.bits();
                }
                let unit = (random.bits() >> (2 + random.below(62))) as i64;
                let scale = [DEGREE, HOUR, ONE][random.below(3) as usize];
                let unit = if random.once_in(2) { unit } else { -unit };
                about(random, unit, scale).to_bits()
            })
            .collect();
        let mut expected = String::new();
        for &pattern in &patterns {
            let texts = [DEGREE, HOUR, ONE].map(|scale| match units(f64::from_bits(pattern), scale) {
                None => "none".to_string(),
                Some(unit) => i64::try_from(unit).map_or("large".to_string(), |unit| unit.to_string()),
            });
            expected += &format!("{}\n", texts.join(" "));
        }
        // a record each: the letter, the number of its bytes, and the double's bits
        let input: Vec<u8> =
            patterns.iter().flat_map(|pattern| [&b"d\0\x08"[..], &pattern.to_be_bytes()].concat()).collect();
        let mut run = Command::new(program)
            .stdin(Stdio::piped())
            .stdout(Stdio::piped())
            .spawn()
            .expect("the program rule_vectors");
        run.stdin.take().expect("a pipe").write_all(&input).expect("written");
        let printed = String::from_utf8(run.wait_with_output().expect("its output").stdout).expect("text");
        if printed != expected {
            let at = printed.lines().zip(expected.lines()).position(|(a, b)| a != b);
            println!("DIFFERENCE in readings at {at:?}: {:x?}", at.map(|at| patterns[at]));
            std::process::exit(1);
        }
        tried += AT_ONCE as u64;
    }
    println!("readings          {tried} doubles, any bits and about halves, at three scales");
}

fn main() {
    let mut words = std::env::args().skip(1);
    let mut number = |otherwise| {
        words
            .next()
            .map_or(otherwise, |word| word.parse().expect("usage: doubles SURVEYS PATTERNS SEED [PROGRAM]"))
    };
    let (surveys, patterns, seed) = (number(100_000), number(10_000_000), number(1));
    let mut random = Random::new(seed);
    sheets(&mut random, surveys);
    written(&mut random, surveys);
    if let Some(program) = words.next() {
        readings(&mut random, patterns, &program);
    }
    println!("no difference");
}
