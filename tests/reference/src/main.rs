//! `reference sheet`: 115 bytes on standard input, the listing on standard output.
//! `reference star`: the 79 bytes of a star request on standard input, the listing on standard output.
//! `reference observer`: the bytes of either request on standard input, the listing with altitudes and notes on standard output.
//! `reference network`: whole numbers on standard input, a line of 25 for the eclipse, then a line of six for each station; the steps and
//! the first station on standard output.
//! `reference stream`: requests one after the other on standard input, their sheets on standard output, refusals on standard error.
//! `reference time N`: either input, its sheet written N times; prints nanoseconds a sheet.
//! `reference seconds`: 115 bytes, a line `second L1 L2 M share` for each second of its window.
//! `reference shares`: lines that begin with L1, L2 and M on standard input, a line `L1 L2 M share` for each.

use reference::listing::{program, sheet_of_input, star_of_input, star_program, ROOM};
use reference::network;
use reference::observer;
use reference::request::Request;
use reference::share::share;
use reference::star::STAR_LENGTH;
use reference::stream::stream;
use std::hint::black_box;
use std::io::{read_to_string, stdin, stdout, Read, Write};
use std::process::ExitCode;
use std::time::Instant;

/// A line for each second of a request's window.
fn seconds(input: &[u8]) -> String {
    let circumstances =
        Request::from_bytes(input).and_then(|request| request.check()).expect("a request within its limits");
    let line_of = |second| {
        let shadow = circumstances.shadow(second);
        format!("{second} {} {} {} {}\n", shadow.l1, shadow.l2, shadow.m(), shadow.share())
    };
    circumstances.request().window.seconds().map(line_of).collect()
}

/// The answer to an eclipse and a list of stations in whole units.
fn network_of(input: &str) -> String {
    let numbers = |line: &str| -> Vec<i64> {
        line.split_whitespace().map(|word| word.parse().expect("a number of 64 bits")).collect()
    };
    let mut lines = input.lines().map(numbers);
    let eclipse = lines.next().unwrap_or_default();
    let node_of = |six: Vec<i64>| network::Node::from_fields(six.try_into().expect("six numbers a station"));
    network::program(&eclipse, &lines.map(node_of).collect::<Vec<_>>())
}

/// The same lines with their shares.
fn shares(input: &str) -> String {
    let line_of = |line: &str| {
        let numbers: Vec<i64> = line.split(' ').take(3).map(|word| word.parse().expect("a number")).collect();
        let [l1, l2, m] = numbers[..] else { panic!("L1, L2 and M") };
        format!("{l1} {l2} {m} {}\n", share(l1, l2, m))
    };
    input.lines().map(line_of).collect()
}

fn main() -> ExitCode {
    let arguments: Vec<String> = std::env::args().skip(1).collect();
    let arguments: Vec<&str> = arguments.iter().map(String::as_str).collect();
    let mut input = Vec::new();
    let text = match arguments[..] {
        ["sheet"] => {
            stdin().read_to_end(&mut input).expect("standard input can be read");
            program(&input)
        }
        ["star"] => {
            stdin().read_to_end(&mut input).expect("standard input can be read");
            star_program(&input)
        }
        ["observer"] => {
            stdin().read_to_end(&mut input).expect("standard input can be read");
            observer::program(&input)
        }
        ["stream"] => {
            stdin().read_to_end(&mut input).expect("standard input can be read");
            let (sheets, told) = stream(&input);
            stdout().write_all(&sheets).expect("standard output can be written");
            eprint!("{told}");
            return ExitCode::SUCCESS;
        }
        ["network"] => network_of(&read_to_string(stdin()).expect("text on standard input")),
        ["time", times] => {
            stdin().read_to_end(&mut input).expect("standard input can be read");
            let times: u32 = times.parse().expect("N is a number");
            let mut buffer = vec![0; ROOM];
            let write = if input.len() == STAR_LENGTH { star_of_input } else { sheet_of_input };
            let start = Instant::now();
            for _ in 0..times {
                let _ = black_box(write(black_box(&input), black_box(&mut buffer)));
            }
            format!("{}\n", start.elapsed().as_nanos() / u128::from(times.max(1)))
        }
        ["seconds"] => {
            stdin().read_to_end(&mut input).expect("standard input can be read");
            seconds(&input)
        }
        ["shares"] => shares(&read_to_string(stdin()).expect("text on standard input")),
        _ => {
            eprintln!("usage: reference sheet | star | observer | stream | network | time N | seconds | shares");
            return ExitCode::FAILURE;
        }
    };
    stdout().write_all(text.as_bytes()).expect("standard output can be written");
    ExitCode::SUCCESS
}
