//! The command `ukhtvaresh`: contact sheets for people, over the proved library.
//!
//! The library decides every answer. The command reads files, prepares bytes and words, and writes.

#![deny(unsafe_code)]

mod asked;
mod catalogue;
mod cli;
mod clock;
mod contacts;
mod eclipses;
mod entries;
mod failure;
mod fields;
mod input;
mod library;
mod list;
mod manual;
mod mend;
mod network;
mod output;
mod progress;
mod seconds;
mod sheet;
mod stream;
mod typed;

use failure::{complain, Failure, Outcome};
use std::process::ExitCode;

fn run() -> Outcome<()> {
    let given = cli::command().get_matches();
    let (name, given) = given.subcommand().expect("clap asks for a subcommand");
    match name {
        "sheet" => sheet::run(given),
        "list" => list::run(given),
        "stream" => stream::run(given),
        "mend" => mend::run(given),
        "contacts" => contacts::run(given),
        "network" => network::run(given),
        "seconds" => seconds::run(given),
        "eclipses" => eclipses::all(given),
        "eclipse" => eclipses::one(given),
        "completions" => manual::completions(given),
        "manual" => manual::run(given),
        other => unreachable!("{other} is not in the table"),
    }
}

fn main() -> ExitCode {
    match run() {
        Ok(()) => ExitCode::SUCCESS,
        Err(failure) => {
            if let Failure::Refused(words) | Failure::Usage(words) = &failure {
                complain(words);
            }
            ExitCode::from(failure.status())
        }
    }
}
