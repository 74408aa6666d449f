//! `ukhtvaresh mend`: a year file of any size without its damaged parts.
//!
//! The library mends one piece of the file after the other. A piece ends where a sheet may be cut: at the first dropped
//! byte at which the library says that the bytes end inside a sheet. The bytes before it are mended as in the whole
//! file: the library's walk goes from sheet to sheet and from byte to byte, and it drops a byte at which no sheet
//! begins, whatever comes later.

use crate::failure::Outcome;
use crate::input::Input;
use crate::library::{self, Refused};
use crate::list::ENDS;
use crate::output::Output;
use crate::progress::Progress;
use clap::ArgMatches;
use std::io::Write;
use ukhtvaresh::Stretch;

const PIECE: usize = 16 << 20;

pub fn run(given: &ArgMatches) -> Outcome<()> {
    let out = given.get_one::<String>("out");
    Output::not_a_terminal(out, "a mended file")?;
    let notes_file = given.get_one::<String>("notes");
    let in_bytes = given.get_flag("notes-bytes");
    let mut input = Input::open(given.get_one("file"), "a year file")?;
    let mut output = Output::open(out)?;
    let mut notes = match notes_file {
        Some(_) => Some(Output::open(notes_file)?),
        None => None,
    };
    let mut note = |stretch: Stretch| match &mut notes {
        Some(notes) if in_bytes => {
            notes.write(&stretch.start.to_be_bytes())?;
            notes.write(&stretch.length.to_be_bytes())
        }
        Some(notes) => notes.line(&line(stretch)),
        None => {
            let _ = writeln!(std::io::stderr(), "{}", line(stretch));
            Ok(())
        }
    };
    let (kept, dropped) = mend(&mut input, &mut output, &mut note)?;
    output.finish()?;
    if let Some(notes) = notes {
        notes.finish()?;
    }
    if !given.get_flag("quiet") {
        let Dropped { bytes, stretches } = dropped;
        let many = if stretches == 1 { "stretch" } else { "stretches" };
        let _ = writeln!(std::io::stderr(), "kept {kept} bytes, dropped {bytes} bytes in {stretches} {many}");
    }
    Ok(())
}

fn line(stretch: Stretch) -> String {
    format!("dropped {} {}", stretch.start, stretch.length)
}

#[derive(Default)]
struct Dropped {
    bytes: u64,
    stretches: u64,
}

fn mend(
    input: &mut Input,
    output: &mut Output,
    note: &mut dyn FnMut(Stretch) -> Outcome<()>,
) -> Outcome<(u64, Dropped)> {
    let mut progress = Progress::new(input.length);
    let (mut buffer, mut ended, mut before, mut kept) = (Vec::new(), false, 0_u64, 0_u64);
    let (mut dropped, mut open, mut piece) = (Dropped::default(), None::<Stretch>, PIECE);
    loop {
        while !ended && buffer.len() < piece {
            let most = piece - buffer.len();
            ended = input.more(&mut buffer, most)? == 0;
        }
        let mended = ukhtvaresh::mend(&buffer);
        let cut = if ended { None } else { first_cut(&buffer, &mended.stretches) };
        let end = cut.unwrap_or(buffer.len());
        // The kept bytes before the cut: all bytes before it but those of the stretches.
        let mut lost = 0;
        for stretch in &mended.stretches {
            let start = length(stretch.start);
            if start >= end {
                break;
            }
            let part = (start + length(stretch.length)).min(end) - start;
            lost += part;
            let next = Stretch { start: before + start as u64, length: part as u64 };
            open = match open {
                Some(last) if last.start + last.length == next.start => {
                    Some(Stretch { start: last.start, length: last.length + next.length })
                }
                Some(last) => {
                    note(last)?;
                    dropped.stretches += 1;
                    Some(next)
                }
                None => Some(next),
            };
        }
        output.write(&mended.sheets[..end - lost])?;
        kept += (end - lost) as u64;
        dropped.bytes += lost as u64;
        buffer.drain(..end);
        before += end as u64;
        progress.at(before);
        // A piece that is one cut sheet is looked at again with twice its bytes.
        piece = if end == 0 { 2 * piece } else { PIECE.max(buffer.len() + PIECE / 2) };
        if ended && buffer.is_empty() {
            break;
        }
    }
    if let Some(last) = open {
        note(last)?;
        dropped.stretches += 1;
    }
    progress.done();
    Ok((kept, dropped))
}

fn length(number: u64) -> usize {
    usize::try_from(number).expect("a place in memory")
}

// The first dropped byte at which a sheet may begin that goes on past these bytes.
fn first_cut(bytes: &[u8], stretches: &[Stretch]) -> Option<usize> {
    let cut = |rest: &[u8]| matches!(library::extent(rest), Err(Refused { number: ENDS, .. }));
    // The library says of each byte alone whether more bytes could make it a record; of others none can.
    let begins: [bool; 256] = std::array::from_fn(|byte| cut(&[byte as u8]));
    let dropped = stretches.iter().flat_map(|stretch| {
        let start = length(stretch.start);
        start..start + length(stretch.length)
    });
    dropped.into_iter().find(|&at| begins[usize::from(bytes[at])] && cut(&bytes[at..]))
}
