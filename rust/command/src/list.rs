//! `ukhtvaresh list`: a stored sheet, or a year file of any size.

use crate::entries::{sheet_csv, sheet_json, COLUMNS};
use crate::failure::{Failure, Outcome};
use crate::fields::{sheet_words, with_number};
use crate::input::Input;
use crate::library::{self, Refused};
use crate::output::Output;
use crate::progress::Progress;
use crate::sheet::Form;
use clap::ArgMatches;
use serde_json::{json, Map, Value};

const PIECE: usize = 1 << 20;
/// The bytes end inside a sheet: more of them may complete it.
pub const ENDS: u64 = 6;

/// The sheets of a file one after the other, of which a part is in memory at a time.
pub struct Sheets<'a> {
    input: &'a mut Input,
    buffer: Vec<u8>,
    start: usize,
    before: u64,
    ended: bool,
}

impl<'a> Sheets<'a> {
    pub fn new(input: &'a mut Input) -> Sheets<'a> {
        Sheets { input, buffer: Vec::new(), start: 0, before: 0, ended: false }
    }

    /// Where the next sheet begins in the file.
    pub fn at(&self) -> u64 {
        self.before + self.start as u64
    }

    /// The length of the next sheet, which is then at the start of [`Sheets::bytes`]; `None` at the end of the file.
    pub fn next(&mut self) -> Outcome<Option<Result<usize, Refused>>> {
        loop {
            let rest = &self.buffer[self.start..];
            if self.ended && rest.is_empty() {
                return Ok(None);
            }
            match library::extent(rest) {
                Err(Refused { number: ENDS, .. }) if !self.ended => self.read()?,
                answer => return Ok(Some(answer)),
            }
        }
    }

    // Reads as much as is there already, so that a long sheet is looked at few times.
    fn read(&mut self) -> Outcome<()> {
        self.buffer.drain(..self.start);
        self.before += self.start as u64;
        self.start = 0;
        let due = self.buffer.len().max(PIECE);
        let goal = self.buffer.len() + due;
        while self.buffer.len() < goal {
            let most = goal - self.buffer.len();
            let got = self.input.more(&mut self.buffer, most)?;
            if got == 0 {
                self.ended = true;
                break;
            }
            if self.input.length.is_none() {
                break; // a pipe that pauses gets its listing
            }
        }
        Ok(())
    }

    pub fn bytes(&self) -> &[u8] {
        &self.buffer[self.start..]
    }

    pub fn pass(&mut self, length: usize) {
        self.start += length;
    }
}

pub fn run(given: &ArgMatches) -> Outcome<()> {
    let form = Form::of(given);
    let mut output = Output::open(given.get_one("out"))?;
    let mut input = Input::open(given.get_one("file"), "stored sheets")?;
    let (name, length) = (input.name.clone(), input.length);
    let mut progress = Progress::new(length);
    let mut sheets = Sheets::new(&mut input);
    let mut count = 0_u64;
    if form == Form::Csv {
        output.line(&format!("sheet,{COLUMNS}"))?;
    }
    let ended = loop {
        let start = sheets.at();
        match sheets.next()? {
            None => break Ok(()),
            Some(Err(refused)) => break Err((refused, start)),
            Some(Ok(length)) => {
                show(&sheets.bytes()[..length], count, start, form, &mut output)?;
                sheets.pass(length);
                count += 1;
                if count % 256 == 0 {
                    progress.at(sheets.at());
                }
            }
        }
    };
    progress.done();
    output.finish()?;
    match ended {
        Ok(()) if count > 0 => Ok(()),
        Ok(()) => {
            let words = with_number(
                "the input is empty: there is no sheet in it",
                Refused { number: ENDS, place: 0 },
            );
            Err(Failure::Refused(words).of(&name))
        }
        Err((refused, start)) => Err(Failure::Refused(format!(
            "{}; {} before it {} well-formed: ukhtvaresh mend keeps what is",
            sheet_words(refused, start),
            if count == 1 { "1 sheet".to_owned() } else { format!("{count} sheets") },
            if count == 1 { "is" } else { "are" },
        ))
        .of(&name)),
    }
}

fn show(sheet: &[u8], index: u64, start: u64, form: Form, output: &mut Output) -> Outcome<()> {
    let said = |refusal: ukhtvaresh::Refusal| Failure::Refused(sheet_words(refusal.into(), start));
    if form == Form::Text {
        if index > 0 {
            output.write(b"\n")?;
        }
        return output.write(ukhtvaresh::listing(sheet).map_err(said)?.as_bytes());
    }
    let entries = ukhtvaresh::read(sheet).map_err(said)?;
    if form == Form::Csv {
        for line in sheet_csv(&entries, &[]) {
            output.line(&format!("{},{line}", index + 1))?;
        }
        return Ok(());
    }
    let mut made = Map::new();
    made.insert("sheet".into(), json!(index + 1));
    made.insert("byte".into(), json!(start));
    made.extend(sheet_json(&entries, &[]));
    output.line(&Value::Object(made).to_string())
}
