//! `ukhtvaresh sheet`: from a request to its listing.

use crate::asked::{Asked, Reading};
use crate::clock::instant_text;
use crate::entries::{sheet_csv, sheet_json, Listing, COLUMNS};
use crate::failure::{complain, note, Failure, Outcome};
use crate::library;
use crate::output::Output;
use clap::ArgMatches;
use serde_json::{json, Value};

/// How a sheet is shown.
#[derive(Clone, Copy, PartialEq, Eq)]
pub enum Form {
    Text,
    Json,
    Csv,
    Stored { share: bool },
}

impl Form {
    pub fn of(given: &ArgMatches) -> Form {
        let flag = |name: &str| given.try_get_one::<bool>(name).ok().flatten() == Some(&true);
        if flag("json") {
            Form::Json
        } else if flag("csv") {
            Form::Csv
        } else if flag("stored") {
            Form::Stored { share: flag("share") }
        } else {
            Form::Text
        }
    }
}

/// Writes one sheet; `index` counts the sheets of a run from 0.
pub fn show(asked: &Asked, form: Form, index: usize, output: &mut Output) -> Outcome<()> {
    if let Form::Stored { share } = form {
        return output.write(&if share { asked.sheet_and_share()? } else { asked.sheet()? });
    }
    let text = library::times(&asked.request, &asked.instant).map_err(|refused| asked.refused(refused))?;
    if form == Form::Text {
        if index > 0 {
            output.write(b"\n")?;
        }
        return output.write(&text);
    }
    let listing = Listing::of(&String::from_utf8_lossy(&text));
    let entries = ukhtvaresh::read(&asked.sheet()?).map_err(|refusal| asked.refused(refusal))?;
    if form == Form::Csv {
        if index == 0 {
            output.line(COLUMNS)?;
        }
        for line in sheet_csv(&entries, &listing.lines) {
            output.line(&line)?;
        }
        for words in &listing.notes {
            note(words);
        }
        return Ok(());
    }
    let mut made = sheet_json(&entries, &listing.lines);
    if let Some(instant) = instant_text(&asked.instant) {
        made.insert("instant".into(), json!(instant));
    }
    if asked.instant[5] != 0 {
        made.insert("tai_utc".into(), json!(asked.instant[5]));
    }
    if let Some(delta_t) = asked.number("delta t") {
        made.insert("delta_t".into(), crate::entries::hundredths(delta_t));
    }
    made.insert("notes".into(), json!(listing.notes));
    output.line(&Value::Object(made).to_string())
}

pub fn run(given: &ArgMatches) -> Outcome<()> {
    let (form, reading) = (Form::of(given), Reading::of(given));
    let out = given.get_one::<String>("out");
    if matches!(form, Form::Stored { .. }) {
        Output::not_a_terminal(out, "a stored sheet")?;
    }
    let files: Vec<Option<&String>> = match given.get_many::<String>("file") {
        Some(files) => files.map(Some).collect(),
        None => vec![None],
    };
    let mut output = Output::open(out)?;
    let mut refused = false;
    for (index, file) in files.iter().enumerate() {
        let shown = Asked::open(*file, &reading).and_then(|asked| show(&asked, form, index, &mut output));
        match shown {
            Err(Failure::Refused(words)) if files.len() > 1 => {
                complain(&words);
                refused = true;
            }
            shown => shown?,
        }
    }
    output.finish()?;
    if refused {
        return Err(Failure::Said);
    }
    Ok(())
}
