//! A request that is asked for, typed or in bytes.

use crate::failure::{Failure, Outcome};
use crate::fields;
use crate::input::Input;
use crate::library::{Instant, Refused};
use crate::typed;
use clap::ArgMatches;

/// More bytes than this are no typed request.
const MOST: usize = 1 << 20;

/// A request: its bytes, its instant, and its text where it was typed.
pub struct Asked {
    pub name: String,
    pub request: Vec<u8>,
    pub instant: Instant,
    text: Option<Vec<u8>>,
}

/// How requests are read: options that several subcommands share.
#[derive(Clone, Default)]
pub struct Reading {
    pub round: bool,
    pub instant: Option<String>,
    pub tai_utc: Option<String>,
}

impl Reading {
    pub fn of(given: &ArgMatches) -> Reading {
        Reading {
            round: given.get_flag("round"),
            instant: given.get_one("instant").cloned(),
            tai_utc: given.get_one("tai-utc").cloned(),
        }
    }
}

impl Asked {
    /// The request of a file, or of standard input.
    pub fn open(path: Option<&String>, reading: &Reading) -> Outcome<Asked> {
        let mut input = Input::open(path, "a typed request")?;
        let Some(bytes) = input.all(MOST)? else {
            let words = format!(
                "there are more than {MOST} bytes: a request has 115 bytes, 79, or some lines of text"
            );
            return Err(Failure::Refused(words).of(&input.name));
        };
        let name = input.name.clone();
        Asked::read(name, &bytes, reading).map_err(|failure| failure.of(&input.name))
    }

    fn read(name: String, bytes: &[u8], reading: &Reading) -> Outcome<Asked> {
        match bytes.first() {
            Some(2 | 5) => Asked::of_bytes(name, bytes, reading),
            Some(1) => Err(Failure::Refused(
                "this is a stored sheet and no request: ukhtvaresh list shows it".to_owned(),
            )),
            _ => {
                let mut text = typed::prepared(bytes)?;
                if reading.round {
                    text = typed::round(&text);
                }
                text.extend_from_slice(added(reading, &text).as_bytes());
                let read = typed::read(&text)?;
                Ok(Asked { name, request: read.request, instant: read.instant, text: Some(text) })
            }
        }
    }

    // Bytes have no instant: one that is given is read by the library, beside the text of the bytes.
    fn of_bytes(name: String, bytes: &[u8], reading: &Reading) -> Outcome<Asked> {
        let mut instant = Instant::default();
        if reading.instant.is_some() || reading.tai_utc.is_some() {
            let Some(text) = fields::text_of(bytes) else {
                let refused = Refused { number: 10, place: 0 };
                return Err(Failure::Refused(fields::with_number(&fields::shape_words(bytes), refused)));
            };
            let text = format!("{text}{}", added(reading, text.as_bytes()));
            instant = typed::read(text.as_bytes())?.instant;
        }
        Ok(Asked { name, request: bytes.to_vec(), instant, text: None })
    }

    /// A request that the command made itself, from its text.
    pub fn of_text(name: &str, text: &str) -> Outcome<Asked> {
        let read = typed::read(text.as_bytes())?;
        let text = Some(text.as_bytes().to_vec());
        Ok(Asked { name: name.to_owned(), request: read.request, instant: read.instant, text })
    }

    pub fn is_star(&self) -> bool {
        self.request.first() == Some(&5)
    }

    /// The number of a field in its units; `None` where the bytes are no request.
    pub fn number(&self, name: &str) -> Option<i64> {
        let (star, numbers) = fields::numbers(&self.request)?;
        fields::fields(star).zip(numbers).find(|(field, _)| field.name == name).map(|(_, number)| number)
    }

    /// The refusal of this request, in words.
    pub fn refused(&self, refused: impl Into<Refused>) -> Failure {
        let find = |name: &str| self.text.as_ref().and_then(|text| typed::find(text, name));
        Failure::Refused(fields::words(refused.into(), &self.request, &find)).of(&self.name)
    }

    /// The stored sheet of the request.
    pub fn sheet(&self) -> Outcome<Vec<u8>> {
        let made = if self.is_star() {
            ukhtvaresh::star_vec(&self.request)
        } else {
            ukhtvaresh::sheet_vec(&self.request)
        };
        made.map_err(|refusal| self.refused(refusal))
    }

    /// The same with the covered share of the Sun's disc; of a star there is none.
    pub fn sheet_and_share(&self) -> Outcome<Vec<u8>> {
        if self.is_star() {
            return self.sheet();
        }
        ukhtvaresh::sheet_and_share_vec(&self.request).map_err(|refusal| self.refused(refusal))
    }

    pub fn horizon(&self, second: i64) -> Outcome<ukhtvaresh::Horizon> {
        let horizon = if self.is_star() { ukhtvaresh::star_horizon } else { ukhtvaresh::horizon };
        horizon(&self.request, second).map_err(|refusal| self.refused(refusal))
    }

    pub fn second(&self, second: i64) -> Outcome<ukhtvaresh::Second> {
        ukhtvaresh::second(&self.request, second).map_err(|refusal| self.refused(refusal))
    }
}

// The lines that options add to a text.
fn added(reading: &Reading, text: &[u8]) -> String {
    let mut lines = String::new();
    for (name, value) in [("instant", &reading.instant), ("tai-utc", &reading.tai_utc)] {
        if let Some(value) = value {
            if lines.is_empty() && !text.is_empty() && !text.ends_with(b"\n") {
                lines.push('\n');
            }
            lines.push_str(&format!("{name} {}\n", value.replace(['\n', '#'], " ")));
        }
    }
    lines
}
