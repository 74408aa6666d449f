//! How a run of the command ends.

use std::fmt;
use std::io::{self, IsTerminal, Write};

/// Why the command does not do what was asked.
#[derive(Debug)]
pub enum Failure {
    /// A request, a sheet or a value is refused: status 1.
    Refused(String),
    /// The command line is wrong, or a file cannot be read or written: status 2.
    Usage(String),
    /// The reader of standard output is gone: status 2 without words.
    Closed,
    /// All is already said: status 1.
    Said,
}

impl Failure {
    pub fn status(&self) -> u8 {
        match self {
            Failure::Refused(_) | Failure::Said => 1,
            Failure::Usage(_) | Failure::Closed => 2,
        }
    }

    /// The failure with the name of the file that it is about before its words.
    pub fn of(self, name: &str) -> Failure {
        match self {
            Failure::Refused(words) => Failure::Refused(format!("{name}: {words}")),
            other => other,
        }
    }
}

impl fmt::Display for Failure {
    fn fmt(&self, f: &mut fmt::Formatter<'_>) -> fmt::Result {
        match self {
            Failure::Refused(words) | Failure::Usage(words) => f.write_str(words),
            Failure::Closed | Failure::Said => Ok(()),
        }
    }
}

pub type Outcome<T> = Result<T, Failure>;

/// The words of an error of the system, without its number.
pub fn system_words(error: &io::Error) -> String {
    let words = error.to_string();
    words.split(" (os error").next().unwrap_or_default().to_owned()
}

fn coloured() -> bool {
    io::stderr().is_terminal() && std::env::var_os("NO_COLOR").is_none_or(|value| value.is_empty())
}

fn say(label: &str, colour: &str, words: &str) {
    let mut error = io::stderr().lock();
    // Where standard error is closed, nobody can be told.
    let _ = if coloured() {
        writeln!(error, "\x1b[{colour}m{label}:\x1b[0m {words}")
    } else {
        writeln!(error, "{label}: {words}")
    };
}

/// Says why the command failed, on standard error.
pub fn complain(words: &str) {
    say("ukhtvaresh", "1;31", words);
}

/// A remark for the person who runs the command, on standard error.
pub fn note(words: &str) {
    say("note", "1;36", words);
}
