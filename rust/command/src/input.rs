//! Files and standard input.

use crate::failure::{system_words, Failure, Outcome};
use std::fs::File;
use std::io::{self, IsTerminal, Read};

/// A file or standard input, with the name that messages have for it and its length where that is known.
pub struct Input {
    reader: Box<dyn Read>,
    pub name: String,
    pub length: Option<u64>,
}

impl Input {
    /// The file of this name; `-`, or no name, is standard input. `what` says what is read, to a person at a terminal.
    pub fn open(path: Option<&String>, what: &str) -> Outcome<Input> {
        let Some(path) = path.filter(|path| *path != "-") else {
            if io::stdin().is_terminal() {
                crate::failure::note(&format!("reading {what} from the terminal; Ctrl-D ends it"));
            }
            let name = "standard input".to_owned();
            return Ok(Input { reader: Box::new(io::stdin()), name, length: None });
        };
        let wrong =
            |error: io::Error| Failure::Usage(format!("{path} cannot be read: {}", system_words(&error)));
        let file = File::open(path).map_err(wrong)?;
        let there = file.metadata().map_err(wrong)?;
        if there.is_dir() {
            return Err(Failure::Usage(format!("{path} is a directory: name a file")));
        }
        let length = there.is_file().then_some(there.len());
        Ok(Input { reader: Box::new(file), name: path.clone(), length })
    }

    /// Reads some bytes to the end of a buffer; gives how many, 0 at the end of the input.
    pub fn more(&mut self, buffer: &mut Vec<u8>, most: usize) -> Outcome<usize> {
        let start = buffer.len();
        buffer.resize(start + most, 0);
        let got = loop {
            match self.reader.read(&mut buffer[start..]) {
                Err(error) if error.kind() == io::ErrorKind::Interrupted => {}
                got => break got,
            }
        };
        buffer.truncate(start + got.as_ref().copied().unwrap_or(0));
        got.map_err(|error| {
            let words = match error.kind() {
                io::ErrorKind::IsADirectory => "it is a directory".to_owned(),
                _ => system_words(&error),
            };
            Failure::Usage(format!("{} cannot be read: {words}", self.name))
        })
    }

    /// All bytes, if they are at most so many; `None` where there are more.
    pub fn all(&mut self, most: usize) -> Outcome<Option<Vec<u8>>> {
        let mut bytes = Vec::new();
        while bytes.len() <= most {
            if self.more(&mut bytes, 1 << 16)? == 0 {
                return Ok(Some(bytes));
            }
        }
        Ok(None)
    }
}
