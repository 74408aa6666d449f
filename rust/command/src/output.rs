//! Where the result goes: standard output, or a file by a temporary file and a rename.

use crate::failure::{system_words, Failure, Outcome};
use std::ffi::OsString;
use std::fs::{self, File, OpenOptions};
use std::io::{self, BufWriter, IsTerminal, Write};
use std::path::{Path, PathBuf};

/// A place for the result. Nothing is at the file's name before [`Output::finish`].
pub struct Output {
    writer: Option<BufWriter<Box<dyn Write>>>,
    name: String,
    renamed: Option<(PathBuf, PathBuf)>,
}

impl Output {
    /// Standard output, or the file of this name; `-` is standard output too.
    pub fn open(path: Option<&String>) -> Outcome<Output> {
        match path.filter(|path| *path != "-") {
            None => Ok(Output::of(Box::new(io::stdout()), "standard output", None)),
            Some(path) => Output::file(path),
        }
    }

    fn of(writer: Box<dyn Write>, name: &str, renamed: Option<(PathBuf, PathBuf)>) -> Output {
        let writer = Some(BufWriter::with_capacity(1 << 16, writer));
        Output { writer, name: name.to_owned(), renamed }
    }

    fn file(name: &str) -> Outcome<Output> {
        let wrong = |error: io::Error| Failure::Usage(format!("{name}: {}", system_words(&error)));
        // A link keeps being one: the file that it names is replaced.
        let path = fs::canonicalize(name).unwrap_or_else(|_| PathBuf::from(name));
        match fs::metadata(&path) {
            Ok(there) if there.is_dir() => {
                Err(Failure::Usage(format!("{name} is a directory: name a file after --out")))
            }
            // A device or a pipe is written as it is; a rename would put a file in its place.
            Ok(there) if !there.is_file() => {
                let file = OpenOptions::new().write(true).open(&path).map_err(wrong)?;
                Ok(Output::of(Box::new(file), name, None))
            }
            there => {
                let temporary = beside(&path);
                let file = OpenOptions::new().write(true).create_new(true).open(&temporary).map_err(wrong)?;
                if let Ok(there) = there {
                    let _ = fs::set_permissions(&temporary, there.permissions());
                }
                Ok(Output::of(Box::new(file), name, Some((temporary, path))))
            }
        }
    }

    /// Refuses to write bytes to a terminal.
    pub fn not_a_terminal(path: Option<&String>, what: &str) -> Outcome<()> {
        if path.is_none_or(|path| path == "-") && io::stdout().is_terminal() {
            let way = "name a file with --out FILE, or use a pipe";
            return Err(Failure::Usage(format!("{what} is bytes, which a terminal cannot show: {way}")));
        }
        Ok(())
    }

    fn failed(&self, error: &io::Error) -> Failure {
        match error.kind() {
            io::ErrorKind::BrokenPipe => Failure::Closed,
            _ => Failure::Usage(format!("{} cannot be written: {}", self.name, system_words(error))),
        }
    }

    pub fn write(&mut self, bytes: &[u8]) -> Outcome<()> {
        let wrote = self.writer.as_mut().expect("open").write_all(bytes);
        wrote.map_err(|error| self.failed(&error))
    }

    pub fn flush(&mut self) -> Outcome<()> {
        let wrote = self.writer.as_mut().expect("open").flush();
        wrote.map_err(|error| self.failed(&error))
    }

    pub fn line(&mut self, text: &str) -> Outcome<()> {
        self.write(text.as_bytes())?;
        self.write(b"\n")
    }

    /// Writes what is left and gives the file its name.
    pub fn finish(mut self) -> Outcome<()> {
        self.flush()?;
        drop(self.writer.take());
        if let Some((temporary, path)) = self.renamed.take() {
            if let Err(error) = File::open(&temporary).and_then(|file| file.sync_all()) {
                let _ = fs::remove_file(&temporary);
                return Err(self.failed(&error));
            }
            if let Err(error) = fs::rename(&temporary, path) {
                let _ = fs::remove_file(&temporary);
                return Err(self.failed(&error));
            }
        }
        Ok(())
    }
}

impl Drop for Output {
    // An output that is not finished leaves no file.
    fn drop(&mut self) {
        if let Some((temporary, _)) = self.renamed.take() {
            let _ = fs::remove_file(temporary);
        }
    }
}

// A name in the same folder that no other run uses.
fn beside(path: &Path) -> PathBuf {
    let mut name = OsString::from(".");
    name.push(path.file_name().unwrap_or_default());
    name.push(format!(".{}.part", std::process::id()));
    path.with_file_name(name)
}

/// A field of a CSV line, in quotes where it needs them.
pub fn csv(text: &str) -> String {
    if text.contains(['"', ',', '\n', '\r']) {
        format!("\"{}\"", text.replace('"', "\"\""))
    } else {
        text.to_owned()
    }
}
