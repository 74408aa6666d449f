//! A line on standard error for what takes more than two seconds, on a terminal alone.

use indicatif::{ProgressBar, ProgressDrawTarget, ProgressStyle};
use std::io::IsTerminal;
use std::time::{Duration, Instant};

const PATIENCE: Duration = Duration::from_secs(2);

/// The progress of a run through some bytes.
pub struct Progress {
    start: Instant,
    length: Option<u64>,
    bar: Option<ProgressBar>,
    shown: bool,
}

impl Progress {
    pub fn new(length: Option<u64>) -> Progress {
        Progress { start: Instant::now(), length, bar: None, shown: std::io::stderr().is_terminal() }
    }

    /// So many bytes are done.
    pub fn at(&mut self, bytes: u64) {
        if !self.shown || (self.bar.is_none() && self.start.elapsed() < PATIENCE) {
            return;
        }
        let length = self.length;
        let bar = self.bar.get_or_insert_with(|| {
            let bar = match length {
                Some(length) => ProgressBar::new(length),
                None => ProgressBar::new_spinner(),
            };
            bar.set_draw_target(ProgressDrawTarget::stderr());
            let form = match length {
                Some(_) => "{percent:>3} % of {total_bytes}, {bytes_per_sec}, {eta} left",
                None => "{bytes} read, {bytes_per_sec}",
            };
            bar.set_style(ProgressStyle::with_template(form).expect("a template"));
            bar
        });
        bar.set_position(bytes);
    }

    /// Takes the line away.
    pub fn done(&self) {
        if let Some(bar) = &self.bar {
            bar.finish_and_clear();
        }
    }
}
