//! What is said on standard error: messages, and on a terminal how far a long work has come.

use std::fmt::Display;
use std::io::{self, IsTerminal, Write};
use std::time::{Duration, Instant};

/// Nothing is shown before this, and then no more often than in the second.
const PATIENCE: Duration = Duration::from_secs(1);
const PAUSE: Duration = Duration::from_millis(200);

pub struct Progress {
    /// Whether there is anybody who sees it.
    terminal: bool,
    begun: Instant,
    shown: Option<Instant>,
    /// Bytes in all, where that is known.
    total: Option<u64>,
}

impl Progress {
    pub fn new(total: Option<u64>) -> Progress {
        let terminal = io::stderr().is_terminal();
        Progress { terminal, begun: Instant::now(), shown: None, total }
    }

    /// Shows how many bytes and pictures are done, now and then.
    pub fn show(&mut self, bytes: u64, pictures: u64) {
        if !self.terminal || self.begun.elapsed() < PATIENCE {
            return;
        }
        if self.shown.is_some_and(|shown| shown.elapsed() < PAUSE) {
            return;
        }
        self.shown = Some(Instant::now());
        let megabytes = bytes / 1_000_000;
        let pictures = counted(pictures, "picture");
        let text = match self.total.filter(|total| *total > 0) {
            Some(total) => {
                let percent = (bytes.min(total) as u128 * 100 / total as u128) as u64;
                format!("{percent} %, {megabytes} of {} MB, {pictures}", total / 1_000_000)
            }
            None => format!("{megabytes} MB, {pictures}"),
        };
        let mut out = io::stderr().lock();
        let _ = write!(out, "\r\x1b[K{text}");
        let _ = out.flush();
    }

    /// A message of a line, in the place of what was shown.
    pub fn say(&mut self, line: impl Display) {
        self.clear();
        say(line);
    }

    fn clear(&mut self) {
        if self.shown.take().is_some() {
            let _ = write!(io::stderr().lock(), "\r\x1b[K");
        }
    }
}

impl Drop for Progress {
    fn drop(&mut self) {
        self.clear();
    }
}

/// A line on standard error, written at once. If that can't be, there is nowhere to say so.
pub fn say(line: impl Display) {
    let _ = io::stderr().lock().write_all(format!("reelpony: {line}\n").as_bytes());
}

/// `1 picture`, `2 pictures`.
pub fn counted(number: u64, word: &str) -> String {
    let s = if number == 1 { "" } else { "s" };
    format!("{number} {word}{s}")
}
