//! The source of a recording: a file, a pipe or a device whose reading a signal ends, and not in
//! the middle of a picture as long as its bytes still come.

use std::fs::File;
use std::io::{self, BufRead, Read};
use std::time::{Duration, Instant};

use crate::signals::{Signal, Signals, Woken};
use crate::y4m::Feed;

/// Bytes that are read at a time.
const BUFFER: usize = 1 << 18;

/// How long the rest of a picture is waited for after a signal.
const PATIENCE: Duration = Duration::from_secs(2);

/// Signals that come so soon after the first are the same request: some programs send one to a
/// process and then to its group.
const SAME: Duration = Duration::from_millis(200);

/// A source, buffered. Behind a signal it gives what is in the buffer, then the rest of the picture
/// that is under way and no byte more, and then it is at its end.
pub struct Capture {
    file: File,
    signals: Signals,
    buffer: Vec<u8>,
    /// The bytes of the buffer that are not taken yet.
    begin: usize,
    end: usize,
    at: At,
    /// The first signal, and when it was seen.
    signal: Option<(Signal, Instant)>,
    is_over: bool,
}

/// Where in a Y4M the next byte is.
#[derive(Clone, Copy, Debug, PartialEq, Eq)]
enum At {
    /// Before a line that begins a picture.
    Between,
    /// In that line.
    Line,
    /// In the samples, so many bytes before their end.
    Samples(usize),
}

impl Capture {
    pub fn new(file: File, signals: Signals) -> Capture {
        let buffer = vec![0; BUFFER];
        let at = At::Between;
        Capture { file, signals, buffer, begin: 0, end: 0, at, signal: None, is_over: false }
    }

    /// The signal that ended it, once it is at its end.
    pub fn ended_by(&self) -> Option<Signal> {
        self.signal.map(|(signal, _)| signal).filter(|_| self.is_over)
    }

    /// Whether it has bytes that were not asked for: then it is a file that a signal stopped the
    /// reading of, and not a source that ended. Of a pipe this can't be told.
    pub fn has_more(&mut self) -> bool {
        let is_file = self.file.metadata().is_ok_and(|about| about.is_file());
        is_file && self.file.read(&mut [0]).is_ok_and(|length| length > 0)
    }

    /// Reads into the empty buffer. None at the end.
    fn read_more(&mut self) -> io::Result<Option<usize>> {
        loop {
            let most = match (self.signal, self.at) {
                (None, _) => BUFFER,
                (Some(_), At::Between) => return Ok(None),
                (Some(_), At::Line) => 1,
                (Some(_), At::Samples(left)) => left.clamp(1, BUFFER),
            };
            match self.signals.wait(Some(&self.file), self.signal.map(|_| PATIENCE))? {
                Woken::Nothing => return Ok(None),
                Woken::Signal(signal) => match self.signal {
                    None => self.signal = Some((signal, Instant::now())),
                    Some((_, seen)) if seen.elapsed() < SAME => {}
                    Some(_) => return Ok(None),
                },
                Woken::Input => match self.file.read(&mut self.buffer[..most]) {
                    Ok(length) => return Ok(Some(length).filter(|length| *length > 0)),
                    Err(error) if is_passing(error.kind()) => {}
                    Err(error) => return Err(error),
                },
            }
        }
    }
}

/// Whether a read that failed is to be made again: it was interrupted, or somebody else who reads
/// the same pipe was there first.
fn is_passing(kind: io::ErrorKind) -> bool {
    matches!(kind, io::ErrorKind::Interrupted | io::ErrorKind::WouldBlock)
}

impl BufRead for Capture {
    fn fill_buf(&mut self) -> io::Result<&[u8]> {
        if self.begin == self.end && !self.is_over {
            let read = self.read_more()?;
            self.is_over = read.is_none();
            (self.begin, self.end) = (0, read.unwrap_or(0));
        }
        Ok(&self.buffer[self.begin..self.end])
    }

    fn consume(&mut self, length: usize) {
        self.begin += length;
        self.at = match self.at {
            At::Between if length > 0 => At::Line,
            At::Samples(left) => At::Samples(left.saturating_sub(length)),
            at => at,
        };
    }
}

impl Read for Capture {
    fn read(&mut self, into: &mut [u8]) -> io::Result<usize> {
        let bytes = self.fill_buf()?;
        let length = bytes.len().min(into.len());
        into[..length].copy_from_slice(&bytes[..length]);
        self.consume(length);
        Ok(length)
    }
}

impl Feed for Capture {
    fn between(&mut self) {
        self.at = At::Between;
    }

    fn samples(&mut self, length: usize) {
        self.at = At::Samples(length);
    }
}
