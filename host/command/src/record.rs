//! `record`: a take from a Y4M, and what is left of one whose source or disk gave out.

use std::path::Path;

use crate::capture::Capture;
use crate::error::{Error, Outcome, Result};
use crate::files::{Input, Output, Replace, Target, Way};
use crate::progress::{counted, Progress};
use crate::signals::Signals;
use crate::y4m::{self, Feed, Source};
use reelpony::window::zeros;

/// How a take is recorded.
#[derive(Default)]
pub struct Options {
    pub replace: Replace,
    /// The parameter sets stand again before each so manyth picture.
    pub sets_every: Option<u64>,
    /// What a take can't keep is not said.
    pub quiet: bool,
}

/// What was recorded.
pub struct Recorded {
    /// Whole pictures, and the bytes that they and their parameter sets have.
    pub pictures: u64,
    pub bytes: u64,
    /// Why it ended before the source did.
    pub broken: Option<Broken>,
}

/// What gave out.
pub enum Broken {
    /// The source, in a picture.
    Source(Error),
    /// The file that is written, or the work itself.
    Other(Error),
}

/// The command: records, and says what.
pub fn run(from: &Path, to: &Path, options: &Options) -> Result<Outcome> {
    let input = Input::open(from)?;
    let target = Target::find(to, &[input.id], options.replace)?;
    let signals = Signals::catch().map_err(|error| Error::reading(&input.name, error))?;
    let mut progress = Progress::new(input.length);
    let mut capture = Capture::new(input.file, signals);
    let mut source = match Source::open(&mut capture, &input.name) {
        Ok(source) => source,
        Err(error) => {
            return Err(capture.ended_by().map_or(error, |signal| nothing(signal.name())))
        }
    };
    if !options.quiet {
        for unkept in &source.header.unkept {
            progress.say(format!("note: {}: {unkept}", input.name));
        }
    }
    let mut output = target.open(Way::Straight)?;
    let name = output.name.clone();
    if let Some(part) = output.unfinished() {
        progress.say(format!("note: {name} is replaced at the end; until then the take is {part}"));
    }
    output.sync_while_writing()?;
    let recorded = record(&mut source, &mut output, options.sets_every, &mut progress);
    let shape = y4m::words(&source.header.shape);
    let signal = capture.ended_by().map(|signal| signal.name());
    let Recorded { pictures, bytes, .. } = recorded;

    // Why it is only a part.
    let why = match (recorded.broken, signal) {
        (Some(Broken::Source(_)), Some(signal)) if pictures == 0 => return Err(nothing(signal)),
        (Some(Broken::Source(_)), Some(signal)) => {
            Some(format!("{signal} ended it in picture {}", pictures + 1))
        }
        (Some(Broken::Source(error) | Broken::Other(error)), _) => match error {
            Error::Sentence(text) if pictures > 0 => Some(text),
            error => return Err(error),
        },
        (None, Some(signal)) if pictures == 0 => return Err(nothing(signal)),
        (None, None) if pictures == 0 => {
            return Error::sentence(format!("{} has no picture", input.name));
        }
        (None, Some(signal)) if capture.has_more() => {
            Some(format!("{signal} ended it before the end of {}", input.name))
        }
        (None, _) => None,
    };
    let all = format!("{} of {shape}; {bytes} bytes", counted(pictures, "picture"));
    match (output.keep(bytes), why, signal) {
        (Err(Error::BrokenPipe), ..) => Err(Error::BrokenPipe),
        (Err(Error::Sentence(text) | Error::Usage(text)), why, _) => {
            let why = why.map_or(String::new(), |why| format!("; it ended early: {why}"));
            progress.say(format!("partial: {name}: {all}; but {text}{why}"));
            Ok(Outcome::Partial)
        }
        (Ok(()), Some(why), _) => {
            progress.say(format!("partial: {name}: {all}; it ended early: {why}"));
            Ok(Outcome::Partial)
        }
        (Ok(()), None, Some(signal)) => {
            progress.say(format!("{name}: {all}; {signal} ended it"));
            Ok(Outcome::Complete)
        }
        (Ok(()), None, None) => {
            progress.say(format!("{name}: {all}"));
            Ok(Outcome::Complete)
        }
    }
}

/// A recording that a signal ended too early.
fn nothing(signal: &str) -> Error {
    Error::Sentence(format!("{signal} ended it before a picture was whole; nothing is recorded"))
}

/// Writes every whole picture of a Y4M, each with one call of the system, so that whatever moment it
/// ends at, the file is a take up to its last whole picture.
pub fn record<R: Feed>(
    source: &mut Source<R>,
    output: &mut Output,
    sets_every: Option<u64>,
    progress: &mut Progress,
) -> Recorded {
    let mut recorded = Recorded { pictures: 0, bytes: 0, broken: None };
    let mut out = match zeros(source.header.shape.room()) {
        Ok(out) => out,
        Err(error) => {
            recorded.broken = Some(Broken::Other(Error::writing(&output.name, error)));
            return recorded;
        }
    };
    let mut session = None;
    let mut sets = Vec::new();
    loop {
        let image = match source.next() {
            Ok(Some(image)) => image,
            Ok(None) => return recorded,
            Err(error) => {
                recorded.broken = Some(Broken::Source(error));
                return recorded;
            }
        };
        let length = match &mut session {
            Some(session) => reelpony::next(session, &image, &mut out),
            None => reelpony::start(&image, &mut out).map(|(length, started)| {
                session = Some(started);
                sets = parameter_sets(&out[..length]).to_vec();
                length
            }),
        };
        let length = match length {
            Ok(length) => length,
            Err(refusal) => {
                let text = format!("a picture was refused: {refusal}");
                recorded.broken = Some(Broken::Other(Error::Sentence(text)));
                return recorded;
            }
        };
        let is_again = |every| recorded.pictures > 0 && recorded.pictures % every == 0;
        let before = if sets_every.is_some_and(is_again) { &sets[..] } else { &[] };
        let written = match before {
            [] => Ok(()),
            sets => output.write(sets),
        };
        if let Err(error) = written.and_then(|()| output.write(&out[..length])) {
            recorded.broken = Some(Broken::Other(error));
            return recorded;
        }
        recorded.bytes += (before.len() + length) as u64;
        recorded.pictures += 1;
        progress.show(source.bytes, recorded.pictures);
    }
}

/// What stands before the picture in a start call's bytes: both parameter sets, each behind its
/// start code.
fn parameter_sets(bytes: &[u8]) -> &[u8] {
    let codes = bytes.windows(3).enumerate().filter(|(_, three)| *three == [0, 0, 1]);
    let picture = codes.map(|(at, _)| at).nth(2).unwrap_or(0);
    // A unit doesn't end in a zero, so this one is of the start code.
    match picture.checked_sub(1).map(|before| bytes[before]) {
        Some(0) => &bytes[..picture - 1],
        _ => &bytes[..picture],
    }
}

#[cfg(test)]
mod tests {
    use super::*;

    #[test]
    fn sets_before_a_picture() {
        let sets = [0, 0, 0, 1, 0x67, 9, 0, 0, 0, 1, 0x68, 8];
        for code in [&[0, 0, 1][..], &[0, 0, 0, 1]] {
            let call = [&sets[..], code, &[0x65, 7, 7, 0, 0, 3, 1]].concat();
            assert_eq!(parameter_sets(&call), sets);
        }
    }
}
