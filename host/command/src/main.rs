//! The command `reelpony`: takes from Y4M and back, cut and damaged ones too.

#![deny(unsafe_code)]

mod arguments;
mod capture;
mod demo;
mod error;
mod files;
mod fit;
mod help;
mod json;
mod kinds;
mod look;
mod names;
mod png;
mod progress;
mod record;
mod salvage;
mod scene;
mod sets;
mod sheet;
#[allow(unsafe_code)]
mod signals;
mod tally;
mod tap;
mod y4m;

use std::env;
use std::ffi::OsString;
use std::path::Path;
use std::process::ExitCode;
use std::thread;

use arguments::{verb, Arguments};
use error::{status, Error, Outcome, Result};
use files::{Id, Replace, Target, Text};
use salvage::Looking;
use signals::{Signals, Woken};

fn main() -> ExitCode {
    let arguments: Vec<OsString> = env::args_os().skip(1).collect();
    let outcome = run(&arguments);
    match &outcome {
        Err(Error::Sentence(text)) => progress::say(text),
        Err(Error::Usage(text)) => progress::say(format!("{text}; see: reelpony help")),
        Err(Error::BrokenPipe) | Ok(_) => {}
    }
    status(&outcome)
}

fn run(arguments: &[OsString]) -> Result<Outcome> {
    let Some((first, rest)) = arguments.split_first() else {
        return Err(Error::Usage("a command is needed".into()));
    };
    match (first.to_str(), rest) {
        (Some("help" | "--help" | "-h"), []) => return show(help::ALL),
        (Some("help"), [name]) => return show(verb(name)?.help),
        (Some("--version" | "-V"), []) => {
            return show(concat!("reelpony ", env!("CARGO_PKG_VERSION")))
        }
        (Some("help"), _) => return Err(Error::Usage("help needs one command at most".into())),
        (Some(alone @ ("--help" | "-h" | "--version" | "-V")), _) => {
            return Err(Error::Usage(format!("{alone} stands alone")));
        }
        _ => {}
    }
    let verb = verb(first)?;
    let given = Arguments::read(verb, rest)?;
    if given.help {
        return show(verb.help);
    }
    let (like, size) = given.like_or_size()?;
    let (strict, json) = (given.is_given("--strict"), given.is_given("--json"));
    let looking = Looking { like, size, strict, json };
    signals::ignore_file_size();
    match (verb.name, &given.files[..]) {
        ("record", [from, to]) => {
            let (replace, quiet) = (given.replace()?, given.is_given("--quiet"));
            let sets_every = given.number("--sets-every")?;
            record::run(from, to, &record::Options { replace, sets_every, quiet })
        }
        ("list", [take]) => {
            not_onto(take, &looking)?;
            salvage::list(take, &looking)
        }
        ("check", [take]) => {
            not_onto(take, &looking)?;
            salvage::check(take, &looking)
        }
        ("extract", [from, to]) => {
            let (rate, replace) = (given.rate()?.unwrap_or(salvage::RATE), given.replace()?);
            let part = given.number("--part")?;
            leave_no_part();
            salvage::extract(from, to, rate, replace, part, &looking)
        }
        (_, [folder]) => demo::run(folder),
        _ => demo::run(Path::new("reelpony-demo")),
    }
}

/// Shows a text.
fn show(help: &str) -> Result<Outcome> {
    let mut text = Text::new()?;
    text.line(help)?;
    text.finish()?;
    Ok(Outcome::Complete)
}

/// An error if standard output is one of the takes that are read: what is said of a take is not
/// added to it.
fn not_onto(take: &Path, looking: &Looking) -> Result<()> {
    let read = [Id::of_path(take), looking.like.and_then(Id::of_path)];
    Target::find(Path::new("-"), &read, Replace::Never).map(|_| ())
}

/// From now on a signal that ends the program takes away what has no final name yet. Where signals
/// can't be caught, such a file is left.
fn leave_no_part() {
    let Ok(signals) = Signals::catch() else { return };
    thread::spawn(move || {
        if let Ok(Woken::Signal(signal)) = signals.wait(None, None) {
            files::abandon(|| signal.die());
        }
    });
}
