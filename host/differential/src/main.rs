//! Gives the library, the crate less-avc (by way of the oracle) and a plain writer the same random
//! calls, and compares bytes, lengths, refusals, and what a call must leave as it was.
//!
//! Usage: differential [--oracle PROGRAM] [--seed N] [--takes N] [--take N]
//!
//! Without --oracle it is looked for in target/oracle, or built there from ../shared/oracle. Without
//! any, the plain table and writer decide alone. --take makes one take of a run again. Status 0: all
//! alike; 1: a difference, or too little was compared; 2: wrong usage.

mod call;
mod draw;
mod oracle;
mod plain;

use std::collections::BTreeMap;
use std::ops::Range;
use std::path::PathBuf;
use std::process::ExitCode;

use call::Call;
use common::{Noise, OracleProgram};
use oracle::{Oracle, Told};
use plain::Fault;
use reelpony::ffi;

/// What the command line asks for.
struct Options {
    oracle: Option<PathBuf>,
    seed: u64,
    takes: Range<u64>,
}

impl Options {
    fn parse(mut words: impl Iterator<Item = String>) -> Result<Options, String> {
        let mut options = Options { oracle: None, seed: 1, takes: 0..3000 };
        while let Some(word) = words.next() {
            let value = words.next().ok_or(format!("{word} wants a value"))?;
            let number = || value.parse().map_err(|_| format!("{word} {value}: no number"));
            match word.as_str() {
                "--oracle" => options.oracle = Some(value.into()),
                "--seed" => options.seed = number()?,
                "--takes" => options.takes = 0..number()?,
                "--take" => {
                    let take: u64 = number()?;
                    options.takes = take..take.saturating_add(1);
                }
                _ => return Err(format!("{word} is no option")),
            }
        }
        Ok(options)
    }
}

/// What a call has to answer and leave.
struct Expected<'a> {
    number: u32,
    length: u64,
    /// What it writes.
    bytes: &'a [u8],
    session: [u32; 8],
}

/// The first call that something else came of, and what.
struct Difference {
    what: String,
    session: [u32; 8],
    request: String,
}

/// The answers that a run counts, and the kinds of call.
const NUMBERS: [u32; 11] = [0, 1, 2, 3, 4, 5, 6, 7, 8, 9, 99];
const KINDS: [&str; 6] = ["mono 8", "mono 12", "colour 8", "colour 12", "mixed", "no kind"];

/// A run so far.
struct Run {
    oracle: Option<Oracle>,
    /// Calls by kind and answer.
    calls: BTreeMap<(&'static str, u32), u64>,
    /// Calls whose answer the crate gave too.
    by_crate: u64,
    /// Calls that the crate has no test for, and went astray with as its README says.
    astray: u64,
    /// Calls that the crate wasn't asked about.
    unasked: u64,
}

impl Run {
    /// Asks the crate, if it can be asked, and compares its answer with what the plain table tells
    /// of it; `bytes` are the plain writer's.
    fn ask(&mut self, call: &Call, faults: &[Fault], bytes: &[u8]) -> Result<Option<Told>, String> {
        let Some(oracle) = &mut self.oracle else { return Ok(None) };
        if !Oracle::knows(call, faults) {
            return Ok(None);
        }
        let told = oracle::told(call, faults);
        let answer = oracle.answer(call, faults).map_err(|error| format!("the oracle: {error}"))?;
        if told.fits(&answer, bytes) {
            Ok(Some(told))
        } else {
            Err(format!("the crate gives {}, not {}", answer.name(), told.name()))
        }
    }

    /// Makes the call, with several outputs if it has no fault, and compares each time. Answers the
    /// session that it leaves if it is accepted, or what differed.
    fn compare(&mut self, noise: &mut Noise, call: &Call) -> Result<Option<[u32; 8]>, String> {
        let faults = plain::faults(call);
        let refusal = faults.first().map(|fault| fault.number);
        let bytes = if refusal.is_none() { plain::bytes(call) } else { Vec::new() };
        let told = self.ask(call, &faults, &bytes)?;

        let length = bytes.len();
        let rooms = match refusal {
            Some(_) => vec![noise.pick(&[0, 1, 100, 10_000])],
            None => {
                let short = noise.below(length as u64) as usize;
                let near = length + noise.below(64) as usize;
                vec![short, length - 1, length, noise.pick(&[near, length * 2 + 1000])]
            }
        };
        for room in rooms {
            let (number, session) = match refusal {
                Some(number) => (number, call.session),
                None if room < length => (9, call.session),
                None => (0, plain::session(call)),
            };
            let written = if number == 0 { &bytes[..] } else { &[] };
            let expected = Expected { number, length: length as u64, bytes: written, session };
            try_once(call, room, noise.below(256) as u8, &expected)
                .map_err(|what| format!("{what} (output of {room} bytes)"))?;
            *self.calls.entry((call.kind(), number)).or_default() += 1;
            match told {
                Some(Told::Bytes) => self.by_crate += 1,
                Some(Told::Refused(number)) if Some(number) == refusal => self.by_crate += 1,
                Some(_) => self.astray += 1,
                None => self.unasked += 1,
            }
        }
        Ok(refusal.is_none().then(|| plain::session(call)))
    }

    /// Some calls, each in the session that the last accepted one left: mostly a start call until
    /// one is accepted, then next calls.
    fn take(&mut self, mut noise: Noise) -> Result<(), Difference> {
        let mut started = false;
        let mut session = draw::stray_session(&mut noise);
        for _ in 0..1 + noise.below(6) {
            let other = noise.once_in(8);
            let call = draw::call(&mut noise, started != other, session);
            match self.compare(&mut noise, &call) {
                Ok(Some(left)) => (started, session) = (true, left),
                Ok(None) => {}
                Err(what) => return Err(Difference { what, session, request: call.request() }),
            }
        }
        Ok(())
    }

    /// How often a kind of call got an answer.
    fn count(&self, kind: &'static str, number: u32) -> u64 {
        self.calls.get(&(kind, number)).copied().unwrap_or(0)
    }

    /// Calls by kind and answer, as a table.
    fn table(&self) -> String {
        let row = |name: &str, cells: [String; 11]| format!("| {name} | {} |\n", cells.join(" | "));
        let mut table = row("calls answered with", NUMBERS.map(|number| number.to_string()));
        table += &row("---", NUMBERS.map(|_| "---".into()));
        for kind in KINDS {
            table += &row(kind, NUMBERS.map(|number| self.count(kind, number).to_string()));
        }
        table
    }

    /// What keeps the run from counting as a test: nothing compared, or, in a run of some length,
    /// an answer that no call got or a crate that never gave one.
    fn lack(&self, takes: u64) -> Option<String> {
        let met = |number: &u32| KINDS.iter().any(|kind| self.count(kind, *number) > 0);
        let unmet = NUMBERS.iter().find(|number| !met(number));
        match unmet {
            _ if self.calls.is_empty() => Some("nothing was compared".into()),
            _ if takes < 1000 => None,
            Some(number) => Some(format!("no call was to be answered with {number}")),
            None if self.oracle.is_some() && self.by_crate == 0 => {
                Some("nothing was compared with the crate".into())
            }
            None => None,
        }
    }
}

/// Makes the call once, with an output of `room` bytes, and compares all that it answers and
/// leaves. `salt` decides what the output held before and how it is aligned.
fn try_once(call: &Call, room: usize, salt: u8, expected: &Expected) -> Result<(), String> {
    // Bytes on both sides of the output, which no call may touch.
    let margin = 64 + usize::from(salt % 16);
    let old = |i: usize| (i as u8).wrapping_mul(151) ^ (i >> 8) as u8 ^ salt;
    let mut whole: Vec<u8> = (0..margin + room + margin).map(old).collect();
    let mut wanted = whole.clone();
    wanted[margin..margin + expected.bytes.len()].copy_from_slice(expected.bytes);
    let mut session = call.session;

    let out = &mut whole[margin..margin + room];
    let export = if call.next { ffi::next } else { ffi::start };
    let answer = export(&call.picture(), out, &mut session);

    let (number, length) = (expected.number, expected.length);
    if answer.number != number {
        return Err(format!("the library answers {}, not {number}", answer.number));
    }
    if answer.length != length {
        let found = answer.length;
        return Err(format!("answer {number}: the library says length {found}, not {length}"));
    }
    if session != expected.session {
        let wanted = expected.session;
        return Err(format!("answer {number}: it leaves session {session:?}, not {wanted:?}"));
    }
    if let Some(at) = (0..whole.len()).find(|&i| whole[i] != wanted[i]) {
        let (found, wanted, place) = (whole[at], wanted[at], at as i64 - margin as i64);
        return Err(format!(
            "answer {number}: byte {place} of the output is {found:02x}, not {wanted:02x}; {} were \
             to be written",
            expected.bytes.len()
        ));
    }
    Ok(())
}

/// Starts the oracle, and says which, or says why there is none.
fn open_oracle(given: Option<PathBuf>) -> Result<Option<Oracle>, String> {
    let found = match given {
        Some(program) => OracleProgram::At(program),
        None => common::oracle_program("oracle")?,
    };
    match found {
        OracleProgram::At(program) => {
            println!("oracle: {}", program.display());
            let oracle = Oracle::new(&program);
            Ok(Some(oracle.map_err(|error| format!("{}: {error}", program.display()))?))
        }
        OracleProgram::Absent(why) => {
            println!("oracle: not run, {why}; the plain table and writer decide alone");
            Ok(None)
        }
    }
}

/// A request with its planes' digits, or without most of them where they would fill the screen.
fn shown(request: &str, whole: bool) -> String {
    const ENOUGH: usize = 600;
    let cut = |word: &str| match word.get(..ENOUGH) {
        Some(front) if !whole => format!("{front}..({} bytes)", word.len() / 2),
        _ => word.to_string(),
    };
    request.split(' ').map(cut).collect::<Vec<_>>().join(" ")
}

/// Compares all takes, and prints what was compared or the first difference.
fn run(options: Options) -> Result<(), String> {
    let oracle = open_oracle(options.oracle)?;
    let (seed, takes) = (options.seed, options.takes);
    let count = takes.end - takes.start;
    println!("seed {seed}, takes {takes:?}");
    let mut run = Run { oracle, calls: BTreeMap::new(), by_crate: 0, astray: 0, unasked: 0 };
    for take in takes {
        if let Err(Difference { what, session, request }) = run.take(Noise::new(seed, take)) {
            println!("session {session:?}");
            println!("{}", shown(&request, count == 1));
            println!("again, with every digit: the same with --seed {seed} --take {take}");
            return Err(format!("a difference in take {take}: {what}"));
        }
    }
    print!("{}", run.table());
    let Run { by_crate, astray, unasked, .. } = run;
    println!(
        "{} calls: {by_crate} compared with the crate and the plain writer; {} with the plain table \
         and writer alone (the crate has no test in {astray}, and wasn't asked in {unasked})",
        by_crate + astray + unasked,
        astray + unasked
    );
    run.lack(count).map_or(Ok(()), Err)
}

fn main() -> ExitCode {
    let options = match Options::parse(std::env::args().skip(1)) {
        Ok(options) => options,
        Err(fault) => {
            eprintln!("differential: {fault}");
            return ExitCode::from(2);
        }
    };
    match run(options) {
        Ok(()) => {
            println!("ok");
            ExitCode::SUCCESS
        }
        Err(what) => {
            println!("FAILED: {what}");
            ExitCode::FAILURE
        }
    }
}
