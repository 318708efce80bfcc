//! Times the writing and reading of 4096x2160 pictures beside a copy of the same samples, the crate
//! less-avc and ffmpeg, and prints a table.
//!
//! Usage: bench [--oracle-bench PROGRAM] [--rounds N]
//!
//! The crate is timed by the oracle's own bench, once before and once after; without
//! --oracle-bench it is looked for in target/oracle, or built there from ../shared/oracle.
//! Status 1: a call was refused, or the oracle's bench failed; 2: wrong usage.

mod ffmpeg;
mod frame;
mod less_avc;

use std::hint::black_box;
use std::path::PathBuf;
use std::process::ExitCode;
use std::time::Instant;

use common::OracleProgram;
use ffmpeg::Ffmpeg;
use frame::{Content, Frame, Kind, CONTENTS, HEIGHT, KINDS, WIDTH};
use less_avc::Times;
use reelpony::reader::{Answer, PlanesMut, Reader};
use reelpony::ycbcr_image::{DataPlane, Planes, YCbCrImage};
use reelpony::{next, start, BitDepth, Refusal};

/// Bytes behind each row in the lines that aren't tight, so that rows don't all begin at the same
/// place of a page.
const SLACK: usize = 64;

/// Pictures in a take that ffmpeg decodes, so that its start doesn't count for much.
const PICTURES: usize = 8;

/// What the command line asks for.
struct Options {
    oracle_bench: Option<PathBuf>,
    rounds: u32,
}

impl Options {
    fn parse(mut words: impl Iterator<Item = String>) -> Result<Options, String> {
        let mut options = Options { oracle_bench: None, rounds: 21 };
        while let Some(word) = words.next() {
            let value = words.next().ok_or(format!("{word} wants a value"))?;
            match word.as_str() {
                "--oracle-bench" => options.oracle_bench = Some(value.into()),
                "--rounds" => match value.parse() {
                    Ok(rounds) if rounds > 0 => options.rounds = rounds,
                    _ => return Err(format!("--rounds {value}: no number over 0")),
                },
                _ => return Err(format!("{word} is no option")),
            }
        }
        Ok(options)
    }
}

/// The least milliseconds that each way of writing took.
struct Writing {
    ample: f64,
    exact: f64,
    copy: f64,
}

/// The same for reading.
struct Reading {
    read: f64,
    copy: f64,
}

/// One line of the table.
struct Line {
    kind: Kind,
    content: Content,
    call: String,
    ms: f64,
    copy: f64,
    beside: Beside,
}

/// What a call is compared with.
#[derive(Clone, Copy)]
enum Beside {
    /// Rows that its bench doesn't have.
    Nothing,
    LessAvc,
    /// Its milliseconds, if it was timed.
    Ffmpeg(Option<f64>),
}

/// Milliseconds that `work` takes.
fn timed<T>(work: impl FnOnce() -> T) -> (f64, T) {
    let begun = Instant::now();
    let value = black_box(work());
    (begun.elapsed().as_secs_f64() * 1000.0, value)
}

/// Times next calls on the frame, with ample and with exact output, and the copy. They take turns,
/// so that a slow moment of the machine meets all of them; a first round only warms up.
fn writing(frame: &Frame, rounds: u32) -> Result<Writing, Refusal> {
    let image = frame.image();
    let samples = frame.samples();
    // So long that the room is sure: the worst escaping and the framing.
    let mut out = vec![1; samples * 2];
    let (_, mut session) = start(&image, &mut out)?;
    let length = next(&mut session, &image, &mut out)?;

    let mut least = Writing { ample: f64::INFINITY, exact: f64::INFINITY, copy: f64::INFINITY };
    for round in 0..rounds + 1 {
        let (ample, answer) = timed(|| next(&mut session, &image, &mut out));
        answer?;
        let (exact, answer) = timed(|| next(&mut session, &image, &mut out[..length]));
        answer?;
        let (copy, ()) = timed(|| frame.copy(&mut out[..samples]));
        black_box(&out);
        if round > 0 {
            least.ample = least.ample.min(ample);
            least.exact = least.exact.min(exact);
            least.copy = least.copy.min(copy);
        }
    }
    Ok(least)
}

/// A take with the frame several times.
fn take(frame: &Frame, pictures: usize) -> Result<Vec<u8>, Refusal> {
    let image = frame.image();
    let mut out = vec![0; frame.samples() * 2];
    let (length, mut session) = start(&image, &mut out)?;
    let mut take = out[..length].to_vec();
    for _ in 1..pictures {
        let length = next(&mut session, &image, &mut out)?;
        take.extend(&out[..length]);
    }
    Ok(take)
}

/// A take of one macroblock.
fn smallest_take() -> Result<Vec<u8>, Refusal> {
    let y = DataPlane { data: &[0x10; 256], stride: 16, bit_depth: BitDepth::Depth8 };
    let image = YCbCrImage { planes: Planes::Mono(y), width: 16, height: 16 };
    let mut out = vec![0; 286];
    start(&image, &mut out)?;
    Ok(out)
}

/// Times the reading of a take's first picture, both parameter sets read before, and the copy of
/// its samples, in turns.
fn reading(frame: &Frame, take: &[u8], rounds: u32) -> Result<Reading, String> {
    let mut held = Reader::new();
    for _ in 0..2 {
        if let Answer::Refused { refusal, .. } = held.read(take, PlanesMut::none()) {
            return Err(refusal.to_string());
        }
    }
    let [y_len, cb_len, _] = held.sps().ok_or("no SPS at a take's begin")?.plane_lengths();
    let mut wanted = vec![0; frame.samples()];
    frame.copy(&mut wanted);
    let mut room = vec![1; wanted.len()];

    let mut least = Reading { read: f64::INFINITY, copy: f64::INFINITY };
    for round in 0..rounds + 1 {
        let mut reader = held;
        let (y, chroma) = room.split_at_mut(y_len);
        let (cb, cr) = chroma.split_at_mut(cb_len);
        let (read, answer) = timed(|| reader.read(take, PlanesMut { y, cb, cr }));
        if !matches!(answer, Answer::Picture { .. }) {
            return Err(format!("no picture: {answer:?}"));
        }
        if round == 0 && room != wanted {
            return Err("other samples were read than written".into());
        }
        let (copy, ()) = timed(|| frame.copy(&mut room));
        black_box(&room);
        if round > 0 {
            least.read = least.read.min(read);
            least.copy = least.copy.min(copy);
        }
    }
    Ok(least)
}

impl Line {
    /// `theirs` has the crate's times.
    fn text(&self, theirs: &Times) -> String {
        let Line { kind, content, call, ms, copy, beside } = self;
        let (name, theirs) = match *beside {
            Beside::Nothing => ("", None),
            Beside::LessAvc => ("less-avc", theirs.of(*kind, *content)),
            Beside::Ffmpeg(theirs) => ("ffmpeg", theirs),
        };
        let beside = match theirs {
            Some(theirs) => format!("{name} {theirs:.2} | {:.1}", theirs / ms),
            None if name.is_empty() => "- | -".into(),
            None => format!("{name} not timed | -"),
        };
        let (kind, content, to_copy) = (kind.name(), content.name(), copy / ms);
        format!("| {kind} | {content} | {call} | {ms:.2} | {copy:.2} | {to_copy:.2} | {beside} |")
    }
}

/// The lines of a kind and content: writing with tight rows and with bytes behind each, reading.
fn lines(
    kind: Kind,
    content: Content,
    rounds: u32,
    ffmpeg: &Result<Ffmpeg, String>,
) -> Result<Vec<Line>, String> {
    let fault = |what: String| format!("{}, {}: {what}", kind.name(), content.name());
    let mut lines = Vec::new();
    for slack in [0, SLACK] {
        let frame = Frame::new(kind, content, slack);
        let written = writing(&frame, rounds).map_err(|refusal| fault(refusal.to_string()))?;
        let copy = written.copy;
        for (room, ms) in [("ample", written.ample), ("exact", written.exact)] {
            let (call, beside) = match slack {
                0 => (format!("write, {room}"), Beside::LessAvc),
                _ => (format!("write, {room}, rows +{slack}"), Beside::Nothing),
            };
            lines.push(Line { kind, content, call, ms, copy, beside });
        }
    }
    let frame = Frame::new(kind, content, 0);
    let take = take(&frame, PICTURES).map_err(|refusal| fault(refusal.to_string()))?;
    let Reading { read, copy } = reading(&frame, &take, rounds).map_err(fault)?;
    let decoded = ffmpeg.as_ref().ok().map(|ffmpeg| ffmpeg.time(&take));
    if let Some(Err(what)) = &decoded {
        println!("ffmpeg isn't timed on {}", fault(what.clone()));
    }
    let decoded = decoded.and_then(Result::ok).map(|ms| ms / PICTURES as f64);
    let (call, beside) = ("read".into(), Beside::Ffmpeg(decoded));
    lines.push(Line { kind, content, call, ms: read, copy, beside });
    Ok(lines)
}

/// Where the oracle's bench is, or what to say of its absence.
fn oracle_bench(given: Option<PathBuf>) -> Result<OracleProgram, String> {
    match given {
        Some(program) => Ok(OracleProgram::At(program)),
        None => common::oracle_program("bench"),
    }
}

fn run(options: Options) -> Result<(), String> {
    let program = match oracle_bench(options.oracle_bench)? {
        OracleProgram::At(program) => Some(program),
        OracleProgram::Absent(why) => {
            println!("The crate isn't timed: {why}.");
            None
        }
    };
    let ffmpeg = Ffmpeg::new();
    if let Err(why) = &ffmpeg {
        println!("ffmpeg isn't timed: {why}.");
    }
    let mut theirs = Times::default();
    if let Some(program) = &program {
        theirs.run(program)?;
    }

    let mut table = Vec::new();
    for kind in KINDS {
        for content in CONTENTS {
            table.extend(lines(kind, content, options.rounds, &ffmpeg)?);
        }
    }
    if let Some(program) = &program {
        theirs.run(program)?;
    }

    println!("{WIDTH}x{HEIGHT}, milliseconds a picture, best of {} rounds.", options.rounds);
    println!(
        "write: a next call; ample: output so long that no length is counted first; exact: no"
    );
    println!("byte to spare; rows +{SLACK}: so many bytes behind each row, otherwise none.");
    println!(
        "read: a picture's unit, both parameter sets held. memcpy: a copy of the same samples."
    );
    println!("less-avc: the crate, best of two runs of its bench.");
    println!("ffmpeg: its decoder, one thread, output thrown away: the whole process on a file of");
    println!("{PICTURES} pictures, divided by {PICTURES}, best of three runs.");
    if let Ok(ffmpeg) = &ffmpeg {
        let take = smallest_take().map_err(|refusal| refusal.to_string())?;
        let ms = ffmpeg.time(&take)?;
        println!("Its start is in that; on a file of one macroblock it takes {ms:.0} ms.");
    }
    println!("The columns with \"= 1\" are ratios of speed.");
    println!();
    println!("| kind | content | call | ms | memcpy ms | memcpy = 1 | beside ms | beside = 1 |");
    println!("|{}", "---|".repeat(8));
    for line in &table {
        println!("{}", line.text(&theirs));
    }
    Ok(())
}

fn main() -> ExitCode {
    let options = match Options::parse(std::env::args().skip(1)) {
        Ok(options) => options,
        Err(fault) => {
            eprintln!("bench: {fault}");
            return ExitCode::from(2);
        }
    };
    match run(options) {
        Ok(()) => ExitCode::SUCCESS,
        Err(fault) => {
            println!("FAILED: {fault}");
            ExitCode::FAILURE
        }
    }
}
