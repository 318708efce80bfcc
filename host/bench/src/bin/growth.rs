//! Times how writing and reading grow: with the number of a take's pictures, and with the size of
//! one. Prints two tables; where the last columns stay flat, the cost is a picture's or a byte's.
//!
//! Usage: growth
//!
//! Needs 1.5 GB of memory. Status 1: a call was refused, or other samples came back.

use std::process::ExitCode;
use std::time::{Duration, Instant};

use common::Noise;
use reelpony::reader::{Answer, PlanesMut, Reader};
use reelpony::ycbcr_image::{DataPlane, Planes, YCbCrImage};
use reelpony::{next, start, BitDepth};

/// Each line is the best of so many rounds.
const ROUNDS: usize = 3;

/// A monochrome picture without zero bytes.
struct Picture {
    side: (usize, usize),
    samples: Vec<u8>,
}

impl Picture {
    fn new(width: usize, height: usize) -> Picture {
        let mut noise = Noise::new(1, 0);
        let samples = (0..width * height).map(|_| 1 + noise.below(255) as u8).collect();
        Picture { side: (width, height), samples }
    }

    fn image(&self) -> YCbCrImage<'_> {
        let (width, height) = self.side;
        let y = DataPlane { data: &self.samples, stride: width, bit_depth: BitDepth::Depth8 };
        YCbCrImage { planes: Planes::Mono(y), width: width as u32, height: height as u32 }
    }
}

/// How long it takes to write a take of so many pictures into `out`, and its length.
fn write(picture: &Picture, pictures: usize, out: &mut [u8]) -> Result<(Duration, usize), String> {
    let image = picture.image();
    let begun = Instant::now();
    let (mut length, mut session) = start(&image, out).map_err(|refusal| refusal.to_string())?;
    for _ in 1..pictures {
        length += next(&mut session, &image, &mut out[length..]).map_err(|r| r.to_string())?;
    }
    Ok((begun.elapsed(), length))
}

/// How long it takes to read it to its end.
fn read(picture: &Picture, pictures: usize, take: &[u8], y: &mut [u8]) -> Result<Duration, String> {
    let mut reader = Reader::new();
    let mut met = 0;
    let begun = Instant::now();
    loop {
        match reader.read(take, PlanesMut { y, cb: &mut [], cr: &mut [] }) {
            Answer::End => break,
            Answer::Picture { .. } => met += 1,
            Answer::Refused { refusal, .. } => return Err(refusal.to_string()),
            Answer::Sps { .. } | Answer::Pps { .. } => {}
            other => return Err(format!("an answer that is not known here: {other:?}")),
        }
    }
    let took = begun.elapsed();
    match met == pictures && y == picture.samples {
        true => Ok(took),
        false => Err("other pictures were read than written".into()),
    }
}

/// The least time of writing and of reading.
fn best(
    picture: &Picture,
    pictures: usize,
    out: &mut [u8],
) -> Result<(Duration, Duration), String> {
    let mut y = vec![0; picture.samples.len()];
    let mut least = (Duration::MAX, Duration::MAX);
    for _ in 0..ROUNDS {
        let (written, length) = write(picture, pictures, out)?;
        let read = read(picture, pictures, &out[..length], &mut y)?;
        least = (least.0.min(written), least.1.min(read));
    }
    Ok(least)
}

fn run() -> Result<(), String> {
    let picture = Picture::new(640, 480);
    println!("Takes of 640x480, mono 8, no zero bytes; milliseconds, best of {ROUNDS} rounds.");
    println!();
    println!("| pictures | write | read | write a picture | read a picture |");
    println!("|{}", "---|".repeat(5));
    // Room for the longest, and so much more that no length is counted first.
    let mut out = vec![1; 1900 * 310_000 + 1_000_000];
    for pictures in [1, 10, 100, 1000, 1900] {
        let (written, read) = best(&picture, pictures, &mut out)?;
        let [written, read] = [written, read].map(|time| time.as_secs_f64() * 1e3);
        let each = pictures as f64;
        let (one_written, one_read) = (written / each, read / each);
        println!("| {pictures} | {written:.2} | {read:.2} | {one_written:.3} | {one_read:.3} |");
    }
    println!();
    println!(
        "One picture, mono 8, no zero bytes; milliseconds, and nanoseconds a byte of samples."
    );
    println!();
    println!("| size | write | read | write a byte | read a byte |");
    println!("|{}", "---|".repeat(5));
    for side in [16, 64, 256, 1024, 4096, 16384] {
        let picture = Picture::new(side, side);
        out.resize(picture.samples.len() * 3 / 2 + 1000, 1);
        let (written, read) = best(&picture, 1, &mut out)?;
        let bytes = picture.samples.len() as f64;
        let [a_byte, read_byte] = [written, read].map(|time| time.as_secs_f64() * 1e9 / bytes);
        let [written, read] = [written, read].map(|time| time.as_secs_f64() * 1e3);
        println!("| {side}x{side} | {written:.4} | {read:.4} | {a_byte:.2} | {read_byte:.2} |");
    }
    Ok(())
}

fn main() -> ExitCode {
    match run() {
        Ok(()) => ExitCode::SUCCESS,
        Err(fault) => {
            println!("FAILED: {fault}");
            ExitCode::FAILURE
        }
    }
}
