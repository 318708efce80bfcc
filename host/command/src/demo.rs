//! `demo`: a short shoot of each kind, written, cut, damaged and saved, with what came of it.

use std::fs;
use std::io::BufReader;
use std::path::Path;
use std::time::Instant;

use reelpony::reader::Sps;
use reelpony::BitDepth::{Depth12, Depth8};
use reelpony::Refusal;

use crate::error::{Error, Outcome, Result};
use crate::files::{Input, Name, Output, Replace, Text, Way};
use crate::progress::Progress;
use crate::record::{record, Broken};
use crate::salvage::{save_all, RATE};
use crate::scene::picture;
use crate::sheet::{sheet, Row};
use crate::y4m::{self, Source};
use reelpony::window::{What, Window};

const PICTURES: usize = 8;
const WIDTH: u32 = 320;
const HEIGHT: u32 = 180;
/// A damaged stretch: a sector of a disk.
const SECTOR: usize = 4096;
/// The picture in whose middle the other copy is cut.
const CUT: usize = 6;

/// A shoot and what happens to its damaged copy.
struct Shoot {
    name: &'static str,
    shape: Sps,
    damage: Damage,
    /// The picture that it hits, from 1 on.
    hit: usize,
}

#[derive(Clone, Copy)]
enum Damage {
    Zeros,
    Noise,
    Missing,
    Foreign,
}

impl Damage {
    fn words(self) -> &'static str {
        match self {
            Damage::Zeros => "a sector reads as zeros",
            Damage::Noise => "a sector reads as noise",
            Damage::Missing => "a sector is missing",
            Damage::Foreign => "a sector too many",
        }
    }

    /// Damages a stretch that begins at an index.
    fn apply(self, take: &mut Vec<u8>, at: usize) {
        let end = (at + SECTOR).min(take.len());
        let noise = (0..SECTOR as u32).map(|i| (i.wrapping_mul(0x9E37_79B1) >> 19) as u8);
        match self {
            Damage::Zeros => take[at..end].fill(0),
            Damage::Noise => drop(take.splice(at..end, noise)),
            Damage::Missing => drop(take.drain(at..end)),
            Damage::Foreign => drop(take.splice(at..at, noise)),
        }
    }
}

const fn shoot(
    name: &'static str,
    colour: bool,
    bit_depth: reelpony::BitDepth,
    damage: Damage,
    hit: usize,
) -> Shoot {
    let shape = Sps { width: WIDTH, height: HEIGHT, colour, bit_depth };
    Shoot { name, shape, damage, hit }
}

const SHOOTS: [Shoot; 4] = [
    shoot("mono8", false, Depth8, Damage::Zeros, 4),
    shoot("mono12", false, Depth12, Damage::Noise, 2),
    shoot("colour8", true, Depth8, Damage::Missing, 5),
    shoot("colour12", true, Depth12, Damage::Foreign, 7),
];

/// What was saved of a copy.
struct Saved {
    /// The pictures as the Y4M has them.
    pictures: Vec<Vec<u8>>,
    /// Why a part of the take was refused.
    lost: Vec<Refusal>,
}

/// The command.
pub fn run(folder: &Path) -> Result<Outcome> {
    let begun = Instant::now();
    let name = Name::of(folder, "-");
    let failed = |error| Error::Sentence(format!("the folder {name} can't be made: {error}"));
    fs::create_dir_all(folder).map_err(failed)?;
    if fs::read_dir(folder).map_err(failed)?.next().is_some() {
        return Error::sentence(format!(
            "the folder {name} is not empty; demo writes only to one that is, or isn't there yet"
        ));
    }
    let mut text = Text::new()?;
    text.line(format!(
        "Four shoots of {PICTURES} pictures, {WIDTH}x{HEIGHT}: written, cut, damaged and saved.\n"
    ))?;
    text.line(line("take", "what happened to it", "saved", "lost", "why", "equal"))?;
    let mut rows: Vec<Row> = Vec::new();
    let mut compared = 0;
    for shoot in &SHOOTS {
        let written: Vec<Vec<u8>> =
            (1..=PICTURES).map(|number| picture(&shoot.shape, number)).collect();
        let take = write(folder, shoot, &written)?;
        let places = places(&folder.join(shoot.name).with_extension("h264"))?;
        let middle = |number: usize| places.get(number - 1).map(|(at, length)| at + length / 2);
        let (Some(cut), Some(hit)) = (middle(CUT), middle(shoot.hit)) else {
            return Error::sentence(format!("the take {} lacks pictures", shoot.name));
        };
        let mut damaged = take.clone();
        shoot.damage.apply(&mut damaged, hit);
        let tries = [
            ("cut", format!("cut in picture {CUT}"), &take[..cut], CUT..=PICTURES),
            ("damaged", shoot.damage.words().into(), &damaged[..], shoot.hit..=shoot.hit),
        ];
        for (copy, what, bytes, gone) in tries {
            let name = format!("{}-{copy}", shoot.name);
            let Saved { pictures, lost } = salvage(folder, &name, bytes, &shoot.shape)?;
            // Each number is a picture that should be saved, in this order.
            let mut left = (1..=PICTURES).filter(|number| !gone.contains(number));
            let equal = pictures.iter().filter(|picture| {
                left.next().and_then(|number| written.get(number - 1)) == Some(*picture)
            });
            let equal = equal.count();
            let whole = PICTURES - gone.clone().count();
            let numbers = match gone.clone().count() {
                1 => gone.start().to_string(),
                _ => format!("{} to {}", gone.start(), gone.end()),
            };
            let why = lost.first().map_or(String::new(), Refusal::to_string);
            let share = |number: usize, all: usize| format!("{number} of {all}");
            let saved = share(pictures.len(), PICTURES);
            text.line(line(&name, &what, &saved, &numbers, &why, &share(equal, pictures.len())))?;
            if pictures.len() != whole || equal != whole || lost.is_empty() {
                text.finish()?;
                return Error::sentence(format!("{name} was not saved as it should be"));
            }
            let bytes_each = if shoot.shape.bit_depth == Depth12 { 2 } else { 1 };
            compared += pictures.iter().map(|picture| picture.len() / bytes_each).sum::<usize>();
            if copy == "damaged" {
                let mut pictures = pictures.into_iter();
                let slots =
                    (1..=PICTURES)
                        .map(|number| if gone.contains(&number) { None } else { pictures.next() });
                rows.push((shoot.shape, slots.collect()));
            }
        }
    }
    let sheet_path = folder.join("contact-sheet.png");
    create(&sheet_path, &sheet(&rows).png())?;
    let folder = fs::canonicalize(folder).unwrap_or_else(|_| folder.into());
    text.line(format!(
        "\nEvery saved picture is equal to what was written, sample for sample: {compared} samples \
         compared.\nThe damaged takes with the lost pictures marked: {}\nAll files: {} ({:.1} s)",
        Name::of(&folder.join("contact-sheet.png"), ""),
        Name::of(&folder, ""),
        begun.elapsed().as_secs_f32()
    ))?;
    text.finish()?;
    Ok(Outcome::Complete)
}

/// A line of the table.
fn line(take: &str, what: &str, saved: &str, lost: &str, why: &str, equal: &str) -> String {
    format!("{take:<17} {what:<24} {saved:<7} {lost:<7} {equal:<7} {why}")
}

/// Begins a file of the demo, which isn't there yet.
fn begin(path: &Path) -> Result<Output> {
    Output::create(path, &[], Replace::Never, Way::Straight)
}

fn create(path: &Path, bytes: &[u8]) -> Result<()> {
    let mut output = begin(path)?;
    output.write(bytes)?;
    output.finish()
}

/// Writes a shoot as Y4M and records it from there. Answers the take.
fn write(folder: &Path, shoot: &Shoot, pictures: &[Vec<u8>]) -> Result<Vec<u8>> {
    let raw = folder.join(shoot.name).with_extension("y4m");
    let mut output = begin(&raw)?;
    output.write(y4m::header(&shoot.shape, RATE).as_bytes())?;
    for picture in pictures {
        output.write(b"FRAME\n")?;
        output.write(picture)?;
    }
    output.finish()?;

    let input = Input::open(&raw)?;
    let mut source = Source::open(BufReader::new(input.file), &input.name)?;
    let take = folder.join(shoot.name).with_extension("h264");
    let mut output = begin(&take)?;
    let recorded = record(&mut source, &mut output, None, &mut Progress::new(None));
    if let Some(Broken::Source(error) | Broken::Other(error)) = recorded.broken {
        return Err(error);
    }
    output.finish()?;
    fs::read(&take).map_err(|error| Error::reading(Name::of(&take, ""), error))
}

/// Where the pictures of a take begin, and how long they are.
fn places(take: &Path) -> Result<Vec<(usize, usize)>> {
    let input = Input::open(take)?;
    let mut window = Window::new(input.file);
    let mut places = Vec::new();
    while let Some(found) = window.next().map_err(|error| Error::reading(&input.name, error))? {
        if found.what == What::Picture {
            places.push((found.offset as usize, found.length as usize));
        }
    }
    Ok(places)
}

/// Writes a bad copy of a take and saves from it what can be saved.
fn salvage(folder: &Path, name: &str, bytes: &[u8], shape: &Sps) -> Result<Saved> {
    let take = folder.join(name).with_extension("h264");
    create(&take, bytes)?;
    let raw = folder.join(name).with_extension("y4m");
    let lost = save_all(&take, &raw)?;

    let saved = fs::read(&raw).map_err(|error| Error::reading(Name::of(&raw, ""), error))?;
    let bytes_each = if shape.bit_depth == Depth12 { 2 } else { 1 };
    let samples: usize = y4m::visible(shape).iter().map(|(across, down)| across * down).sum();
    let pictures = saved.get(y4m::header(shape, RATE).len()..).unwrap_or(&[]);
    let pictures = pictures.chunks(6 + samples * bytes_each);
    let pictures = pictures.map(|frame| frame.strip_prefix(b"FRAME\n").unwrap_or(frame).to_vec());
    Ok(Saved { pictures: pictures.collect(), lost })
}
