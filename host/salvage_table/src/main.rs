//! Damages takes in the ways of docs/SALVAGE.md, lets the command `reelpony extract` and ffmpeg save
//! what they can, and prints that page's table, ours beside ffmpeg's.
//!
//! Usage: salvage_table [--all] [FOLDER]
//!
//! The table is of one shoot. A second one, of tiny cropped pictures, is damaged in the same ways and
//! only checked; with --all two more, of the other kinds. The files stand for a while in FOLDER, or
//! else in the build's folder, and each row is told on standard error. Status 0: in no row did ffmpeg
//! save a picture that we did not, and we handed out none unmarked that differs from what was
//! written, other than changed samples and joined pictures; 1: that failed, and the last lines say
//! where; 2: wrong usage, or it could not be run; 77: ffmpeg (Debian package ffmpeg) is missing, and
//! ours alone is right.

#![forbid(unsafe_code)]

mod damage;
mod figures;
mod md5;
mod savers;
mod shoot;

use std::collections::BTreeSet;
use std::env;
use std::fs;
use std::path::PathBuf;
use std::process::{self, ExitCode};
use std::time::Instant;

use reelpony::reader::Sps;
use reelpony::BitDepth::{self, Depth12, Depth8};

use damage::{rows, Row};
use figures::{Figures, Run};
use shoot::size;

/// What can go wrong, in words.
type Outcome<T> = Result<T, String>;

const fn shape(width: u32, height: u32, colour: bool, bit_depth: BitDepth) -> Sps {
    Sps { width, height, colour, bit_depth }
}

/// The table's shoot, the one that is only checked, and those that --all adds.
const SHOOTS: [Sps; 4] = [
    shape(320, 176, true, Depth8),
    shape(34, 18, false, Depth12),
    shape(49, 31, false, Depth8),
    shape(36, 34, true, Depth12),
];

const HEAD: &str = "\
| what happened | written | untouched | reader alone | ours | marked | differ | differ, marked | ffmpeg | differ | ffmpeg alone |
|---|---|---|---|---|---|---|---|---|---|---|";

/// A row of the table: sums over its files, a line where there are none. Where the files are
/// several, the least that was saved of one stands behind what we and ffmpeg saved.
fn line(row: &Row, files: &[&Figures]) -> String {
    type Figure<'a> = &'a dyn Fn(&Figures) -> Option<usize>;
    let sum = |figure: Figure| files.iter().map(|file| figure(file)).sum::<Option<usize>>();
    let cell = |figure: Figure| sum(figure).map_or("-".into(), |number| number.to_string());
    let with_least = |figure: Figure| match files.iter().filter_map(|file| figure(file)).min() {
        Some(least) if files.len() > 1 => format!("{}, least {least}", cell(figure)),
        _ => cell(figure),
    };
    let differing: Figure = &|file| Some(file.ours.as_ref()?.differing);
    let differing = match (row.may_differ, sum(differing)) {
        (Some(why), Some(1..)) => format!("{} ({why})", cell(differing)),
        _ => cell(differing),
    };
    let cells = [
        row.words.clone(),
        cell(&|file| Some(file.written)),
        cell(&|file| Some(file.untouched)),
        cell(&|file| Some(file.strict.as_ref()?.equal.len())),
        with_least(&|file| Some(file.ours.as_ref()?.equal.len())),
        cell(&|file| Some(file.ours.as_ref()?.marked)),
        differing,
        cell(&|file| Some(file.ours.as_ref()?.differing_marked)),
        with_least(&|file| Some(file.ffmpeg.as_ref()?.equal.len())),
        cell(&|file| Some(file.ffmpeg.as_ref()?.differing)),
        cell(&|file| file.ffmpeg.as_ref().map(|_| file.theirs_alone().len())),
    ];
    format!("| {} |", cells.join(" | "))
}

/// `1, 5 to 8, 20`.
fn ranges(numbers: &[usize]) -> String {
    let mut ranges: Vec<(usize, usize)> = Vec::new();
    for &number in numbers {
        match ranges.last_mut() {
            Some((_, end)) if *end + 1 == number => *end = number,
            _ => ranges.push((number, number)),
        }
    }
    let words = ranges.into_iter().map(|(begin, end)| match begin == end {
        true => begin.to_string(),
        false => format!("{begin} to {end}"),
    });
    words.collect::<Vec<_>>().join(", ")
}

/// What does not hold in a row, a sentence each.
fn judge(row: &Row, files: &[Figures]) -> Vec<String> {
    let [mut alone, mut differing, mut wrong] = [vec![], vec![], vec![]];
    for (case, file) in row.cases.iter().zip(files) {
        let at = |what: String| match &case.words[..] {
            "" => what,
            words => format!("{words} ({what})"),
        };
        let theirs_alone = file.theirs_alone();
        if !theirs_alone.is_empty() {
            alone.push(at(ranges(&theirs_alone)));
        }
        let most = match (row.may_differ, &case.unseen) {
            (_, Some(_)) => file.written,
            (Some(_), None) => file.written - file.untouched,
            (None, None) => 0,
        };
        match file.ours.as_ref().map_or(0, |ours| ours.differing) {
            number if number > most => differing.push(at(format!("{number}, {most} may"))),
            _ => {}
        }
        wrong.extend(file.wrong.iter().map(|what| at(what.clone())));
    }
    let name = format!("{}, {}", size(&row.take.shape), row.words);
    let sentence = |what: &str, places: Vec<String>| {
        (!places.is_empty()).then(|| format!("{name}: {what}{}", places.join("; ")))
    };
    let sentences = [
        sentence("only ffmpeg saves: ", alone),
        sentence("unmarked, but not as written: ", differing),
        sentence("", wrong),
    ];
    sentences.into_iter().flatten().collect()
}

/// The parameter sets of a row that read as another size, which nothing tells.
fn unseen(row: &Row) -> Vec<String> {
    let files = row.cases.iter();
    let read = files.filter_map(|case| Some(format!("{} ({})", case.words, case.unseen.as_ref()?)));
    read.collect()
}

/// Prints the table and what failed. Answers whether everything holds.
fn run(shapes: &[Sps], run: &Run) -> Outcome<bool> {
    let mut failed = Vec::new();
    let mut no_options = BTreeSet::new();
    for (i, shape) in shapes.iter().enumerate() {
        let begun = Instant::now();
        let name = size(shape);
        let rows = rows(*shape)?;
        let all = run.try_rows(&rows, |row, files| eprintln!("{name} {}", line(row, files)))?;
        eprintln!("{name} took {:.1} s", begun.elapsed().as_secs_f32());
        if i == 0 {
            println!("{HEAD}");
        }
        for (row, files) in rows.iter().zip(&all) {
            if i == 0 {
                println!("{}", line(row, &files.iter().collect::<Vec<_>>()));
            }
            failed.extend(judge(row, files));
            no_options.extend(files.iter().flat_map(|file| file.no_options.clone()));
        }
        let unseen: Vec<String> = rows.iter().flat_map(unseen).collect();
        if !unseen.is_empty() {
            println!("\n{name}, another size that nothing tells: {}.", unseen.join("; "));
        }
    }
    failed.extend(no_options.iter().map(|option| format!("extract has no option {option}")));
    if !failed.is_empty() {
        println!();
    }
    failed.iter().for_each(|sentence| println!("FAILED: {sentence}"));
    Ok(failed.is_empty())
}

/// A folder of this run's own, below the given one or the build's.
fn folder(given: Option<PathBuf>) -> PathBuf {
    let built = || match env::var_os("CARGO_TARGET_DIR") {
        Some(folder) => folder.into(),
        None => common::root().join("target/host"),
    };
    given.unwrap_or_else(built).join(format!("salvage_table-{}", process::id()))
}

fn main() -> ExitCode {
    let mut shapes = &SHOOTS[..2];
    let mut given = None;
    for argument in env::args_os().skip(1) {
        match argument.to_str() {
            Some("--all") => shapes = &SHOOTS,
            Some(option) if option.starts_with('-') => {
                eprintln!("salvage_table: there is no option {option}");
                return ExitCode::from(2);
            }
            _ if given.is_some() => {
                eprintln!("salvage_table: one folder at most");
                return ExitCode::from(2);
            }
            _ => given = Some(argument.into()),
        }
    }
    let (folder, has_ffmpeg) = (folder(given), savers::has_ffmpeg());
    let outcome = savers::command()
        .and_then(|command| run(shapes, &Run { command, folder: folder.clone(), has_ffmpeg }));
    let _ = fs::remove_dir_all(&folder);
    match outcome {
        Ok(true) if has_ffmpeg => ExitCode::SUCCESS,
        Ok(true) => {
            println!("\nffmpeg: not run, it is missing (Debian package ffmpeg)");
            ExitCode::from(77)
        }
        Ok(false) => ExitCode::FAILURE,
        Err(what) => {
            eprintln!("salvage_table: {what}");
            ExitCode::from(2)
        }
    }
}

#[cfg(test)]
mod tests {
    use super::*;
    use damage::{tests::tiny, Case};
    use figures::{Ours, Theirs};

    #[test]
    fn numbers() {
        assert_eq!(ranges(&[]), "");
        assert_eq!(ranges(&[1, 5, 6, 7, 9, 10]), "1, 5 to 7, 9 to 10");
    }

    /// Each promise that is broken is told, and nothing else.
    #[test]
    fn judged() {
        let case = Case { words: String::new(), edits: vec![], unseen: None };
        let (words, take) = ("a row".into(), tiny().into());
        let mut row = Row { words, take, cases: vec![case], options: vec![], may_differ: None };
        let figures = |theirs: &[usize], differing: usize| {
            let equal = [0, 2].into();
            let ours = Some(Ours { equal, marked: 1, differing, differing_marked: 1 });
            let ffmpeg = Some(Theirs { equal: theirs.iter().copied().collect(), differing: 2 });
            [Figures { written: 4, untouched: 3, ours, ffmpeg, ..Figures::default() }]
        };
        assert_eq!(judge(&row, &figures(&[0, 2], 0)), [""; 0]);
        let alone = ["16x10:mono, a row: only ffmpeg saves: 2, 4"];
        assert_eq!(judge(&row, &figures(&[0, 1, 3], 0)), alone);
        let differing = ["16x10:mono, a row: unmarked, but not as written: 1, 0 may"];
        assert_eq!(judge(&row, &figures(&[2], 1)), differing);
        row.may_differ = Some("changed samples");
        assert_eq!(judge(&row, &figures(&[2], 1)), [""; 0]);
        let differing = ["16x10:mono, a row: unmarked, but not as written: 2, 1 may"];
        assert_eq!(judge(&row, &figures(&[2], 2)), differing);
        row.cases[0].unseen = Some("16x12:mono".into());
        assert_eq!(judge(&row, &figures(&[2], 4)), [""; 0]);
    }
}
