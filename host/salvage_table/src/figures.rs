//! The figures of the table: what the command and ffmpeg save of each damaged file.

use std::collections::{BTreeSet, HashMap};
use std::fs;
use std::path::PathBuf;
use std::sync::atomic::{AtomicUsize, Ordering};
use std::sync::Mutex;
use std::thread;

use crate::damage::{Case, Row};
use crate::md5::Md5;
use crate::savers::{self, Saved, Unable};
use crate::shoot::{size, Take};
use crate::Outcome;

/// What was saved of a damaged file.
#[derive(Default)]
pub struct Figures {
    pub written: usize,
    pub untouched: usize,
    /// None where the command could not do it.
    pub ours: Option<Ours>,
    /// The same with the option --strict, which leaves second looks out.
    pub strict: Option<Ours>,
    /// None where ffmpeg is missing.
    pub ffmpeg: Option<Theirs>,
    /// Options that the command does not have, and what else it did wrong.
    pub no_options: Vec<String>,
    pub wrong: Vec<String>,
}

/// What the command saved.
#[derive(Default)]
pub struct Ours {
    /// The indices of the pictures that it handed out as they were written.
    pub equal: BTreeSet<usize>,
    /// How many of them are marked.
    pub marked: usize,
    /// Pictures that differ from what was written, unmarked and marked.
    pub differing: usize,
    pub differing_marked: usize,
}

/// What ffmpeg saved.
#[derive(Default)]
pub struct Theirs {
    /// The indices of the pictures that came out as they were written, in all ways together.
    pub equal: BTreeSet<usize>,
    /// Pictures that differ, in the way that has the most equal ones.
    pub differing: usize,
}

impl Figures {
    /// The numbers of the pictures that only ffmpeg has, from 1 on.
    pub fn theirs_alone(&self) -> Vec<usize> {
        let is_ours = |index| self.ours.as_ref().is_some_and(|ours| ours.equal.contains(index));
        let theirs = self.ffmpeg.iter().flat_map(|theirs| &theirs.equal);
        theirs.filter(|index| !is_ours(index)).map(|index| index + 1).collect()
    }
}

impl Ours {
    /// A picture is equal if it is one that was written and stands behind the last equal one.
    fn of(take: &Take, indices: &HashMap<Md5, usize>, saved: &[Saved]) -> Ours {
        let mut ours = Ours::default();
        for Saved { picture, marked } in saved {
            let index = indices.get(&picture.md5).copied();
            let index = index.filter(|&index| take.written[index] == *picture);
            match index.filter(|&index| ours.equal.last().is_none_or(|&last| index > last)) {
                Some(index) => {
                    ours.equal.insert(index);
                    ours.marked += usize::from(*marked);
                }
                None if *marked => ours.differing_marked += 1,
                None => ours.differing += 1,
            }
        }
        ours
    }
}

/// Where the command is, where the files go, and whether ffmpeg is there.
pub struct Run {
    pub command: PathBuf,
    pub folder: PathBuf,
    pub has_ffmpeg: bool,
}

impl Run {
    /// Damages a take in one way and counts what is saved.
    fn try_case(&self, row: &Row, case: &Case, name: &str) -> Outcome<Figures> {
        let folder = self.folder.join(name);
        let wrong = |error: std::io::Error| format!("{}: {error}", folder.display());
        fs::create_dir_all(&folder).map_err(wrong)?;
        let file = folder.join("take.h264");
        fs::write(&file, case.bytes(&row.take)).map_err(wrong)?;
        let written = &row.take.written;
        let indices: HashMap<Md5, usize> =
            written.iter().enumerate().map(|(index, written)| (written.md5, index)).collect();
        let mut figures = Figures {
            written: written.len(),
            untouched: case.untouched(&row.take),
            ..Figures::default()
        };
        let mut extract = |options: &[String]| {
            match savers::ours(&self.command, &file, &folder.join("out"), options) {
                Ok(saved) => return Some(Ours::of(&row.take, &indices, &saved)),
                Err(Unable::NoOption(option)) => figures.no_options.push(option),
                Err(Unable::Wrong(what)) => figures.wrong.push(what),
            }
            None
        };
        let strict = [&row.options[..], &["--strict".into()]].concat();
        (figures.ours, figures.strict) = (extract(&row.options), extract(&strict));
        if self.has_ffmpeg {
            let mut all = Theirs::default();
            let mut most = None;
            for way in savers::WAYS {
                let saved = savers::ffmpeg(way, &file, row.take.shape.colour)?;
                let equal = saved.iter().filter_map(|md5| indices.get(md5).copied());
                let equal: BTreeSet<usize> = equal.collect();
                if most.is_none_or(|most| equal.len() > most) {
                    most = Some(equal.len());
                    all.differing = saved.len() - equal.len();
                }
                all.equal.extend(equal);
            }
            figures.ffmpeg = Some(all);
        }
        fs::remove_dir_all(&folder).map_err(wrong)?;
        Ok(figures)
    }

    /// The figures of each file of each row, as many at a time as there are processors. A row whose
    /// last file is done is told.
    pub fn try_rows(
        &self,
        rows: &[Row],
        told: impl Fn(&Row, &[&Figures]) + Sync,
    ) -> Outcome<Vec<Vec<Figures>>> {
        let files: Vec<(usize, usize)> = rows
            .iter()
            .enumerate()
            .flat_map(|(r, row)| (0..row.cases.len()).map(move |c| (r, c)))
            .collect();
        let next = AtomicUsize::new(0);
        let none = |row: &Row| row.cases.iter().map(|_| None).collect();
        let done: Mutex<Vec<Vec<Option<Outcome<Figures>>>>> =
            Mutex::new(rows.iter().map(none).collect());
        let work = || {
            while let Some(&(r, c)) = files.get(next.fetch_add(1, Ordering::Relaxed)) {
                let figures = self.try_case(&rows[r], &rows[r].cases[c], &format!("{r}-{c}"));
                let mut done = done.lock().unwrap_or_else(|poisoned| poisoned.into_inner());
                done[r][c] = Some(figures);
                let figures: Vec<&Figures> = done[r].iter().flatten().flatten().collect();
                if figures.len() == rows[r].cases.len() {
                    told(&rows[r], &figures);
                }
            }
        };
        let workers = thread::available_parallelism().map_or(1, |number| number.get());
        thread::scope(|scope| {
            for _ in 0..workers {
                scope.spawn(work);
            }
        });
        let done = done.into_inner().unwrap_or_else(|poisoned| poisoned.into_inner());
        let named = |row: &Row, case: &Case, what: String| {
            format!("{}, {} {}: {what}", size(&row.take.shape), row.words, case.words)
        };
        let row = |(row, results): (&Row, Vec<Option<Outcome<Figures>>>)| {
            let figures = row.cases.iter().zip(results).map(|(case, result)| {
                let result = result.unwrap_or_else(|| Err("not run".into()));
                result.map_err(|what| named(row, case, what))
            });
            figures.collect()
        };
        rows.iter().zip(done).map(row).collect()
    }
}

#[cfg(test)]
mod tests {
    use super::*;
    use crate::damage::tests::tiny;
    use crate::shoot::Written;

    /// A picture counts once, in rising order, and in its own size only.
    #[test]
    fn equal() {
        let take = tiny();
        let indices: HashMap<Md5, usize> =
            take.written.iter().enumerate().map(|(index, written)| (written.md5, index)).collect();
        let written = &take.written;
        let mut turned = written[3];
        (turned.shape.width, turned.shape.height) = (written[3].shape.height, 2);
        let other = Written { md5: [0; 16], ..written[3] };
        let saved = [
            (written[0], false),
            (written[2], true),
            (written[1], false),
            (written[2], false),
            (turned, false),
            (other, true),
            (written[3], true),
        ];
        let saved = saved.map(|(picture, marked)| Saved { picture, marked });
        let ours = Ours::of(&take, &indices, &saved);
        assert_eq!(ours.equal, BTreeSet::from([0, 2, 3]));
        assert_eq!([ours.marked, ours.differing, ours.differing_marked], [2, 3, 1]);
        let theirs = Theirs { equal: BTreeSet::from([0, 1, 3]), differing: 0 };
        let figures = Figures { ours: Some(ours), ffmpeg: Some(theirs), ..Figures::default() };
        assert_eq!(figures.theirs_alone(), [2]);
    }
}
