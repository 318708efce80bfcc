//! The rows of the table: what happens to a take, as changes of its bytes. Everything is the same in
//! every run.

use std::ops::Range;
use std::sync::Arc;

use common::Noise;
use reelpony::reader::Sps;
use reelpony::window::{What, Window};

use crate::shoot::{macroblock_bytes, size, Take};
use crate::Outcome;

/// Pictures in a shoot, and in the short takes whose parameter sets are damaged bit by bit.
pub const FRAMES: u64 = 300;
const FEW: u64 = 12;

/// A sector of a disk.
const SECTOR: usize = 4096;

/// Bytes that don't belong to the take.
const JUNK: usize = 10_000;

/// The pictures at whose borders a place is damaged, counted from 0.
const FIVE: [usize; 5] = [19, 79, 139, 199, 259];

/// What stands around the samples at a border: the last byte of one picture, then the start code,
/// the header and four bytes of the slice header of the next.
const LAST: usize = 1;
const CODE: usize = 4;
const HEADER: usize = 1;
const SLICE: usize = 4;

/// Bytes of a take with other bytes in their place.
pub struct Edit {
    at: Range<usize>,
    with: Vec<u8>,
}

/// One damaged file.
pub struct Case {
    /// What it is among the cases of its row.
    pub words: String,
    pub edits: Vec<Edit>,
    /// What its parameter set says instead, where no reader can see that it is another.
    pub unseen: Option<String>,
}

/// One kind of damage.
pub struct Row {
    pub words: String,
    pub take: Arc<Take>,
    pub cases: Vec<Case>,
    /// Options of the command.
    pub options: Vec<String>,
    /// Why pictures that differ may be handed out unmarked, where they may.
    pub may_differ: Option<&'static str>,
}

const SAMPLES: &str = "changed samples";
const JOINED: &str = "joined pictures";

impl Edit {
    fn new(at: Range<usize>, with: impl Into<Vec<u8>>) -> Edit {
        Edit { at, with: with.into() }
    }

    /// Other bytes over the ones that stand at an index.
    fn over(at: usize, with: impl Into<Vec<u8>>) -> Edit {
        let with = with.into();
        Edit { at: at..at + with.len(), with }
    }

    /// Whether it changes anything inside of a range.
    fn touches(&self, range: &Range<usize>) -> bool {
        match self.at.is_empty() {
            true => range.start < self.at.start && self.at.start < range.end,
            false => self.at.start < range.end && range.start < self.at.end,
        }
    }
}

impl Case {
    fn new(words: impl Into<String>, edits: Vec<Edit>) -> Case {
        Case { words: words.into(), edits, unseen: None }
    }

    /// The bytes of the damaged file.
    pub fn bytes(&self, take: &Take) -> Vec<u8> {
        let mut bytes = Vec::with_capacity(take.bytes.len());
        let mut from = 0;
        for edit in &self.edits {
            bytes.extend(&take.bytes[from..edit.at.start]);
            bytes.extend(&edit.with);
            from = edit.at.end;
        }
        bytes.extend(&take.bytes[from..]);
        bytes
    }

    /// How many pictures have all their bytes, start codes too.
    pub fn untouched(&self, take: &Take) -> usize {
        let is_whole = |range: &&Range<usize>| !self.edits.iter().any(|edit| edit.touches(range));
        take.pictures.iter().filter(is_whole).count()
    }
}

/// All rows for takes of a size and kind.
pub fn rows(shape: Sps) -> Outcome<Vec<Row>> {
    let take = Arc::new(Take::write(shape, 0..FRAMES)?);
    let mut rows = Rows { take, rows: Vec::new(), drawn: Noise::new(1, 1) };
    rows.sectors();
    rows.stretches();
    rows.borders();
    rows.bytes_around_samples();
    rows.parameter_sets()?;
    rows.ends();
    rows.joined()?;
    Ok(rows.rows)
}

/// The rows so far, and the take that most of them damage.
struct Rows {
    take: Arc<Take>,
    rows: Vec<Row>,
    drawn: Noise,
}

impl Rows {
    /// Adds a row of one file: the take with some changes, in the order of their places.
    fn add(&mut self, words: &str, may_differ: Option<&'static str>, edits: Vec<Edit>) {
        self.rows.push(Row {
            words: words.into(),
            take: self.take.clone(),
            cases: vec![Case::new("", edits)],
            options: vec![],
            may_differ,
        });
    }

    /// Where a picture's start code begins.
    fn start(&self, picture: usize) -> usize {
        self.take.pictures[picture].start
    }

    /// One bit of the byte at an index.
    fn flip(&self, at: usize, bit: usize) -> Edit {
        Edit::over(at, [self.take.bytes[at] ^ 1 << bit])
    }

    /// Ten sectors, one drawn from each tenth of the take. The very first one, which holds the
    /// parameter sets, is never among them.
    fn sectors(&mut self) {
        type Change = fn(u64, Range<usize>) -> Edit;
        let changes: [(&str, &'static str, Change); 5] = [
            ("ten sectors of 4 kB as zeros", SAMPLES, |_, at| Edit::new(at, [0; SECTOR])),
            ("ten sectors as FF", SAMPLES, |_, at| Edit::new(at, [0xFF; SECTOR])),
            ("ten sectors as noise", SAMPLES, |i, at| Edit::new(at, noise(i, SECTOR))),
            ("ten sectors deleted", JOINED, |_, at| Edit::new(at, [])),
            ("ten sectors of noise inserted", JOINED, |i, at| {
                Edit::new(at.start..at.start, noise(i, SECTOR))
            }),
        ];
        let tenth = self.take.bytes.len() / SECTOR / 10;
        for (words, may_differ, change) in changes {
            let edits = (0..10).map(|i| {
                let sector = i as usize * tenth + 1 + self.drawn.below(tenth as u64 - 2) as usize;
                change(i, sector * SECTOR..(sector + 1) * SECTOR)
            });
            let edits = edits.collect();
            self.add(words, Some(may_differ), edits);
        }
    }

    /// Bits of samples, cuts, holes, and stretches whose bytes change places in pairs.
    fn stretches(&mut self) {
        let length = self.take.bytes.len();
        let edits = (0..10).map(|i| {
            let parts = Parts::of(&self.take, 17 + 29 * i);
            let at = self.drawn.pick(&parts.samples);
            self.flip(at, i % 8)
        });
        let edits = edits.collect();
        self.add("ten single bits in samples", Some(SAMPLES), edits);
        self.add("cut at 70 %", None, vec![Edit::new(length * 7 / 10..length, [])]);
        let hole = (1 << 20).min(length / 4);
        let words = if hole == 1 << 20 { "a hole of 1 MB" } else { "a hole of a quarter" };
        let begin = length * 2 / 5 + 1234;
        self.add(words, Some(JOINED), vec![Edit::new(begin..begin + hole, [])]);
        let [one, other] = [110, 113].map(|i| Parts::of(&self.take, i).middle);
        let words = "a hole between the middles of two pictures";
        self.add(words, Some(JOINED), vec![Edit::new(one..other, [])]);

        let swapped = |from: usize, to: usize| {
            let mut bytes = self.take.bytes[from..to].to_vec();
            bytes.chunks_exact_mut(2).for_each(|pair| pair.swap(0, 1));
            Edit::over(from, bytes)
        };
        // Of the one the pairs begin with its first byte, of the other with its second.
        let [one, other] = [99, 199].map(|i| self.take.pictures[i].clone());
        let two = vec![swapped(one.start, one.end), swapped(other.start + 1, other.end)];
        let all = vec![swapped(0, length)];
        self.add("two frames byte-swapped", None, two);
        self.add("the file byte-swapped", None, all);
    }

    /// Between two pictures: the start code and what stands around it.
    fn borders(&mut self) {
        let edits = (0..32).map(|i| self.flip(self.start(apart(i)) + i / 8, i % 8));
        let edits = edits.collect();
        self.add("one bit of a start code (32)", None, edits);
        let starts = FIVE.map(|i| self.start(i));
        let edits = starts.map(|at| Edit::new(at..at + CODE, []));
        self.add("a start code deleted (5)", None, edits.into());
        let around = LAST + CODE + HEADER + SLICE;
        let over = |back: usize, bytes: &dyn Fn(usize) -> Vec<u8>| {
            starts.map(|at| Edit::over(at - back, bytes(at))).into()
        };
        let edits = over(LAST, &|at| noise(at as u64, around));
        self.add("noise over a border, samples left (5)", None, edits);
        let edits = over(LAST + 3, &|at| noise(at as u64, 12));
        self.add("noise over a border and 3 samples (5)", None, edits);
        let edits = over(LAST, &|_| vec![0; around]);
        self.add("zeros over a border, samples left (5)", None, edits);
        let edits = over(LAST + 3, &|_| vec![0; 12]);
        self.add("zeros over a border and 3 samples (5)", None, edits);
        let bytes = starts.iter().zip([0x01, 0x03, 0x41, 0x80, 0xFF]);
        let edits = bytes.map(|(&at, byte)| Edit::new(at..at, [byte])).collect();
        self.add("a byte inserted before a start code (5)", None, edits);
        let edits = starts.map(|at| Edit::new(at..at, noise(at as u64, 100)));
        self.add("100 bytes of noise before a start code (5)", None, edits.into());
    }

    /// The bytes of a picture that are no samples, each variant at a picture of its own.
    fn bytes_around_samples(&mut self) {
        let header = |i: usize| self.start(apart(i)) + CODE;
        let bits = (0..8).map(|i| self.flip(header(i), i));
        let values = [0x00, 0x45, 0x67, 0xFF].into_iter().zip(8..);
        let edits = bits.chain(values.map(|(byte, i)| Edit::over(header(i), [byte]))).collect();
        let slice = (0..8 * SLICE).map(|i| self.flip(header(i) + HEADER + i / 8, i % 8)).collect();
        self.add("a header byte (12)", None, edits);
        self.add("one bit of a slice header (32)", None, slice);
        let edits = (0..16).map(|i| {
            let between = Parts::of(&self.take, apart(i)).between;
            self.flip(between[i / 8], i % 8)
        });
        let edits = edits.collect();
        self.add("one bit between macroblocks (16)", None, edits);
        let last = |i: usize| self.take.pictures[apart(i)].end - LAST;
        let bits = (0..8).map(|i| self.flip(last(i), i));
        let edits = bits.chain([Edit::over(last(8), [0x7F])]).collect();
        self.add("a last byte (9)", None, edits);
    }

    /// Damaged parameter sets, a file for each bit or value, of few pictures.
    fn parameter_sets(&mut self) -> Outcome<()> {
        let take = Arc::new(Take::write(self.take.shape, 0..FEW)?);
        let bits = |at: usize| (0..8).map(|bit| take.bytes[at] ^ 1 << bit).collect::<Vec<u8>>();
        let bits_and_more = |at: usize| {
            let mut values = [bits(at), vec![0, !take.bytes[at]]].concat();
            values.dedup();
            values
        };
        let row = |words: &str, set: usize, values: &dyn Fn(usize) -> Vec<u8>| {
            let mut cases = Vec::new();
            for at in take.sets[set].clone() {
                for byte in values(at) {
                    let index = at - take.sets[set].start;
                    let words = format!("byte {index}, {:02X} as {byte:02X}", take.bytes[at]);
                    let mut case = Case::new(words, vec![Edit::over(at, [byte])]);
                    case.unseen = unseen(&take, &case);
                    cases.push(case);
                }
            }
            let words = format!("{words} ({} files of {FEW})", cases.len());
            Row { words, take: take.clone(), cases, options: vec![], may_differ: None }
        };
        self.rows.push(row("one bit of the SPS", 0, &bits));
        self.rows.push(row("one byte of the PPS", 1, &bits_and_more));
        Ok(())
    }

    /// What is wrong at the file's begin or end.
    fn ends(&mut self) {
        let length = self.take.bytes.len();
        self.add("the first 100 bytes lost", None, vec![Edit::new(0..100, [])]);
        self.add("the same, with `--size`", None, vec![Edit::new(0..100, [])]);
        if let Some(row) = self.rows.last_mut() {
            row.options = vec!["--size".into(), size(&row.take.shape)];
        }
        let junk = |at: usize| vec![Edit::new(at..at, noise(at as u64, JUNK))];
        self.add("10,000 bytes of noise before", None, junk(0));
        self.add("10,000 bytes of noise behind", None, junk(length));
    }

    /// Two takes in one file.
    fn joined(&mut self) -> Outcome<()> {
        let shape = self.take.shape;
        let smaller = Sps {
            width: shape.width.div_ceil(8) * 4,
            height: shape.height.div_ceil(4) * 2,
            ..shape
        };
        let first = Take::write(shape, 0..FRAMES / 2)?;
        for (words, shape) in
            [("two takes of one size joined", shape), ("two of different sizes joined", smaller)]
        {
            let second = Take::write(shape, FRAMES / 2..FRAMES)?;
            let take = Arc::new(first.joined(&second));
            let cases = vec![Case::new("", vec![])];
            let words = words.into();
            self.rows.push(Row { words, take, cases, options: vec![], may_differ: None });
        }
        Ok(())
    }
}

/// Bytes of noise.
fn noise(part: u64, length: usize) -> Vec<u8> {
    let mut noise = Noise::new(part, 7);
    (0..length).map(|_| noise.below(256) as u8).collect()
}

/// The picture for a variant, far from those of others.
fn apart(variant: usize) -> usize {
    4 + 9 * variant
}

/// What a changed parameter set says, where it is one that the writer writes, for pictures of the
/// same kind and as many macroblocks across and down: those have the same bytes, so nothing tells
/// that the cropping is another.
fn unseen(take: &Take, case: &Case) -> Option<String> {
    let bytes = case.bytes(take);
    let mut window = Window::new(&bytes[..]);
    let What::Sps(read) = window.next().ok()??.what else { return None };
    let form = |shape: &Sps| {
        let [across, down] = [shape.width, shape.height].map(|side| side.div_ceil(16));
        (across, down, shape.colour, shape.bit_depth.num_bits())
    };
    (read != take.shape && form(&read) == form(&take.shape)).then(|| size(&read))
}

/// Where the parts of a picture's payload stand in the take, escaping left out.
struct Parts {
    /// All bytes of samples.
    samples: Vec<usize>,
    /// The first sample's byte of the macroblock in the middle, and the two bytes before it.
    middle: usize,
    between: [usize; 2],
}

impl Parts {
    /// Of the picture with an index.
    fn of(take: &Take, picture: usize) -> Parts {
        let range = &take.pictures[picture];
        let mut payload = Vec::new();
        let mut zeros = 0;
        for at in range.start + CODE + HEADER..range.end {
            match take.bytes[at] {
                3 if zeros == 2 => zeros = 0,
                byte => {
                    zeros = if byte == 0 { zeros + 1 } else { 0 };
                    payload.push(at);
                }
            }
        }
        // Four bytes of header, then the samples of each macroblock and two bytes before the next.
        let bytes = macroblock_bytes(&take.shape);
        let each = bytes + 2;
        let macroblocks = (payload.len() - 3) / each;
        let samples = payload[SLICE..payload.len() - LAST].iter().enumerate();
        let samples = samples.filter(|(i, _)| i % each < bytes).map(|(_, &at)| at).collect();
        let middle = SLICE + macroblocks / 2 * each;
        Parts {
            samples,
            middle: payload[middle],
            between: [payload[middle - 2], payload[middle - 1]],
        }
    }
}

#[cfg(test)]
pub mod tests {
    use super::*;
    use reelpony::BitDepth::Depth8;

    /// A take of four pictures of one macroblock.
    pub fn tiny() -> Take {
        let shape = Sps { width: 16, height: 10, colour: false, bit_depth: Depth8 };
        Take::write(shape, 0..4).unwrap()
    }

    /// Changes are made at their places, and touch the pictures that they are in: none if they stand
    /// between two.
    #[test]
    fn edits() {
        let take = tiny();
        let [one, two] = [take.pictures[1].clone(), take.pictures[2].clone()];
        let edits = vec![
            Edit::new(one.start..one.start, [9, 9]),
            Edit::over(one.start + 6, [7]),
            Edit::new(two.start + 1..two.start + 3, []),
        ];
        let case = Case::new("", edits);
        let bytes = case.bytes(&take);
        assert_eq!(bytes.len(), take.bytes.len());
        assert_eq!(bytes[..one.start], take.bytes[..one.start]);
        assert_eq!(bytes[one.start..one.start + 3], [9, 9, 0]);
        assert_eq!(bytes[one.start + 8], 7);
        assert_eq!(bytes[two.start + 3..], take.bytes[two.start + 3..]);
        assert_eq!(case.untouched(&take), 2);
    }

    /// There are as many bytes of samples as the macroblocks have, between the headers and the last
    /// byte, and what stands before a macroblock is none of them.
    #[test]
    fn parts() {
        let shape = Sps { width: 34, height: 18, colour: true, bit_depth: Depth8 };
        let take = Take::write(shape, 0..2).unwrap();
        let parts = Parts::of(&take, 1);
        assert_eq!(parts.samples.len(), 3 * 2 * macroblock_bytes(&shape));
        assert_eq!(parts.between.map(|at| take.bytes[at]), [0x0D, 0x00]);
        assert!(parts.samples.contains(&parts.middle));
        assert!(!parts.samples.contains(&parts.between[1]));
        let range = &take.pictures[1];
        assert_eq!(parts.samples.first(), Some(&(range.start + CODE + HEADER + SLICE)));
        assert!(parts.samples.last() < Some(&(range.end - LAST)));
    }
}
