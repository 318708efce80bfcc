//! Shoots: pictures that are made up, the takes that the library writes of them, and where each
//! picture stands in its take.

use std::ops::Range;

use common::Noise;
use reelpony::reader::Sps;
use reelpony::window::{What, Window};
use reelpony::ycbcr_image::{DataPlane, Planes, YCbCrImage};
use reelpony::BitDepth::{Depth12, Depth8};
use reelpony::{next, room, start};

use crate::md5::{md5, Md5};
use crate::Outcome;

/// A picture that was written, told by its visible samples as a Y4M has them.
#[derive(Clone, Copy, PartialEq, Eq)]
pub struct Written {
    pub shape: Sps,
    pub md5: Md5,
}

/// What the library wrote.
#[derive(Clone)]
pub struct Take {
    pub shape: Sps,
    pub bytes: Vec<u8>,
    pub written: Vec<Written>,
    /// Where the unit of each parameter set stands, behind its start code.
    pub sets: Vec<Range<usize>>,
    /// Where each picture stands with its start code, which has four bytes.
    pub pictures: Vec<Range<usize>>,
}

/// The kind as `--size` and a Y4M's header name it.
pub fn kind(shape: &Sps) -> &'static str {
    match (shape.colour, shape.bit_depth) {
        (false, Depth8) => "mono",
        (false, Depth12) => "mono12",
        (true, Depth8) => "420",
        (true, Depth12) => "420p12",
    }
}

/// `320x176:420`.
pub fn size(shape: &Sps) -> String {
    format!("{}x{}:{}", shape.width, shape.height, kind(shape))
}

/// Bytes of a macroblock's samples.
pub fn macroblock_bytes(shape: &Sps) -> usize {
    let samples = if shape.colour { 384 } else { 256 };
    samples * usize::from(shape.bit_depth.num_bits()) / 8
}

impl Take {
    /// The take of the pictures with these numbers.
    pub fn write(shape: Sps, numbers: Range<u64>) -> Outcome<Take> {
        let mut bytes = Vec::new();
        let mut written = Vec::new();
        let mut session = None;
        for number in numbers {
            let planes = picture(&shape, number);
            let lines: Vec<Vec<u8>> = planes.iter().map(|plane| plane.packed(&shape)).collect();
            let lent = |i: usize| DataPlane {
                data: &lines[i],
                stride: planes[i].padded.0 * usize::from(shape.bit_depth.num_bits()) / 8,
                bit_depth: shape.bit_depth,
            };
            let image = YCbCrImage {
                planes: match shape.colour {
                    true => Planes::YCbCr((lent(0), lent(1), lent(2))),
                    false => Planes::Mono(lent(0)),
                },
                width: shape.width,
                height: shape.height,
            };
            let mut out = vec![0; room(&image)];
            let length = match &mut session {
                Some(session) => next(session, &image, &mut out),
                None => start(&image, &mut out).map(|(length, started)| {
                    session = Some(started);
                    length
                }),
            };
            let length =
                length.map_err(|refusal| format!("writing {}: {refusal}", size(&shape)))?;
            bytes.extend(&out[..length]);
            let visible: Vec<u8> = planes.iter().flat_map(|plane| plane.visible(&shape)).collect();
            written.push(Written { shape, md5: md5(&visible) });
        }
        Take::placed(shape, bytes, written)
    }

    /// Two takes, one behind the other in a file.
    pub fn joined(&self, other: &Take) -> Take {
        let behind = |ranges: &[Range<usize>]| {
            let length = self.bytes.len();
            ranges.iter().map(|range| range.start + length..range.end + length).collect()
        };
        Take {
            shape: self.shape,
            bytes: [&self.bytes[..], &other.bytes].concat(),
            written: [&self.written[..], &other.written].concat(),
            sets: [&self.sets[..], &behind(&other.sets) as &Vec<_>].concat(),
            pictures: [&self.pictures[..], &behind(&other.pictures) as &Vec<_>].concat(),
        }
    }

    /// Finds where everything stands. All pictures must be there and differ.
    fn placed(shape: Sps, bytes: Vec<u8>, written: Vec<Written>) -> Outcome<Take> {
        let mut take = Take { shape, bytes, written, sets: vec![], pictures: vec![] };
        let mut window = Window::new(&take.bytes[..]);
        while let Some(found) = window.next().map_err(|error| error.to_string())? {
            let (begin, end) = (found.offset as usize, (found.offset + found.length) as usize);
            match found.what {
                What::Sps(_) | What::Pps => take.sets.push(begin..end),
                What::Picture => take.pictures.push(begin - 4..end),
                other => return Err(format!("a whole take has {other:?}")),
            }
        }
        let mut digests: Vec<Md5> = take.written.iter().map(|written| written.md5).collect();
        digests.sort_unstable();
        digests.dedup();
        if [take.pictures.len(), digests.len()] != [take.written.len(); 2] {
            return Err(format!("the pictures of {} do not all differ", size(&shape)));
        }
        Ok(take)
    }
}

/// A plane up to whole macroblocks, in 12 bits a sample.
struct Plane {
    samples: Vec<u16>,
    /// Samples across and down with padding, and those that are visible.
    padded: (usize, usize),
    seen: (usize, usize),
}

impl Plane {
    /// The bytes as the writer is lent them: two samples of 12 bits in three bytes.
    fn packed(&self, shape: &Sps) -> Vec<u8> {
        match shape.bit_depth {
            Depth8 => self.samples.iter().map(|sample| (sample >> 4) as u8).collect(),
            Depth12 => {
                let three = |pair: &[u16]| {
                    let both = u32::from(pair[0]) << 12 | u32::from(pair[1]);
                    [(both >> 16) as u8, (both >> 8) as u8, both as u8]
                };
                self.samples.chunks_exact(2).flat_map(three).collect()
            }
        }
    }

    /// The visible samples as a Y4M has them: those of 12 bits in two bytes, the low one first.
    fn visible(&self, shape: &Sps) -> Vec<u8> {
        let rows = self.samples.chunks_exact(self.padded.0).take(self.seen.1);
        let seen = rows.flat_map(|row| &row[..self.seen.0]);
        match shape.bit_depth {
            Depth8 => seen.map(|sample| (sample >> 4) as u8).collect(),
            Depth12 => seen.flat_map(|sample| sample.to_le_bytes()).collect(),
        }
    }
}

/// The planes of a picture: a sky that moves, a bright disc, grain everywhere, and at the top and
/// in a bar that wanders black with a few specks, where escaping has to do.
fn picture(shape: &Sps, number: u64) -> Vec<Plane> {
    let mut noise = Noise::new(number, u64::from(shape.width) << 16 | u64::from(shape.height));
    let (width, height) = (shape.width as usize, shape.height as usize);
    let at = number as usize;
    let bar = at * 3 % (width + width / 4);
    let disc = (width / 2 + at * 5 % (width / 2), height / 2 + at % (height / 4 + 1));
    let mut point = |plane: usize, x: usize, y: usize| -> u16 {
        let black = y < height / 8 || x + width / 16 > bar && x < bar;
        let in_disc = x.abs_diff(disc.0).pow(2) + y.abs_diff(disc.1).pow(2) < (height / 5).pow(2);
        let grain = noise.below(64) as u16;
        match (plane, black) {
            (0, true) if noise.once_in(40) => noise.below(80) as u16,
            (0, true) => 0,
            (_, true) => 2048,
            (0, _) if in_disc => 3600 + grain,
            (1, _) if in_disc => 1000 + grain,
            (2, _) if in_disc => 2300 + grain,
            (0, _) => (700 + (x + at) * 1100 / width % 1200 + y * 1400 / height) as u16 + grain,
            (1, _) => (2700 - y * 900 / height.next_multiple_of(16)) as u16 + grain,
            (_, _) => (1500 + x * 600 / width) as u16 + grain,
        }
    };
    let plane = |plane: usize| {
        let step = if plane == 0 { 1 } else { 2 };
        let padded = [width, height].map(|side| side.next_multiple_of(16) / step);
        let places = (0..padded[0] * padded[1]).map(|i| (i % padded[0], i / padded[0]));
        let samples = places.map(|(x, y)| point(plane, x * step, y * step)).collect();
        Plane { samples, padded: (padded[0], padded[1]), seen: (width / step, height / step) }
    };
    (0..if shape.colour { 3 } else { 1 }).map(plane).collect()
}
