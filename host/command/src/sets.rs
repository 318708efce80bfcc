//! Sequence parameter sets sought where the reader has none: as they stand without a start code,
//! with one byte mended, or later in the same file. Each is told by the proved reader; whether it is
//! the take's is for a picture to say.

use std::io::{self, Read};

use reelpony::reader::{Answer, PlanesMut, Reader, Sps};
use reelpony::window::What;
use reelpony::Window;

use crate::fit::framed;
use crate::tap::Tap;

/// A sequence parameter set's unit has no more bytes than this.
const LONGEST: usize = 40;
/// Its header byte.
const SPS: u8 = 0x67;
/// Sets of other sizes that are looked for later in a file.
const LATER: usize = 8;

/// How a set came to be known, the surest first.
#[derive(Clone, Copy, Debug, PartialEq, Eq, PartialOrd, Ord)]
pub enum Origin {
    /// It stands before, but not behind a start code or not alone.
    Before,
    /// It stands later in the file.
    Later,
    /// One bit was turned.
    OneBit,
    /// One byte was replaced.
    OneByte,
}

impl Origin {
    /// In words that follow "the sequence parameter set".
    pub fn words(self) -> &'static str {
        match self {
            Origin::Before => "at a damaged border",
            Origin::Later => "that stands later in the file",
            Origin::OneBit => "with one bit mended",
            Origin::OneByte => "with one byte mended",
        }
    }
}

/// What the reader makes of the bytes of a unit.
pub fn told(unit: &[u8]) -> Option<Sps> {
    match Reader::new().read(&framed(unit), PlanesMut::none()) {
        Answer::Sps { sps, .. } => Some(sps),
        _ => None,
    }
}

/// The sets that may be meant in bytes of which some are wrong, each once.
pub fn in_bytes(bytes: &[u8]) -> Vec<(Origin, Sps)> {
    let mut found = Vec::new();
    for at in 0..bytes.len() {
        let unit = &bytes[at..bytes.len().min(at + LONGEST)];
        if unit[0] == SPS {
            add_all(&mut found, Origin::Before, prefixes(unit).filter_map(told));
        }
        // Mended are only those behind a start code, or the bytes' front.
        if at == 0 || bytes[..at].ends_with(&[0, 0, 1]) {
            mended(unit, &mut found);
        }
    }
    found.sort_by_key(|(origin, _)| *origin);
    found
}

fn prefixes(unit: &[u8]) -> impl Iterator<Item = &[u8]> {
    (1..=unit.len()).map(|length| &unit[..length])
}

fn add_all(found: &mut Vec<(Origin, Sps)>, origin: Origin, more: impl IntoIterator<Item = Sps>) {
    for sps in more {
        match found.iter_mut().find(|(_, other)| *other == sps) {
            Some((old, _)) => *old = origin.min(*old),
            None => found.push((origin, sps)),
        }
    }
}

/// The unit up to the next start code with each of its bytes replaced by each other. A last byte that
/// became zero is no longer there.
fn mended(unit: &[u8], found: &mut Vec<(Origin, Sps)>) {
    let end = unit.windows(3).position(|three| three == [0, 0, 1]).unwrap_or(unit.len());
    let mut unit = unit[..end].to_vec();
    while unit.last() == Some(&0) {
        unit.pop();
    }
    unit.push(0);
    for at in 0..unit.len() {
        let old = unit[at];
        for byte in 0..=255 {
            unit[at] = byte;
            let one_bit = (byte ^ old).count_ones() == 1;
            let origin = if one_bit { Origin::OneBit } else { Origin::OneByte };
            add_all(found, origin, told(&unit));
        }
        unit[at] = old;
    }
}

/// The sets that stand behind an offset of a file, each once. None of a pipe.
pub fn later(tap: &Tap, from: u64) -> io::Result<Vec<(Origin, Sps)>> {
    let mut found = Vec::new();
    if tap.sees_ahead() {
        let mut window = Window::new(Ahead { tap, at: from });
        // Each set is new to a window that holds nothing.
        while let Some(thing) = window.next()? {
            if let What::Sps(sps) = thing.what {
                add_all(&mut found, Origin::Later, [sps]);
                window.forget();
            }
            if found.len() == LATER {
                break;
            }
        }
    }
    Ok(found)
}

/// A file read from an offset on, beside whoever else reads it.
struct Ahead<'a> {
    tap: &'a Tap,
    at: u64,
}

impl Read for Ahead<'_> {
    fn read(&mut self, out: &mut [u8]) -> io::Result<usize> {
        let bytes = self.tap.bytes(self.at, self.at + out.len() as u64)?.unwrap_or_default();
        out[..bytes.len()].copy_from_slice(&bytes);
        self.at += bytes.len() as u64;
        Ok(bytes.len())
    }
}
