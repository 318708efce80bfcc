//! A picture sought in bytes that the reader refused: where it would end is counted here, and the
//! proved reader is shown the picture alone, with what a damaged border takes away put in its place.

use reelpony::nal_unit::escape;
use reelpony::reader::{Answer, PlanesMut, Reader, Sps};
use reelpony::Refusal;

/// The slice header with the first macroblock's type, and what stands before every other one's
/// samples.
pub const SLICE_HEADER: [u8; 4] = [0x88, 0x84, 0x28, 0x68];
const MB_TYPE: [u8; 2] = [0x0D, 0];
/// A start code and a picture's header byte; a picture's last byte.
const FRONT: [u8; 4] = [0, 0, 1, PICTURE];
pub const PICTURE: u8 = 0x25;
const LAST: u8 = 0x80;
/// Payload bytes before a picture's end in which a damaged border may leave what is not escaped.
const BORDER: usize = 32;

/// The samples of a picture, in macroblocks.
#[derive(Clone, Copy)]
struct Macroblocks {
    count: usize,
    /// Bytes of one's samples.
    bytes: usize,
}

impl Macroblocks {
    fn of(sps: &Sps) -> Macroblocks {
        let [across, down] = [sps.width, sps.height].map(|side| side.div_ceil(16) as usize);
        let samples = if sps.colour { 384 } else { 256 };
        let bytes = samples * usize::from(sps.bit_depth.num_bits()) / 8;
        Macroblocks { count: across * down, bytes }
    }

    /// The length of a payload without its last byte.
    fn payload(self) -> usize {
        SLICE_HEADER.len() + self.count * (self.bytes + MB_TYPE.len()) - MB_TYPE.len()
    }

    /// The payload without its last byte that escaped bytes begin with, how many of them it takes,
    /// and how many bytes between macroblocks are wrong, which are put right. None where there is
    /// more than one of these, or two zeros with what escaping never leaves behind them, unless that
    /// is so near the end that it is a damaged border.
    fn payload_of(self, bytes: &[u8]) -> Option<(Vec<u8>, usize, usize)> {
        let length = self.payload();
        let mut payload = Vec::new();
        let mut head = SLICE_HEADER.len() + self.bytes;
        let (mut zeros, mut wrong) = (0, 0);
        for (at, &byte) in bytes.iter().enumerate() {
            let taken = payload.len();
            if taken == length {
                return Some((payload, at, wrong));
            }
            if zeros >= 2 && byte <= 3 {
                if byte == 3 {
                    zeros = 0;
                    continue;
                }
                if taken + BORDER < length {
                    return None;
                }
            }
            zeros = if byte == 0 { zeros + 1 } else { 0 };
            if taken < head {
                payload.push(byte);
                continue;
            }
            let right = MB_TYPE[taken - head];
            wrong += usize::from(byte != right);
            if wrong > 1 {
                return None;
            }
            payload.push(right);
            if taken > head {
                head += self.bytes + MB_TYPE.len();
            }
        }
        (payload.len() == length).then_some((payload, bytes.len(), wrong))
    }
}

/// The length of a picture's unit with its start code, without what escaping adds.
pub fn plain_length(sps: &Sps) -> u64 {
    Macroblocks::of(sps).payload() as u64 + 6
}

/// A picture that was found.
pub struct Fit {
    /// How many bytes are its own.
    pub length: usize,
    /// The byte of it that is wrong, if one is, in words.
    pub wrong: Option<&'static str>,
}

/// Looks for a picture in bytes that begin where its slice header would, and reads it into the
/// planes; with no planes it is only looked at. One wrong byte is allowed: the last one, one between
/// two macroblocks or, if `header_may_err`, one of the slice header.
pub fn fit(bytes: &[u8], sps: Sps, header_may_err: bool, planes: Option<PlanesMut>) -> Option<Fit> {
    let header = bytes.get(..SLICE_HEADER.len())?;
    let first = header.iter().zip(SLICE_HEADER).filter(|(byte, right)| **byte != *right).count();
    if first > usize::from(header_may_err) {
        return None;
    }
    let macroblocks = Macroblocks::of(&sps);
    let (mut payload, end, between) = macroblocks.payload_of(bytes)?;
    let behind = &bytes[end..];
    let last = usize::from(behind.first() != Some(&LAST));
    // One more macroblock would be that of a larger picture, and where there is but one, its last
    // byte or the unit's end is all that tells its kind.
    let larger = behind.starts_with(&MB_TYPE);
    let untold = macroblocks.count == 1 && behind.len() > BORDER;
    if first + between + last > 1 || larger || (last > 0 && untold) {
        return None;
    }
    payload[..SLICE_HEADER.len()].copy_from_slice(&SLICE_HEADER);
    payload.push(LAST);
    let mut unit = vec![0; FRONT.len() + payload.len() + payload.len() / 2 + 1];
    unit[..FRONT.len()].copy_from_slice(&FRONT);
    let escaped = escape(&payload, &mut unit[FRONT.len()..]).ok()?;
    let unit = &unit[..FRONT.len() + escaped];
    let wrong = [
        (first, "a byte of its slice header is wrong"),
        (between, "a byte between two macroblocks is wrong"),
        (last, "its last byte is wrong, and those before it may be"),
    ];
    let wrong = wrong.into_iter().find(|(times, _)| *times > 0).map(|(_, words)| words);
    let length = (end + 1).min(bytes.len());
    show(unit, sps, planes).then_some(Fit { length, wrong })
}

/// Whether the reader takes a start code and a unit for a picture of this size and kind.
pub fn show(unit: &[u8], sps: Sps, planes: Option<PlanesMut>) -> bool {
    let mut reader = Reader::holding(sps);
    match planes {
        Some(planes) => matches!(reader.read(unit, planes), Answer::Picture { .. }),
        // Planes are the last thing that is tested: all else is right.
        None => matches!(
            reader.read(unit, PlanesMut::none()),
            Answer::Refused { refusal: Refusal::Planes, .. }
        ),
    }
}

/// A start code put before the bytes of a unit.
pub fn framed(unit: &[u8]) -> Vec<u8> {
    [&FRONT[..3], unit].concat()
}

/// What players put between pictures and a take has not, by its unit.
pub fn foreign(unit: &[u8]) -> Option<&'static str> {
    match unit {
        [9, _] => Some("access unit delimiter"),
        [6, .., LAST] if unit.get(1..5) != Some(&SLICE_HEADER) => {
            Some("supplemental enhancement information")
        }
        [10] => Some("end of sequence"),
        [11] => Some("end of stream"),
        [12, filler @ .., LAST] if filler.iter().all(|byte| *byte == 0xFF) => Some("filler data"),
        _ => None,
    }
}
