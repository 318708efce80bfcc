//! Reading with allocation: the pictures of a take one by one, and what was lost between them.

use std::iter::FusedIterator;
use std::{error, fmt, mem};

use crate::reader::{Answer, PlanesMut, Sps};
use crate::{Reader, Refusal};

/// A picture that was read, with its own samples.
#[derive(Clone, Debug, PartialEq, Eq)]
pub struct Picture {
    /// Its size and kind.
    pub sps: Sps,
    /// Y: the visible rows, one behind the other without gaps. 12-bit samples are packed, two in
    /// three bytes, most significant bits first.
    pub y: Vec<u8>,
    /// Cb, half as wide and half as high as Y. Empty in monochrome.
    pub cb: Vec<u8>,
    /// Cr, likewise.
    pub cr: Vec<u8>,
    /// Where its unit begins in the take, behind the start code.
    pub offset: usize,
    /// The length of its unit.
    pub length: usize,
}

/// Bytes of a take that are neither parameter sets nor a picture to be read, and why.
#[derive(Clone, Copy, Debug, PartialEq, Eq)]
pub struct Lost {
    /// Why.
    pub refusal: Refusal,
    /// Where they begin in the take, behind the start code if they have one.
    pub offset: usize,
    /// Their length, without zeros that follow: those belong to the next start code.
    pub length: usize,
}

/// A sentence for a person.
impl fmt::Display for Lost {
    fn fmt(&self, f: &mut fmt::Formatter) -> fmt::Result {
        let Lost { refusal, offset, length } = self;
        let number = refusal.number();
        write!(f, "{length} bytes at {offset} are lost: {refusal} (refusal {number})")
    }
}

impl error::Error for Lost {}

/// Goes through a take to its very end, whatever is in it: each item is a picture, or what was
/// lost. Memory is allocated for one picture at a time, and never more than the take itself has.
///
/// ```
/// # use reelpony::ycbcr_image::{DataPlane, Planes, YCbCrImage};
/// # use reelpony::{BitDepth, LessEncoder};
/// # let samples = [0x10; 256];
/// # let y = DataPlane { data: &samples, stride: 16, bit_depth: BitDepth::Depth8 };
/// # let image = YCbCrImage { planes: Planes::Mono(y), width: 16, height: 16 };
/// # let (first, mut encoder) = LessEncoder::new(&image)?;
/// # let mut take: Vec<u8> = first.into_iter().flat_map(|unit| unit.to_annex_b_data()).collect();
/// # take.extend(encoder.encode(&image)?.to_annex_b_data());
/// use reelpony::{Refusal, Salvage};
///
/// // A take of two pictures, 16x16, whose first one loses a byte.
/// take.remove(100);
/// let mut saved = 0;
/// for found in Salvage::new(&take) {
///     match found {
///         Ok(picture) => {
///             assert_eq!(picture.y, samples);
///             saved += 1;
///         }
///         Err(lost) => {
///             assert_eq!(lost.refusal, Refusal::PictureShort);
///             assert_eq!(
///                 lost.to_string(),
///                 "261 bytes at 24 are lost: the picture is cut short (refusal 17)"
///             );
///         }
///     }
/// }
/// assert_eq!(saved, 1);
/// # Ok::<(), reelpony::Error>(())
/// ```
#[derive(Clone)]
pub struct Salvage<'a> {
    take: &'a [u8],
    reader: Reader,
    /// Planes that were lent and not filled.
    spare: [Vec<u8>; 3],
}

/// Without the take's bytes and the planes'.
impl fmt::Debug for Salvage<'_> {
    fn fmt(&self, f: &mut fmt::Formatter) -> fmt::Result {
        f.debug_struct("Salvage").field("reader", &self.reader).finish_non_exhaustive()
    }
}

impl<'a> Salvage<'a> {
    /// From a take's first byte on.
    pub fn new(take: &'a [u8]) -> Salvage<'a> {
        Salvage::from_reader(Reader::new(), take)
    }

    /// From where a reader stands, with the parameter sets that it holds.
    pub fn from_reader(reader: Reader, take: &'a [u8]) -> Salvage<'a> {
        Salvage { take, reader, spare: Default::default() }
    }

    /// Where the reading stands and what is held.
    pub fn reader(&self) -> Reader {
        self.reader
    }

    /// Makes the spare planes those of a picture that could stand at the reader's place. A
    /// picture's unit is longer than its samples, so where fewer bytes are left there is none.
    fn ready_planes(&mut self) {
        let Some(sps) = self.reader.sps() else { return };
        let lengths = sps.plane_lengths();
        let left = self.take.len().saturating_sub(self.reader.place());
        if lengths.iter().sum::<usize>() > left {
            return;
        }
        for (plane, length) in self.spare.iter_mut().zip(lengths) {
            if plane.len() != length {
                *plane = vec![0; length];
            }
        }
    }

    /// The length of what begins at the offset and was just passed.
    fn length_from(&self, offset: usize) -> usize {
        let passed = self.take.get(offset..self.reader.place()).unwrap_or_default();
        passed.iter().rposition(|&byte| byte != 0).map_or(0, |last| last + 1)
    }
}

impl Iterator for Salvage<'_> {
    type Item = Result<Picture, Lost>;

    fn next(&mut self) -> Option<Result<Picture, Lost>> {
        loop {
            self.ready_planes();
            let [y, cb, cr] = &mut self.spare;
            match self.reader.read(self.take, PlanesMut { y, cb, cr }) {
                Answer::End => return None,
                Answer::Sps { .. } | Answer::Pps { .. } => {}
                Answer::Picture { offset } => {
                    let sps = self.reader.sps()?;
                    let [y, cb, cr] = mem::take(&mut self.spare);
                    let length = self.length_from(offset);
                    return Some(Ok(Picture { sps, y, cb, cr, offset, length }));
                }
                Answer::Refused { refusal, offset } => {
                    let length = self.length_from(offset);
                    return Some(Err(Lost { refusal, offset, length }));
                }
            }
        }
    }
}

impl FusedIterator for Salvage<'_> {}

/// The pictures of a take that should be whole: like [`Salvage`], but nothing comes behind the
/// first bytes that are lost.
///
/// ```
/// # use reelpony::ycbcr_image::{DataPlane, Planes, YCbCrImage};
/// # use reelpony::{BitDepth, LessEncoder};
/// # let samples = [0x10; 256];
/// # let y = DataPlane { data: &samples, stride: 16, bit_depth: BitDepth::Depth8 };
/// # let image = YCbCrImage { planes: Planes::Mono(y), width: 16, height: 16 };
/// # let (first, mut encoder) = LessEncoder::new(&image)?;
/// # let mut take: Vec<u8> = first.into_iter().flat_map(|unit| unit.to_annex_b_data()).collect();
/// # take.extend(encoder.encode(&image)?.to_annex_b_data());
/// use reelpony::Pictures;
///
/// // A take of two pictures, 16x16, all samples 10 hex.
/// for picture in Pictures::new(&take) {
///     let picture = picture?;
///     assert_eq!([picture.sps.width, picture.sps.height], [16, 16]);
///     assert_eq!(picture.y, [0x10; 256]);
///     assert!(!picture.sps.colour && picture.cb.is_empty());
/// }
/// # Ok::<(), Box<dyn std::error::Error>>(())
/// ```
#[derive(Clone, Debug)]
pub struct Pictures<'a> {
    salvage: Salvage<'a>,
    ended: bool,
}

impl<'a> Pictures<'a> {
    /// From a take's first byte on.
    pub fn new(take: &'a [u8]) -> Pictures<'a> {
        Pictures { salvage: Salvage::new(take), ended: false }
    }

    /// Where the reading stands and what is held.
    pub fn reader(&self) -> Reader {
        self.salvage.reader()
    }
}

impl Iterator for Pictures<'_> {
    type Item = Result<Picture, Lost>;

    fn next(&mut self) -> Option<Result<Picture, Lost>> {
        if self.ended {
            return None;
        }
        let found = self.salvage.next();
        self.ended = !matches!(found, Some(Ok(_)));
        found
    }
}

impl FusedIterator for Pictures<'_> {}

#[cfg(test)]
mod tests {
    use super::*;
    use crate::nal_unit::{NalRefIdc, NalUnit, NalUnitType, RbspData};

    /// A parameter set that promises the largest picture has no memory asked for: the bytes behind
    /// it are too few for one. The same bytes are enough where the set promises 16x16.
    #[test]
    fn memory_by_the_takes_own_length() {
        // Monochrome of 8 bits; a side of 1,024 macroblocks, and of one.
        let (large, small) = ("000000000010000000000", "1");
        for (side, size, memory) in [(large, 16_384, 0), (small, 16, 256)] {
            let bits = format!("11110011110{side}{side}1001001101100000001");
            let mut data = vec![0x64, 0, 0x0A];
            data.extend(bits.as_bytes().chunks(8).map(|eight| {
                eight.iter().fold(0, |byte, bit| byte << 1 | (bit - b'0')) << (8 - eight.len())
            }));
            let sps = NalUnit::new(
                NalRefIdc::Three,
                NalUnitType::SequenceParameterSet,
                RbspData { data },
            );
            let mut take = sps.to_annex_b_data();
            take.extend([0, 0, 0, 1, 0x68, 0xCE, 0x38, 0x80]);
            take.extend([0, 0, 0, 1, 0x25, 0x88, 0x84, 0x28, 0x68]);
            take.extend([0x10; 250]);

            let mut salvage = Salvage::new(&take);
            let lost = salvage.next().unwrap().unwrap_err();
            assert_eq!((lost.refusal, lost.length), (Refusal::PictureShort, 255));
            let sps = salvage.reader().sps().unwrap();
            assert_eq!([sps.width, sps.height], [size; 2]);
            assert_eq!(salvage.spare.iter().map(Vec::len).sum::<usize>(), memory);
            assert_eq!(salvage.next(), None);
        }
    }
}
