//! Reading a take back into lent planes: parameter sets and pictures, one a call, cut and damaged
//! takes too. [`Pictures`](crate::Pictures) and [`Salvage`](crate::Salvage) do the same with planes
//! of their own.

use crate::{ffi, BitDepth, Refusal};

/// What a sequence parameter set says of a take's pictures.
#[derive(Clone, Copy, Debug, PartialEq, Eq)]
pub struct Sps {
    /// Visible samples in a row of Y.
    pub width: u32,
    /// Visible rows of Y.
    pub height: u32,
    /// Whether there are Cb and Cr, half as wide and half as high as Y.
    pub colour: bool,
    /// Bits a sample.
    pub bit_depth: BitDepth,
}

impl Sps {
    /// From the numbers that the export gives: width, height, colour and depth.
    fn of(numbers: [u64; 4]) -> Sps {
        let [width, height, colour, depth] = numbers;
        Sps {
            width: width as u32,
            height: height as u32,
            colour: colour == 1,
            bit_depth: if depth == 12 { BitDepth::Depth12 } else { BitDepth::Depth8 },
        }
    }

    /// The bytes that a picture's visible rows have in Y, Cb and Cr, one behind the other without
    /// gaps. Planes of these lengths are enough. Monochrome has none in Cb and Cr.
    pub fn plane_lengths(&self) -> [usize; 3] {
        let Reader(held) = Reader::holding(*self);
        [0, 1, 2].map(|plane| ffi::plane_len(&held, plane) as usize)
    }

    /// A length of the output with which no call that writes such a picture is refused for want of
    /// room, whatever the samples are, and nothing has to be counted first. 0 for a size or kind that
    /// no take has.
    pub fn room(&self) -> usize {
        let Sps { width, height, colour, bit_depth } = *self;
        ffi::room(width, height, colour.into(), bit_depth.num_bits().into()) as usize
    }
}

/// The planes that a picture is read into, from their first bytes on: visible rows alone, without
/// gaps. Bytes behind them stay, and monochrome touches neither Cb nor Cr.
pub struct PlanesMut<'a> {
    /// Y.
    pub y: &'a mut [u8],
    /// Cb; any slice, even an empty one, for monochrome.
    pub cb: &'a mut [u8],
    /// Cr, likewise.
    pub cr: &'a mut [u8],
}

impl PlanesMut<'_> {
    /// No planes: parameter sets are read, a picture is refused with [`Refusal::Planes`].
    pub fn none() -> PlanesMut<'static> {
        PlanesMut { y: &mut [], cb: &mut [], cr: &mut [] }
    }
}

/// What one call found. Each offset is where its bytes begin in the take, behind the start code.
#[derive(Clone, Copy, Debug, PartialEq, Eq)]
#[non_exhaustive]
pub enum Answer {
    /// Nothing more.
    End,
    /// A sequence parameter set; from now on it is held.
    Sps {
        /// Where it begins.
        offset: usize,
        /// What it says.
        sps: Sps,
    },
    /// A picture parameter set; from now on it is held.
    Pps {
        /// Where it begins.
        offset: usize,
    },
    /// A picture of the size and kind held, now in the planes.
    Picture {
        /// Where it begins.
        offset: usize,
    },
    /// Bytes that are none of these. The planes and what is held are as they were.
    Refused {
        /// Why.
        refusal: Refusal,
        /// Where they begin; for [`Refusal::Stray`], the reader's place.
        offset: usize,
    },
}

/// A place in a take and the parameter sets that were met before it.
///
/// Every answer moves the place behind what was found, but [`Answer::End`] and
/// [`Refusal::Planes`] keep it: more bytes or longer planes can be lent then.
#[derive(Clone, Copy, Debug, Default, PartialEq, Eq)]
pub struct Reader([u64; 8]);

impl Reader {
    /// At a take's first byte, with nothing held.
    pub fn new() -> Reader {
        Reader::default()
    }

    /// At a take's first byte, as if this sequence parameter set and the picture parameter set, of
    /// which there is but one, had been read before: for a take whose first bytes are lost. A size or
    /// kind that no take has counts as nothing held.
    pub fn holding(sps: Sps) -> Reader {
        let [width, height] = [sps.width, sps.height].map(u64::from);
        let depth = u64::from(sps.bit_depth.num_bits());
        Reader([0, 1, width, height, u64::from(sps.colour), depth, 1, 0])
    }

    /// The same at another place.
    pub fn at(self, place: usize) -> Reader {
        let mut words = self.0;
        words[0] = place as u64;
        Reader(words)
    }

    /// Where the next call goes on.
    pub fn place(&self) -> usize {
        self.0[0] as usize
    }

    /// The sequence parameter set that is held.
    pub fn sps(&self) -> Option<Sps> {
        let [_, held, width, height, colour, depth, ..] = self.0;
        (held == 1).then(|| Sps::of([width, height, colour, depth]))
    }

    /// Whether a picture parameter set is held. There is but one that the writer writes.
    pub fn has_pps(&self) -> bool {
        self.0[6] == 1
    }

    /// Reads what stands at the place; a picture goes to the planes.
    pub fn read(&mut self, take: &[u8], planes: PlanesMut) -> Answer {
        let PlanesMut { y, cb, cr } = planes;
        let answer = ffi::read(take, [y, cb, cr], &mut self.0);
        let [what, offset, width, height, colour, depth, ..] = answer.words;
        let offset = offset as usize;
        match (answer.number, what) {
            (0, 0) => Answer::End,
            (0, 1) => Answer::Sps { offset, sps: Sps::of([width, height, colour, depth]) },
            (0, 2) => Answer::Pps { offset },
            (0, 3) => Answer::Picture { offset },
            (number, _) => Answer::Refused { refusal: Refusal::of(number, 0), offset },
        }
    }
}
