//! Pictures as they are lent, with the names that less-avc gives them.

use crate::{ffi, BitDepth};

/// A picture whose samples stand in lent planes.
#[derive(Clone, Copy)]
pub struct YCbCrImage<'a> {
    /// The samples, in colour or not.
    pub planes: Planes<'a>,
    /// Visible samples in a row of Y.
    pub width: u32,
    /// Visible rows of Y.
    pub height: u32,
}

/// The planes of a picture, and with them whether it has colour.
#[derive(Clone, Copy)]
pub enum Planes<'a> {
    /// Y alone.
    Mono(DataPlane<'a>),
    /// Y, Cb and Cr; 4:2:0, so that Cb and Cr are half as wide and half as high as Y.
    YCbCr((DataPlane<'a>, DataPlane<'a>, DataPlane<'a>)),
}

/// One lent plane.
///
/// It holds whole macroblocks: Y is padded to multiples of 16 samples both ways, Cb and Cr to
/// multiples of 8. The padding is written too, and cropped by the player.
#[derive(Clone, Copy)]
pub struct DataPlane<'a> {
    /// The rows, `stride` bytes each, the last one too. 12-bit samples are packed, two in three
    /// bytes, most significant bits first.
    pub data: &'a [u8],
    /// Bytes from one row's begin to the next one's.
    pub stride: usize,
    /// Bits a sample.
    pub bit_depth: BitDepth,
}

impl<'a> YCbCrImage<'a> {
    /// The same picture in the exports' numbers. Monochrome lends no bytes for Cb and Cr.
    pub(crate) fn numbers(&self) -> ffi::Picture<'a> {
        let (colour, planes) = match self.planes {
            Planes::Mono(y) => {
                let none = DataPlane { data: &[], ..y };
                (0, [y, none, none])
            }
            Planes::YCbCr((y, cb, cr)) => (1, [y, cb, cr]),
        };
        ffi::Picture {
            width: self.width,
            height: self.height,
            colour,
            planes: planes.map(|plane| ffi::Plane {
                bytes: plane.data,
                stride: plane.stride,
                depth: plane.bit_depth.num_bits().into(),
            }),
        }
    }
}
