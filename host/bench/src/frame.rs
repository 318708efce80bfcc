//! The pictures that are timed.

use common::Noise;
use reelpony::ycbcr_image::{DataPlane, Planes, YCbCrImage};
use reelpony::BitDepth;

pub const WIDTH: usize = 4096;
pub const HEIGHT: usize = 2160;

/// Colour or not, and the depth.
#[derive(Clone, Copy)]
pub struct Kind {
    colour: bool,
    bit_depth: BitDepth,
}

pub const KINDS: [Kind; 4] = [
    Kind { colour: false, bit_depth: BitDepth::Depth8 },
    Kind { colour: true, bit_depth: BitDepth::Depth8 },
    Kind { colour: true, bit_depth: BitDepth::Depth12 },
    Kind { colour: false, bit_depth: BitDepth::Depth12 },
];

impl Kind {
    /// As the oracle's bench calls it.
    pub fn name(&self) -> String {
        let colour = if self.colour { "colour" } else { "mono" };
        format!("{colour}{}", self.bit_depth.num_bits())
    }
}

/// What the samples are like.
#[derive(Clone, Copy)]
pub enum Content {
    NoZeros,
    Natural,
    Zeros,
}

pub const CONTENTS: [Content; 3] = [Content::NoZeros, Content::Natural, Content::Zeros];

impl Content {
    /// As the oracle's bench calls it.
    pub fn name(&self) -> &'static str {
        match self {
            Content::NoZeros => "no zero bytes",
            Content::Natural => "natural",
            Content::Zeros => "all zeros",
        }
    }
}

/// Samples of a plane.
#[derive(Clone, Copy)]
struct Size {
    across: usize,
    down: usize,
}

/// A plane with its own bytes, and how many bytes of a row are samples.
struct Plane {
    data: Vec<u8>,
    row: usize,
    stride: usize,
}

impl Plane {
    /// A plane of `size` samples across and down, `slack` bytes behind each row.
    fn new(
        noise: &mut Noise,
        size: Size,
        depth: BitDepth,
        content: Content,
        slack: usize,
    ) -> Plane {
        let row = size.across * usize::from(depth.num_bits()) / 8;
        let stride = row + slack;
        let mut data = Vec::with_capacity(stride * size.down);
        for y in 0..size.down {
            match content {
                Content::Zeros => data.resize(data.len() + row, 0),
                Content::NoZeros => data.extend((0..row).map(|_| 1 + noise.below(255) as u8)),
                Content::Natural => {
                    for x in (0..size.across).step_by(2) {
                        let [a, b] = [x, x + 1].map(|x| natural(noise, x, y, size, depth));
                        match depth {
                            BitDepth::Depth8 => data.extend([a as u8, b as u8]),
                            BitDepth::Depth12 => {
                                data.extend([(a >> 4) as u8, (a << 4 | b >> 8) as u8, b as u8])
                            }
                        }
                    }
                }
            }
            data.resize(data.len() + slack, 0);
        }
        Plane { data, row, stride }
    }
}

/// A sample of a slope across the plane from 0 to about 255, with noise of 6 either way, cut off at
/// the ends and scaled to the depth, as the oracle's bench has it.
fn natural(noise: &mut Noise, x: usize, y: usize, size: Size, depth: BitDepth) -> i64 {
    let scale = 1 << (depth.num_bits() - 8);
    let slope = (x * 160 / size.across + y * 95 / size.down) as i64 * scale;
    let value = slope + noise.below(12 * scale as u64 + 1) as i64 - 6 * scale;
    value.clamp(0, 256 * scale - 1)
}

/// A picture with its own bytes.
pub struct Frame {
    kind: Kind,
    planes: Vec<Plane>,
}

impl Frame {
    /// `slack` bytes stand behind the samples of each row.
    pub fn new(kind: Kind, content: Content, slack: usize) -> Frame {
        let mut noise = Noise::new(1, 0);
        let luma = Size { across: WIDTH, down: HEIGHT };
        let chroma = Size { across: WIDTH / 2, down: HEIGHT / 2 };
        let sizes = &[luma, chroma, chroma][..if kind.colour { 3 } else { 1 }];
        let plane = |size: &Size| Plane::new(&mut noise, *size, kind.bit_depth, content, slack);
        Frame { kind, planes: sizes.iter().map(plane).collect() }
    }

    /// How many bytes are samples.
    pub fn samples(&self) -> usize {
        let bytes = |plane: &Plane| plane.data.len() / plane.stride * plane.row;
        self.planes.iter().map(bytes).sum()
    }

    pub fn image(&self) -> YCbCrImage<'_> {
        let lent = |i: usize| {
            let plane = &self.planes[i];
            DataPlane { data: &plane.data, stride: plane.stride, bit_depth: self.kind.bit_depth }
        };
        YCbCrImage {
            planes: match self.kind.colour {
                true => Planes::YCbCr((lent(0), lent(1), lent(2))),
                false => Planes::Mono(lent(0)),
            },
            width: WIDTH as u32,
            height: HEIGHT as u32,
        }
    }

    /// Copies the samples, one plane behind the other: whole where rows are tight, else by the row.
    pub fn copy(&self, mut room: &mut [u8]) {
        for plane in &self.planes {
            let (piece, step) = match plane.row == plane.stride {
                true => (plane.data.len(), plane.data.len()),
                false => (plane.row, plane.stride),
            };
            for row in plane.data.chunks_exact(step) {
                let (front, behind) = room.split_at_mut(piece);
                front.copy_from_slice(&row[..piece]);
                room = behind;
            }
        }
    }
}
