//! Random calls: every kind, sizes around multiples of 16, good and bad strides, short planes, a
//! session that fits or doesn't. About half of them have nothing wrong, some have two faults, so
//! that the order of the tests shows.

use common::Noise;

use crate::call::{Call, Plane};

/// What is asked of a picture before its planes have bytes.
struct Shape {
    width: u32,
    height: u32,
    colour: u32,
    depths: [u32; 3],
}

/// A session that no accepted call leaves: zeros, numbers without meaning, or one number wrong.
pub fn stray_session(noise: &mut Noise) -> [u32; 8] {
    match noise.below(4) {
        0 => [0; 8],
        1 => [0; 8].map(|_: u32| noise.below(1 << 32) as u32),
        2 => [16, 16, noise.pick(&[2, 7]), noise.pick(&[8, 12]), 0, 0, 0, 0],
        _ => [16, 16, noise.pick(&[0, 1]), noise.pick(&[0, 9, 264]), 0, 0, 0, 0],
    }
}

/// A call. A next call mostly has the session's shape, or the nearest that exists.
pub fn call(noise: &mut Noise, next: bool, session: [u32; 8]) -> Call {
    let mut shape = match session {
        [width @ 1..=16_384, height @ 1..=16_384, colour, depth, ..]
            if next && !noise.once_in(8) =>
        {
            let depth = if depth == 12 { 12 } else { 8 };
            Shape { width, height, colour: colour.min(1), depths: [depth; 3] }
        }
        _ => good_shape(noise),
    };
    let faults = noise.pick(&[0, 0, 0, 0, 0, 1, 1, 1, 2, 2]);
    let in_planes = noise.below(faults + 1);
    for _ in in_planes..faults {
        spoil_shape(noise, &mut shape);
    }
    let content = noise.pick(&CONTENTS);
    let mut planes = [0, 1, 2].map(|i| good_plane(noise, &shape, i, content));
    if shape.colour == 0 {
        // Nothing of these may be looked at.
        for plane in &mut planes[1..] {
            plane.bytes.truncate(noise.below(9) as usize);
            plane.stride = noise.pick(&[0, 1, 16, usize::MAX]);
            plane.depth = noise.pick(&[0, 8, 9, 12, u32::MAX]);
        }
    }
    for _ in 0..in_planes {
        let i = noise.below(if shape.colour == 0 { 1 } else { 3 });
        spoil_plane(noise, &mut planes[i as usize]);
    }
    Call { next, width: shape.width, height: shape.height, colour: shape.colour, planes, session }
}

/// A size and kind that 1 to 5 accept.
fn good_shape(noise: &mut Noise) -> Shape {
    let colour = noise.pick(&[0, 1]);
    let depth = noise.pick(&[8, 12]);
    let across = match (colour, depth) {
        (0, 8) => 1,
        (1, 12) => 4,
        _ => 2,
    };
    Shape {
        width: size(noise).next_multiple_of(across),
        height: size(noise).next_multiple_of(1 + colour),
        colour,
        depths: [depth; 3],
    }
}

/// A width or height: any small one, or one near a multiple of 16, or now and then a larger one.
fn size(noise: &mut Noise) -> u32 {
    let size = match noise.below(3) {
        0 => 1 + noise.below(20),
        1 => 16 * (1 + noise.below(5)) + noise.below(5) - 2,
        _ if noise.once_in(20) => 1 + noise.below(400),
        _ => 1 + noise.below(80),
    };
    size as u32
}

/// Changes a number of the shape, mostly to one that is refused.
fn spoil_shape(noise: &mut Noise, shape: &mut Shape) {
    let plane = noise.below(3) as usize;
    let flipped = |depth: u32| if depth == 8 { 12 } else { 8 };
    match noise.below(13) {
        0 => shape.width = 0,
        1 => shape.height = 0,
        2 => {
            // At the limit and just over it; the other size is small, to save bytes.
            let limit = noise.pick(&[16_384, 16_384, 16_385, 16_388, 16_400, 40_000, u32::MAX]);
            let small = noise.pick(&[2, 16, 18]);
            (shape.width, shape.height) = noise.pick(&[(limit, small), (small, limit)]);
        }
        3 => shape.width ^= 1,
        4 => shape.height ^= 1,
        5 => (shape.width, shape.height) = (shape.width | 1, shape.height | 1),
        6 => shape.width ^= 2,
        7 => shape.width += 16,
        8 => (shape.width, shape.height) = (shape.height, shape.width),
        9 => shape.depths[plane] = flipped(shape.depths[plane]),
        10 => shape.depths = shape.depths.map(flipped),
        11 => shape.colour ^= 1,
        _ if noise.once_in(2) => shape.colour = noise.pick(&[2, 7, 256, u32::MAX]),
        _ => shape.depths[plane] = noise.pick(&[0, 7, 9, 10, 264, u32::MAX]),
    }
}

/// What a plane's bytes are like.
#[derive(Clone, Copy)]
enum Content {
    Random,
    ManyZeros,
    Zeros,
    /// 0 to 4: what escaping looks at.
    Low,
    /// No zero at all.
    Bright,
}

const CONTENTS: [Content; 5] =
    [Content::Random, Content::ManyZeros, Content::Zeros, Content::Low, Content::Bright];

impl Content {
    fn byte(self, noise: &mut Noise) -> u8 {
        let byte = match self {
            Content::Random => noise.below(256),
            Content::ManyZeros if noise.once_in(6) => noise.below(256),
            Content::ManyZeros | Content::Zeros => 0,
            Content::Low => noise.below(5),
            Content::Bright => 1 + noise.below(255),
        };
        byte as u8
    }
}

/// A plane that 7 and 8 accept, often with slack in its rows, rows to spare, or a piece of a row
/// behind the last one. Sizes far over the limit get fewer bytes than they ask for.
fn good_plane(noise: &mut Noise, shape: &Shape, i: usize, content: Content) -> Plane {
    let (part, side) = if i == 0 { (1, 16) } else { (2, 8) };
    let padded = |size: u32| u64::from(size / part).next_multiple_of(side);
    let depth = shape.depths[i];
    let row = (padded(shape.width) * u64::from(depth) / 8).min(1 << 16) as usize;
    let rows = padded(shape.height).min(1 << 15) as usize + noise.pick(&[0, 0, 0, 1, 3]);
    let slack = noise.below(40) as usize;
    let stride = row + noise.pick(&[0, 0, 1, slack]);
    let piece = noise.below(stride as u64 + 1) as usize;
    let length = (stride * rows).min(1 << 21) + noise.pick(&[0, 0, piece]);
    let bytes = (0..length).map(|_| content.byte(noise)).collect();
    Plane { bytes, stride, depth }
}

/// Takes something off a plane, or gives it a stride that doesn't do.
fn spoil_plane(noise: &mut Noise, plane: &mut Plane) {
    let (length, stride) = (plane.bytes.len(), plane.stride);
    let some = noise.below(length as u64 + 1) as usize;
    match noise.below(10) {
        0 => plane.stride = 0,
        1 => plane.stride = stride.saturating_sub(1),
        2 => plane.stride = noise.below(stride as u64 + 1) as usize,
        3 => plane.stride = noise.pick(&[1 << 32, 1 << 63, usize::MAX]),
        4 => plane.stride += 1,
        5 => plane.bytes.truncate(length.saturating_sub(1)),
        6 => plane.bytes.truncate(length.saturating_sub(stride)),
        7 => plane.bytes.truncate(length.saturating_sub(stride + 1)),
        8 => plane.bytes.truncate(some),
        _ => plane.bytes.clear(),
    }
}
