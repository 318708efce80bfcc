//! The cases that the project's paper of exact rules names to be run: their bytes, lengths and
//! refusals, through the safe layer.

use reelpony::ycbcr_image::{DataPlane, Planes, YCbCrImage};
use reelpony::BitDepth::{self, Depth12, Depth8};
use reelpony::{ffi, next, start, Refusal};

/// A plane with tight rows.
struct Plane {
    data: Vec<u8>,
    stride: usize,
    bit_depth: BitDepth,
}

impl Plane {
    /// As wide and high as `width` and `height` padded to multiples of `side`, each byte `value`.
    fn padded(width: u32, height: u32, side: u32, bit_depth: BitDepth, value: u8) -> Plane {
        let samples = width.next_multiple_of(side) as usize;
        let stride = samples * usize::from(bit_depth.num_bits()) / 8;
        let rows = height.next_multiple_of(side) as usize;
        Plane { data: vec![value; stride * rows], stride, bit_depth }
    }

    fn lent(&self) -> DataPlane<'_> {
        DataPlane { data: &self.data, stride: self.stride, bit_depth: self.bit_depth }
    }
}

/// Room for every picture here.
const AMPLE: usize = 1 << 20;

/// The bytes that the start call of a picture writes into `room`; those behind must stay.
fn written(image: &YCbCrImage, room: usize) -> Result<Vec<u8>, Refusal> {
    let mut out = vec![0xEE; room];
    let (length, _) = start(image, &mut out)?;
    assert!(out[length..].iter().all(|&byte| byte == 0xEE));
    out.truncate(length);
    Ok(out)
}

/// The same for a monochrome picture whose bytes are all `value`.
fn mono(width: u32, height: u32, depth: BitDepth, value: u8) -> Result<Vec<u8>, Refusal> {
    let y = Plane::padded(width, height, 16, depth, value);
    written(&YCbCrImage { planes: Planes::Mono(y.lent()), width, height }, AMPLE)
}

/// The same for one in colour.
fn colour(width: u32, height: u32, depth: BitDepth, value: u8) -> Result<Vec<u8>, Refusal> {
    let y = Plane::padded(width, height, 16, depth, value);
    let chroma = Plane::padded(width / 2, height / 2, 8, depth, value);
    let planes = Planes::YCbCr((y.lent(), chroma.lent(), chroma.lent()));
    written(&YCbCrImage { planes, width, height }, AMPLE)
}

#[test]
fn mono_8_of_286_bytes() {
    let mut expected = vec![0, 0, 0, 1, 0x67, 0x64, 0, 0x0A, 0xF3, 0xDC, 0x9B, 1];
    expected.extend([0, 0, 0, 1, 0x68, 0xCE, 0x38, 0x80]);
    expected.extend([0, 0, 0, 1, 0x25, 0x88, 0x84, 0x28, 0x68]);
    expected.extend([0x10; 256]);
    expected.push(0x80);
    assert_eq!(expected.len(), 286);
    let y = Plane::padded(16, 16, 16, Depth8, 0x10);
    let image = YCbCrImage { planes: Planes::Mono(y.lent()), width: 16, height: 16 };
    assert_eq!(written(&image, 285), Err(Refusal::Output { needed: 286 }));
    assert_eq!(written(&image, 286), Ok(expected.clone()));
    assert_eq!(written(&image, AMPLE), Ok(expected));
}

#[test]
fn lengths() {
    assert_eq!(mono(16, 16, Depth8, 0).unwrap().len(), 413);
    assert_eq!(colour(16, 16, Depth8, 0x10).unwrap().len(), 414);
}

/// Cases 4 to 6: the sequence parameter set of other sizes and kinds, behind its start code.
#[test]
fn parameter_sets() {
    assert_eq!(
        mono(17, 16, Depth8, 0x10).unwrap()[4..14],
        [0x67, 0x64, 0, 0x0A, 0xF3, 0xCB, 0x61, 0x0E, 0x6C, 4]
    );
    assert_eq!(
        mono(16, 16, Depth12, 0x10).unwrap()[4..13],
        [0x67, 0xF4, 0, 0x0A, 0xCA, 0x53, 0xDC, 0x9B, 1]
    );
    assert_eq!(
        colour(16, 16, Depth8, 0x10).unwrap()[4..12],
        [0x67, 0x42, 0, 0x0A, 0xFB, 0x93, 0x60, 0x20]
    );
}

#[test]
fn limits_of_size() {
    let number = |bytes: Result<Vec<u8>, Refusal>| bytes.map_or_else(|r| r.number(), |_| 0);
    assert_eq!(number(mono(16_384, 1, Depth8, 0x10)), 0);
    assert_eq!(number(mono(16_385, 1, Depth8, 0x10)), 1);
    assert_eq!(number(mono(1, 16_384, Depth8, 0x10)), 0);
    assert_eq!(number(mono(1, 16_385, Depth8, 0x10)), 1);
    assert_eq!(number(mono(0, 16, Depth8, 0x10)), 1);
    assert_eq!(number(mono(1, 1, Depth8, 0x10)), 0);
    assert_eq!(number(mono(1, 1, Depth12, 0x10)), 4);
    assert_eq!(number(colour(16, 16, Depth8, 0x10)), 0);
    assert_eq!(number(colour(16, 17, Depth8, 0x10)), 5);
    assert_eq!(number(colour(4, 2, Depth12, 0x10)), 0);
    assert_eq!(number(colour(6, 2, Depth12, 0x10)), 3);
}

#[test]
fn a_plane_one_byte_short() {
    let y = Plane::padded(16, 16, 16, Depth8, 0x10);
    let short = DataPlane { data: &y.data[1..], ..y.lent() };
    let narrow = DataPlane { stride: 15, ..y.lent() };
    for (plane, refusal) in [(short, Refusal::Rows), (narrow, Refusal::Stride)] {
        let image = YCbCrImage { planes: Planes::Mono(plane), width: 16, height: 16 };
        assert_eq!(written(&image, AMPLE), Err(refusal));
    }
}

/// A next call writes the picture alone, and wants a picture like the first.
#[test]
fn next_picture() {
    let y = Plane::padded(16, 16, 16, Depth8, 0x10);
    let mut image = YCbCrImage { planes: Planes::Mono(y.lent()), width: 16, height: 16 };
    let mut out = [0; 286];
    let (length, mut session) = start(&image, &mut out).unwrap();
    let mut more = [0; 266];
    assert_eq!(next(&mut session, &image, &mut more), Ok(266));
    assert_eq!(more, out[length - 266..]);

    let before = session;
    image.width = 15;
    assert_eq!(next(&mut session, &image, &mut more), Err(Refusal::OtherThanSession));
    assert_eq!(session, before);
}

/// Colours and depths that don't exist come before every other test.
#[test]
fn numbers_that_are_no_format() {
    let picture = |colour, depths: [u32; 3]| ffi::Picture {
        width: 0,
        height: 0,
        colour,
        planes: depths.map(|depth| ffi::Plane { bytes: &[], stride: 0, depth }),
    };
    let number = |picture| {
        let answer = ffi::start(&picture, &mut [], &mut [0; 8]);
        assert_eq!(answer.length, 0);
        answer.number
    };
    assert_eq!(number(picture(7, [8, 8, 8])), 99);
    assert_eq!(number(picture(0, [9, 8, 8])), 99);
    assert_eq!(number(picture(1, [8, 8, 9])), 99);
    assert_eq!(number(picture(0, [8, 9, 0])), 1);
}
