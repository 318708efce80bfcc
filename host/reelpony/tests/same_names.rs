//! The calls that less-avc has, and what they promise beside its bytes (host/same_source compares
//! those): the same units as the lent calls, refusals that can be told, room that is enough.

use reelpony::nal_unit::{NalRefIdc, NalUnit, NalUnitType, RbspData};
use reelpony::ycbcr_image::{DataPlane, Planes, YCbCrImage};
use reelpony::BitDepth::{self, Depth12, Depth8};
use reelpony::{next, room, start, LessEncoder, Pictures, Refusal};

/// Y, Cb and Cr with their strides, padded to whole macroblocks; each byte is `value` of its place.
fn planes(
    width: u32,
    height: u32,
    depth: BitDepth,
    value: fn(usize) -> u8,
) -> [(Vec<u8>, usize); 3] {
    [(width, height, 16), (width / 2, height / 2, 8), (width / 2, height / 2, 8)].map(
        |(across, down, side)| {
            let samples = across.next_multiple_of(side) as usize;
            let stride = samples * usize::from(depth.num_bits()) / 8;
            let length = stride * down.next_multiple_of(side) as usize;
            ((0..length).map(value).collect(), stride)
        },
    )
}

/// Lent as a picture.
fn image<'a>(
    planes: &'a [(Vec<u8>, usize); 3],
    colour: bool,
    bit_depth: BitDepth,
    width: u32,
    height: u32,
) -> YCbCrImage<'a> {
    let [y, cb, cr] = [0, 1, 2].map(|i| {
        let (data, stride) = &planes[i];
        DataPlane { data, stride: *stride, bit_depth }
    });
    let planes = if colour { Planes::YCbCr((y, cb, cr)) } else { Planes::Mono(y) };
    YCbCrImage { planes, width, height }
}

const KINDS: [(bool, BitDepth); 4] =
    [(false, Depth8), (false, Depth12), (true, Depth8), (true, Depth12)];

/// The encoder's units are the lent calls' bytes, each behind its start code, and `room` is enough
/// for the worst content: zeros.
#[test]
fn units_are_the_lent_calls_bytes() {
    let contents: [fn(usize) -> u8; 3] = [|_| 0, |i| (i % 251) as u8, |_| 0x10];
    for (colour, depth) in KINDS {
        for (width, height) in [(4, 2), (16, 16), (20, 50), (644, 18)] {
            for content in contents {
                let planes = planes(width, height, depth, content);
                let image = image(&planes, colour, depth, width, height);
                let mut out = vec![0; room(&image)];
                let (length, mut session) = start(&image, &mut out).unwrap();
                let (first, mut encoder) = LessEncoder::new(&image).unwrap();
                assert_eq!(first.sps.to_nal_unit()[0], 0x67);
                assert_eq!(first.pps.to_nal_unit(), [0x68, 0xCE, 0x38, 0x80]);
                assert_eq!(first.frame.to_nal_unit()[..5], [0x25, 0x88, 0x84, 0x28, 0x68]);
                let bytes: Vec<u8> =
                    first.into_iter().flat_map(|unit| unit.to_annex_b_data()).collect();
                assert_eq!(bytes, out[..length]);

                let length = next(&mut session, &image, &mut out).unwrap();
                let unit = encoder.encode(&image).unwrap();
                assert_eq!(unit.as_annex_b_data(), &out[..length]);
                assert_eq!(unit.to_annex_b_data(), &out[..length]);
                assert_eq!(unit.to_nal_unit(), &out[4..length]);
            }
        }
    }
}

/// Units that are kept stay as they were while more pictures are written, and an encoder that was
/// refused goes on.
#[test]
fn units_that_are_kept() {
    let contents: [fn(usize) -> u8; 4] = [|_| 0, |_| 1, |i| i as u8, |_| 0xFF];
    let pictures = contents.map(|content| planes(20, 20, Depth8, content));
    let images = [0, 1, 2, 3].map(|i| image(&pictures[i], true, Depth8, 20, 20));
    let (first, mut encoder) = LessEncoder::new(&images[0]).unwrap();
    let kept: Vec<NalUnit> = images.iter().map(|image| encoder.encode(image).unwrap()).collect();
    let narrow = YCbCrImage { width: 18, ..images[1] };
    assert!(encoder.encode(&narrow).is_err());
    assert_eq!(kept[0], first.frame);
    assert_ne!(kept[1], first.frame);
    for (unit, image) in kept.iter().zip(&images) {
        let (own, mut another) = LessEncoder::new(image).unwrap();
        assert_eq!(unit.to_annex_b_data(), own.frame.to_annex_b_data());
        drop(another.encode(&images[3]).unwrap());
        assert_eq!(*unit, another.encode(image).unwrap());
    }
}

/// The least output for which nothing is counted is not far below `room`.
#[test]
fn room_is_no_waste() {
    let planes = planes(640, 480, Depth8, |_| 0);
    let image = image(&planes, false, Depth8, 640, 480);
    let needed = start(&image, &mut []).unwrap_err().needed().unwrap();
    // Zeros come to half as many bytes again, but for the header before each macroblock.
    assert!(room(&image) - needed < 2000, "{} and {needed}", room(&image));
}

/// Planes that are too short for any output take none.
#[test]
fn no_room_for_what_is_refused() {
    let planes = planes(16, 16, Depth8, |_| 0);
    for (width, height) in [(16_384, 16_384), (u32::MAX, u32::MAX), (17, 16)] {
        assert_eq!(room(&image(&planes, false, Depth8, width, height)), 0);
        assert_eq!(room(&image(&planes, true, Depth8, width, height)), 0);
    }
}

/// Every refusal of the writer, from `new` and from `encode`, which goes on behind it.
#[test]
fn refusals_can_be_told() {
    let good = planes(16, 16, Depth8, |i| i as u8);
    let (_, mut encoder) = LessEncoder::new(&image(&good, true, Depth8, 16, 16)).unwrap();
    let mut check = |image: &YCbCrImage, refusal: Refusal, as_next: Refusal| {
        let error = LessEncoder::new(image).map(|_| ()).unwrap_err();
        assert_eq!(error.refusal(), Some(refusal), "{error}");
        assert_eq!(encoder.encode(image).unwrap_err().refusal(), Some(as_next));
    };
    let mut both = |image: &YCbCrImage, refusal| check(image, refusal, refusal);
    both(&image(&good, true, Depth8, 0, 16), Refusal::Size);
    both(&image(&good, true, Depth8, 16, 16_385), Refusal::Size);
    both(&image(&good, true, Depth12, 14, 16), Refusal::Colour12Width);
    both(&image(&good, true, Depth8, 15, 16), Refusal::OddWidth);
    both(&image(&good, true, Depth8, 16, 15), Refusal::OddHeight);
    let mixed = {
        let image = image(&good, true, Depth8, 16, 16);
        let Planes::YCbCr((y, cb, cr)) = image.planes else { unreachable!() };
        let cr = DataPlane { bit_depth: Depth12, ..cr };
        YCbCrImage { planes: Planes::YCbCr((y, cb, cr)), ..image }
    };
    both(&mixed, Refusal::Depths);
    for plane in 0..3 {
        let mut narrow = good.clone();
        narrow[plane].1 -= 1;
        both(&image(&narrow, true, Depth8, 16, 16), Refusal::Stride);
        let mut zero = good.clone();
        zero[plane].1 = 0;
        both(&image(&zero, true, Depth8, 16, 16), Refusal::Stride);
        // The crate counts a row that isn't whole, and then panics.
        let mut short = good.clone();
        short[plane].0.pop();
        both(&image(&short, true, Depth8, 16, 16), Refusal::Rows);
    }
    check(&image(&good, true, Depth8, 32, 16), Refusal::Stride, Refusal::OtherThanSession);
    let mono = image(&good, false, Depth8, 16, 16);
    assert_eq!(encoder.encode(&mono).unwrap_err().refusal(), Some(Refusal::OtherThanSession));
    let unit = encoder.encode(&image(&good, true, Depth8, 16, 16)).unwrap();
    assert_eq!(unit.to_nal_unit()[0], 0x25);
}

/// A caller's own unit stands in a take as any other, and is told as such.
#[test]
fn a_unit_of_ones_own() {
    let rbsp_data = RbspData { data: vec![5, 0, 0, 1, 0x80] };
    let unit = NalUnit::new(
        NalRefIdc::Zero,
        NalUnitType::SupplementalEnhancementInformation,
        rbsp_data.clone(),
    );
    assert_eq!(unit.to_annex_b_data(), [0, 0, 0, 1, 6, 5, 0, 0, 3, 1, 0x80]);
    let mut found = Pictures::new(unit.as_annex_b_data());
    let lost = found.next().unwrap().unwrap_err();
    assert_eq!((lost.refusal, lost.offset, lost.length), (Refusal::Header, 4, 7));
    let zeros = RbspData { data: vec![0; 9] };
    let unit = NalUnit::new(NalRefIdc::Three, NalUnitType::PictureParameterSet, zeros);
    assert_eq!(unit.to_nal_unit(), [0x68, 0, 0, 3, 0, 0, 3, 0, 0, 3, 0, 0, 3, 0]);
}
