//! What is not promised: a take has no checksums, so a stretch that is lost from the middle of one
//! picture to the same place of the next leaves one picture that is half the one and half the other.

use reelpony::ycbcr_image::{DataPlane, Planes, YCbCrImage};
use reelpony::{next, start, BitDepth, Salvage};

/// A take of two pictures of one macroblock each, the smallest that this can happen to.
fn take_of_two(first: u8, second: u8) -> (Vec<u8>, usize) {
    let planes = [[first; 256], [second; 256]];
    let [first, second] = &planes;
    let images = [first, second].map(|data| YCbCrImage {
        planes: Planes::Mono(DataPlane { data, stride: 16, bit_depth: BitDepth::Depth8 }),
        width: 16,
        height: 16,
    });
    let mut out = [0; 1024];
    let (length, mut session) = start(&images[0], &mut out).unwrap();
    let mut take = out[..length].to_vec();
    let length = next(&mut session, &images[1], &mut out).unwrap();
    take.extend(&out[..length]);
    (take, length)
}

#[test]
fn two_pictures_can_be_joined_to_one_unseen() {
    let (mut take, unit) = take_of_two(16, 32);
    let middle = take.len() - unit - 1 - 128;
    take.drain(middle..middle + unit);
    let found: Vec<_> = Salvage::new(&take).collect();
    let [Ok(picture)] = &found[..] else { panic!("{found:?}") };
    assert_eq!(picture.y, [[16; 128], [32; 128]].concat());
}

#[test]
fn one_byte_less_is_seen() {
    let (mut take, unit) = take_of_two(16, 32);
    let middle = take.len() - unit - 1 - 128;
    take.drain(middle..middle + unit + 1);
    let found: Vec<_> = Salvage::new(&take).collect();
    let [Err(lost)] = &found[..] else { panic!("{found:?}") };
    assert_eq!(lost.refusal.number(), 17);
}
