//! Pictures of any sizes, strides and lengths, given to every call that takes one: an answer, and
//! the same one from each.

use common::Noise;
use reelpony::ycbcr_image::{DataPlane, Planes, YCbCrImage};
use reelpony::BitDepth::{Depth12, Depth8};
use reelpony::{next, room, start, LessEncoder, Refusal};

/// Sizes near what matters, and far off.
const SIDES: [u32; 14] =
    [0, 1, 2, 3, 4, 15, 16, 17, 20, 32, 16_384, 16_385, u32::MAX - 15, u32::MAX];

#[test]
fn any_picture_gets_an_answer() {
    let bytes: Vec<u8> = (0..6000).map(|i| (i % 7) as u8).collect();
    let mut seen = [0; 10];
    for case in 0..30_000 {
        let mut noise = Noise::new(5, case);
        let noise = &mut noise;
        let near = noise.once_in(2);
        let side =
            |noise: &mut Noise| if near { noise.pick(&[4, 16, 20]) } else { noise.pick(&SIDES) };
        let (width, height) = (side(noise), side(noise));
        let depth = noise.pick(&[Depth8, Depth12]);
        let mut plane = || {
            let stride = noise.pick(&[0, 1, 8, 12, 15, 16, 24, 32, 48, 6000, usize::MAX]);
            let length = noise.pick(&[0, 1, 255, 256, 768, 1024, 1535, 1536, 6000]);
            let stride = if near { noise.pick(&[48, 50, stride]) } else { stride };
            let length = if near { noise.pick(&[6000, length]) } else { length };
            let bit_depth = if noise.once_in(9) { Depth8 } else { depth };
            DataPlane { data: &bytes[..length], stride, bit_depth }
        };
        let planes = [plane(), plane(), plane()];
        let planes = match noise.once_in(2) {
            true => Planes::Mono(planes[0]),
            false => Planes::YCbCr((planes[0], planes[1], planes[2])),
        };
        let image = YCbCrImage { planes, width, height };

        let room = room(&image);
        let by_encoder = LessEncoder::new(&image);
        let mut out = vec![0; room.min(1 << 24)];
        match start(&image, &mut out) {
            Ok((length, mut session)) => {
                let (first, mut encoder) = by_encoder.expect("as the lent call");
                let bytes: Vec<u8> =
                    first.into_iter().flat_map(|unit| unit.to_annex_b_data()).collect();
                assert_eq!(bytes, out[..length], "case {case}");
                let length = next(&mut session, &image, &mut out).expect("the same picture again");
                let unit = encoder.encode(&image).expect("the same picture again");
                assert_eq!(unit.as_annex_b_data(), &out[..length], "case {case}");
                seen[0] += 1;
            }
            Err(refusal) => {
                assert!(!matches!(refusal, Refusal::Output { .. }), "case {case}: room is enough");
                let error = by_encoder.map(|_| ()).expect_err("as the lent call");
                assert_eq!(error.refusal(), Some(refusal), "case {case}");
                assert!(!error.to_string().is_empty());
                seen[refusal.number() as usize] += 1;
            }
        }
    }
    // All but 6 and 9, which no start call gives with enough room.
    let unseen: Vec<usize> = (0..10).filter(|&i| seen[i] < 20).collect();
    assert_eq!(unseen, [6, 9], "{seen:?}");
}
