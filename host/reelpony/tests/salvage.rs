//! Takes that are whole, cut, damaged or no takes at all, read picture by picture.

use common::Noise;
use reelpony::reader::{Answer, PlanesMut, Reader, Sps};
use reelpony::ycbcr_image::{DataPlane, Planes, YCbCrImage};
use reelpony::BitDepth::{self, Depth12, Depth8};
use reelpony::{LessEncoder, Lost, Picture, Pictures, Refusal, Salvage};

/// A take of some pictures, the offset of each behind its start code, and their visible samples.
struct Shoot {
    take: Vec<u8>,
    offsets: Vec<usize>,
    planes: Vec<[Vec<u8>; 3]>,
    sps: Sps,
}

impl Shoot {
    /// Noise with many zeros, in rows with padding.
    fn new(noise: &mut Noise, sps: Sps, pictures: usize) -> Shoot {
        let mut shoot = Shoot { take: Vec::new(), offsets: Vec::new(), planes: Vec::new(), sps };
        let mut encoder: Option<LessEncoder> = None;
        for _ in 0..pictures {
            let Sps { width, height, colour, bit_depth } = sps;
            let chroma = (width / 2, height / 2, 8);
            let padded = [(width, height, 16), chroma, chroma]
                .map(|(across, down, side)| plane(noise, across, down, side, bit_depth));
            let [y, cb, cr] = [0, 1, 2].map(|i| {
                let (data, _, stride) = &padded[i];
                DataPlane { data, stride: *stride, bit_depth }
            });
            let planes = if colour { Planes::YCbCr((y, cb, cr)) } else { Planes::Mono(y) };
            let image = YCbCrImage { planes, width, height };
            let unit = match &mut encoder {
                Some(encoder) => encoder.encode(&image).unwrap(),
                None => {
                    let (first, begun) = LessEncoder::new(&image).unwrap();
                    encoder = Some(begun);
                    shoot.take.extend(first.sps.to_annex_b_data());
                    shoot.take.extend(first.pps.to_annex_b_data());
                    first.frame
                }
            };
            shoot.offsets.push(shoot.take.len() + 4);
            shoot.take.extend(unit.to_annex_b_data());
            let [y, cb, cr] = padded.map(|(_, visible, _)| visible);
            shoot.planes.push(if colour { [y, cb, cr] } else { [y, vec![], vec![]] });
        }
        shoot
    }

    /// The picture that was written, as it must be read at the place where it stands now.
    fn picture(&self, which: usize, moved: isize) -> Picture {
        let [y, cb, cr] = self.planes[which].clone();
        let end = self.offsets.get(which + 1).map_or(self.take.len(), |next| next - 4);
        let length = end - self.offsets[which];
        let offset = self.offsets[which].checked_add_signed(moved).unwrap();
        Picture { sps: self.sps, y, cb, cr, offset, length }
    }
}

/// A plane with its padding, its visible rows alone, and its stride.
fn plane(
    noise: &mut Noise,
    across: u32,
    down: u32,
    side: u32,
    depth: BitDepth,
) -> (Vec<u8>, Vec<u8>, usize) {
    let bytes = |samples: u32| samples as usize * usize::from(depth.num_bits()) / 8;
    let (row, stride) = (bytes(across), bytes(across.next_multiple_of(side)));
    let length = stride * down.next_multiple_of(side) as usize;
    let padded: Vec<u8> = (0..length).map(|_| noise.pick(&[0, 0, 1, 3, 7, 0x80, 0xFF])).collect();
    let visible = padded.chunks(stride).take(down as usize).flat_map(|line| &line[..row]);
    let visible = visible.copied().collect();
    (padded, visible, stride)
}

const SHAPES: [Sps; 4] = [
    Sps { width: 17, height: 3, colour: false, bit_depth: Depth8 },
    Sps { width: 6, height: 20, colour: false, bit_depth: Depth12 },
    Sps { width: 34, height: 18, colour: true, bit_depth: Depth8 },
    Sps { width: 4, height: 34, colour: true, bit_depth: Depth12 },
];

#[test]
fn whole_takes() {
    for sps in SHAPES {
        let shoot = Shoot::new(&mut Noise::new(1, 1), sps, 5);
        let expected: Vec<Picture> = (0..5).map(|which| shoot.picture(which, 0)).collect();
        let pictures: Result<Vec<Picture>, Lost> = Pictures::new(&shoot.take).collect();
        assert_eq!(pictures.as_ref(), Ok(&expected));
        let mut salvage = Salvage::new(&shoot.take);
        assert_eq!(salvage.by_ref().collect::<Result<Vec<_>, _>>(), pictures);
        assert_eq!(salvage.next(), None);
        assert_eq!(salvage.reader().place(), shoot.take.len());
        assert_eq!(salvage.reader().sps(), Some(sps));
        // A reading that goes on where another one stopped.
        let mut pictures = Pictures::new(&shoot.take);
        pictures.by_ref().take(2).for_each(drop);
        let rest: Result<Vec<_>, _> =
            Salvage::from_reader(pictures.reader(), &shoot.take).collect();
        assert_eq!(rest.unwrap(), expected[2..]);
    }
}

/// A byte of the second picture is lost: the others are saved by one, and end the other.
#[test]
fn a_lost_byte() {
    for sps in SHAPES {
        let mut shoot = Shoot::new(&mut Noise::new(2, 1), sps, 4);
        let whole = shoot.picture(1, 0);
        // Not a zero, so that no run of zeros becomes another one.
        let middle = whole.offset + whole.length / 2;
        let lost = (middle..).find(|&at| shoot.take[at] > 3).unwrap();
        let before = shoot.take.clone();
        shoot.take.remove(lost);
        let refused =
            Lost { refusal: Refusal::PictureShort, offset: whole.offset, length: whole.length - 1 };
        let found: Vec<_> = Salvage::new(&shoot.take).collect();
        shoot.take = before;
        let saved = |which, moved| Ok(shoot.picture(which, moved));
        let expected = [saved(0, 0), Err(refused), saved(2, -1), saved(3, -1)];
        // What was removed can leave two zeros before another byte; then 12 is the refusal.
        match &found[1] {
            Err(lost) if lost.refusal == Refusal::Escaping => {
                assert_eq!((lost.offset, lost.length), (refused.offset, refused.length));
                assert_eq!(found[2..], expected[2..]);
            }
            _ => assert_eq!(found, expected),
        }
        let mut take = shoot.take.clone();
        take.remove(lost);
        let strict: Vec<_> = Pictures::new(&take).collect();
        assert_eq!(strict, found[..2]);
    }
}

/// Cut anywhere: every picture that is whole is saved, and at most one thing is refused, last.
#[test]
fn every_cut() {
    for sps in SHAPES {
        let shoot = Shoot::new(&mut Noise::new(3, 1), sps, 2);
        let ends: Vec<usize> =
            (0..2).map(|which| shoot.offsets[which] + shoot.picture(which, 0).length).collect();
        for cut in 0..shoot.take.len() {
            let take = &shoot.take[..cut];
            let found: Vec<_> = Salvage::new(take).collect();
            let whole = ends.iter().filter(|end| **end <= cut).count();
            let saved: Vec<_> = found.iter().flatten().cloned().collect();
            let expected: Vec<_> = (0..whole).map(|which| shoot.picture(which, 0)).collect();
            assert_eq!(saved, expected, "cut at {cut}");
            match &found[whole..] {
                [] => {}
                [Err(lost)] => {
                    let numbers = [Refusal::Empty, Refusal::ParameterSet, Refusal::PictureShort];
                    assert!(numbers.contains(&lost.refusal), "cut at {cut}: {lost}");
                    let bytes = &take[lost.offset..];
                    assert!(bytes[lost.length..].iter().all(|&byte| byte == 0), "cut at {cut}");
                    assert!(bytes[..lost.length].last() != Some(&0), "cut at {cut}");
                }
                more => panic!("cut at {cut}: {more:?}"),
            }
        }
    }
}

/// Stray bytes and units without bytes have lengths too.
#[test]
fn lengths_of_what_is_lost() {
    let take = [7, 8, 0, 0, 0, 1, 0, 0, 1, 9, 9, 9, 0, 0, 0, 0, 1, 0x68, 0, 0];
    let found: Vec<_> = Salvage::new(&take).collect();
    let lost = |refusal, offset, length| Err(Lost { refusal, offset, length });
    assert_eq!(
        found,
        [
            lost(Refusal::Stray, 0, 2),
            lost(Refusal::Empty, 6, 0),
            lost(Refusal::Header, 9, 3),
            lost(Refusal::ParameterSet, 17, 1),
        ]
    );
    let Err(lost) = &found[0] else { unreachable!() };
    assert_eq!(
        lost.to_string(),
        "2 bytes at 0 are lost: the bytes belong to no unit, since no start code stands before them (refusal 10)"
    );
}

/// Arbitrary bytes, and takes with arbitrary damage: no panic, the end is reached, the items come in
/// order without overlap, and they are what a plain loop over the reader finds.
#[test]
fn arbitrary_damage() {
    let mut counts = [0; 2];
    for case in 0..4000 {
        let mut noise = Noise::new(4, case);
        let take = if noise.once_in(4) {
            let length = noise.below(400) as usize;
            (0..length)
                .map(|_| noise.pick(&[0, 0, 0, 1, 1, 2, 3, 0x25, 0x67, 0x68, 0x80]))
                .collect()
        } else {
            let sps = noise.pick(&SHAPES);
            let pictures = 2 + noise.below(5) as usize;
            let mut take = Shoot::new(&mut noise, sps, pictures).take;
            for _ in 0..1 + noise.below(3) {
                damage(&mut noise, &mut take);
            }
            take
        };
        let mut salvage = Salvage::new(&take);
        let found: Vec<_> = salvage.by_ref().take(take.len() + 1).collect();
        assert!(found.len() <= take.len(), "case {case}");
        assert_eq!(salvage.next(), None, "case {case}");
        assert!(take[salvage.reader().place().min(take.len())..].iter().all(|&byte| byte == 0));
        assert_eq!(found, by_a_plain_loop(&take), "case {case}");
        let mut behind = 0;
        for item in &found {
            let (offset, length) = match item {
                Ok(picture) => (picture.offset, picture.length),
                Err(lost) => (lost.offset, lost.length),
            };
            assert!(offset >= behind && offset + length <= take.len(), "case {case}");
            behind = offset + length;
            counts[usize::from(item.is_err())] += 1;
        }
        let good = found.iter().position(Result::is_err).map_or(found.len(), |first| first + 1);
        assert_eq!(Pictures::new(&take).collect::<Vec<_>>(), found[..good], "case {case}");
    }
    assert!(counts.iter().all(|&count| count > 2000), "{counts:?} pictures and losses are too few");
}

/// Bytes changed, cut out, put in, or wiped.
fn damage(noise: &mut Noise, take: &mut Vec<u8>) {
    let at = noise.below(take.len() as u64 + 1) as usize;
    let end = (at + 1 + noise.below(40) as usize).min(take.len());
    match noise.below(5) {
        0 => drop(take.drain(at..end)),
        1 => take[at..end].fill(0),
        2 => take[at..end].iter_mut().for_each(|byte| *byte = noise.below(256) as u8),
        3 => drop(take.splice(at..at, [0, 0, 1, noise.pick(&[0x25, 0x67, 0x68, 0x41])])),
        _ => take.truncate(at),
    }
}

/// The same from the reader, with planes that are always long enough and lengths found by a search
/// for start codes.
fn by_a_plain_loop(take: &[u8]) -> Vec<Result<Picture, Lost>> {
    let mut found = Vec::new();
    let mut reader = Reader::new();
    loop {
        let [mut y, mut cb, mut cr] = [(); 3].map(|()| vec![0xEE; 4000]);
        let planes = PlanesMut { y: &mut y, cb: &mut cb, cr: &mut cr };
        let length = |offset: usize| {
            let end = take[offset..].windows(3).position(|three| three == [0, 0, 1]);
            let unit = &take[offset..end.map_or(take.len(), |end| offset + end)];
            unit.len() - unit.iter().rev().take_while(|&&byte| byte == 0).count()
        };
        match reader.read(take, planes) {
            Answer::End => return found,
            Answer::Picture { offset } => {
                let sps = reader.sps().unwrap();
                let lengths = sps.plane_lengths();
                for (plane, length) in [&mut y, &mut cb, &mut cr].into_iter().zip(lengths) {
                    plane.truncate(length);
                }
                found.push(Ok(Picture { sps, y, cb, cr, offset, length: length(offset) }));
            }
            Answer::Refused { refusal, offset } => {
                found.push(Err(Lost { refusal, offset, length: length(offset) }));
            }
            _ => {}
        }
    }
}
