//! The reader and the small calls through the safe layer: the project's worked cases, a take of each
//! kind back and forth, and each refusal once.

use reelpony::reader::{Answer, PlanesMut, Reader, Sps};
use reelpony::ycbcr_image::{DataPlane, Planes, YCbCrImage};
use reelpony::BitDepth::{self, Depth12, Depth8};
use reelpony::{golomb, nal_unit, next, start, Refusal, Salvage};

/// Monochrome 8, 16x16, all samples 10 hex.
fn take_of_286() -> Vec<u8> {
    let mut take = vec![0, 0, 0, 1, 0x67, 0x64, 0, 0x0A, 0xF3, 0xDC, 0x9B, 1];
    take.extend([0, 0, 0, 1, 0x68, 0xCE, 0x38, 0x80]);
    take.extend([0, 0, 0, 1, 0x25, 0x88, 0x84, 0x28, 0x68]);
    take.extend([0x10; 256]);
    take.push(0x80);
    take
}

const SPS_16: Sps = Sps { width: 16, height: 16, colour: false, bit_depth: Depth8 };

/// The answers up to the end, with planes for 16x16, and the reader that is left.
fn read(take: &[u8]) -> (Vec<Answer>, Reader) {
    let mut reader = Reader::new();
    let mut answers = Vec::new();
    loop {
        let planes = PlanesMut { y: &mut [0; 256], cb: &mut [], cr: &mut [] };
        match reader.read(take, planes) {
            Answer::End => return (answers, reader),
            answer => answers.push(answer),
        }
    }
}

#[test]
fn a_take_of_286_bytes() {
    let take = take_of_286();
    let (answers, reader) = read(&take);
    let sps = Answer::Sps { offset: 4, sps: SPS_16 };
    assert_eq!(answers, [sps, Answer::Pps { offset: 16 }, Answer::Picture { offset: 24 }]);
    assert_eq!(reader.place(), 286);
    assert_eq!(reader.sps(), Some(SPS_16));
    assert!(reader.has_pps());
}

#[test]
fn nothing() {
    let mut reader = Reader::new();
    assert_eq!(reader.read(&[], PlanesMut::none()), Answer::End);
    assert_eq!(reader, Reader::new());
    assert_eq!(reader.sps(), None);
    assert!(!reader.has_pps());
}

/// Planes that are too short keep the place, so that the call can be made again.
#[test]
fn planes_too_short_and_then_enough() {
    let take = take_of_286();
    let mut reader = Reader::new();
    for _ in 0..2 {
        reader.read(&take, PlanesMut::none());
    }
    let before = reader;
    let mut y = [7; 257];
    let planes = PlanesMut { y: &mut y[..255], cb: &mut [], cr: &mut [] };
    let refused = Answer::Refused { refusal: Refusal::Planes, offset: 24 };
    assert_eq!(reader.read(&take, planes), refused);
    assert_eq!(reader, before);
    assert_eq!(y, [7; 257]);
    let mut cb = [7];
    let planes = PlanesMut { y: &mut y, cb: &mut cb, cr: &mut [] };
    assert_eq!(reader.read(&take, planes), Answer::Picture { offset: 24 });
    assert_eq!(y[..256], [0x10; 256]);
    assert_eq!((y[256], cb), (7, [7]));
}

/// A picture of each kind, written with padding and read without.
#[test]
fn every_kind_comes_back() {
    for (colour, bit_depth, width, height) in [
        (false, Depth8, 17, 3),
        (false, Depth12, 6, 20),
        (true, Depth8, 18, 2),
        (true, Depth12, 4, 34),
    ] {
        let sps = Sps { width, height, colour, bit_depth };
        let padded = [(width, height, 16), (width / 2, height / 2, 8), (width / 2, height / 2, 8)]
            .map(|(across, down, side)| plane(across, down, side, bit_depth));
        let [y, cb, cr] = [0, 1, 2].map(|i| {
            let (data, _, stride) = &padded[i];
            DataPlane { data, stride: *stride, bit_depth }
        });
        let planes = if colour { Planes::YCbCr((y, cb, cr)) } else { Planes::Mono(y) };
        let image = YCbCrImage { planes, width, height };
        let mut out = vec![0; 10_000];
        let (first, mut session) = start(&image, &mut out).unwrap();
        let second = next(&mut session, &image, &mut out[first..]).unwrap();
        let take = &out[..first + second];

        let mut reader = Reader::new();
        let answer = reader.read(take, PlanesMut::none());
        assert_eq!(answer, Answer::Sps { offset: 4, sps });
        assert!(matches!(reader.read(take, PlanesMut::none()), Answer::Pps { .. }));
        for _ in 0..2 {
            let [mut y, mut cb, mut cr] = sps.plane_lengths().map(|length| vec![0; length]);
            let planes = PlanesMut { y: &mut y, cb: &mut cb, cr: &mut cr };
            assert!(matches!(reader.read(take, planes), Answer::Picture { .. }));
            assert_eq!(y, padded[0].1);
            if colour {
                assert_eq!([&cb, &cr], [&padded[1].1, &padded[2].1]);
            } else {
                assert!(cb.is_empty() && cr.is_empty());
            }
        }
        assert_eq!(reader.read(take, PlanesMut::none()), Answer::End);
    }
}

/// A take whose parameter sets are lost is read with those of another one, from its first byte and
/// from any place.
#[test]
fn a_take_without_its_sets() {
    let take = take_of_286();
    let pictures = [&take[20..], &take[20..]].concat();
    let mut y = [0; 256];
    let mut lent = |reader: &mut Reader, take: &[u8]| {
        y.fill(0);
        let answer = reader.read(take, PlanesMut { y: &mut y, cb: &mut [], cr: &mut [] });
        (answer, y == [0x10; 256])
    };
    let nothing_held = Answer::Refused { refusal: Refusal::NothingHeld, offset: 4 };
    assert_eq!(lent(&mut Reader::new(), &pictures), (nothing_held, false));

    let mut reader = Reader::holding(SPS_16);
    assert_eq!((reader.place(), reader.sps(), reader.has_pps()), (0, Some(SPS_16), true));
    assert_eq!(lent(&mut reader, &pictures), (Answer::Picture { offset: 4 }, true));
    assert_eq!(lent(&mut reader, &pictures), (Answer::Picture { offset: 270 }, true));
    assert_eq!(lent(&mut reader, &pictures), (Answer::End, false));
    // It is what reading the sets leaves.
    let (_, read) = read(&take);
    assert_eq!(Reader::holding(SPS_16).at(286), read);
    assert_eq!(Reader::new().at(7).at(0), Reader::new());

    // The sets are the take's own, or they are refused and so are its pictures.
    let mut reader = Reader::holding(SPS_16);
    let sps = Answer::Sps { offset: 4, sps: SPS_16 };
    assert_eq!(lent(&mut reader, &take), (sps, false));
    let mut reader = Reader::holding(Sps { width: 15, ..SPS_16 });
    let other = Answer::Refused { refusal: Refusal::OtherThanHeld, offset: 4 };
    assert_eq!(lent(&mut reader, &take), (other, false));
    assert_eq!(lent(&mut reader, &take), (Answer::Pps { offset: 16 }, false));

    // From another place: the second picture, the middle of the first one, the end and behind it.
    let held = Reader::holding(SPS_16);
    for (place, answer) in [
        (266, Answer::Picture { offset: 270 }),
        (267, Answer::Picture { offset: 270 }),
        (268, Answer::Refused { refusal: Refusal::Stray, offset: 268 }),
        (9, Answer::Refused { refusal: Refusal::Stray, offset: 9 }),
        (532, Answer::End),
        (533, Answer::End),
        (usize::MAX, Answer::End),
    ] {
        let mut reader = held.at(place);
        assert_eq!((reader.place(), reader.sps()), (place, Some(SPS_16)));
        let read = matches!(answer, Answer::Picture { .. });
        assert_eq!(lent(&mut reader, &pictures), (answer, read), "at {place}");
    }
    let nothing_held = Answer::Refused { refusal: Refusal::NothingHeld, offset: 270 };
    assert_eq!(lent(&mut Reader::new().at(266), &pictures), (nothing_held, false));
}

/// Sizes and kinds that no take has.
const NO_TAKES: [Sps; 8] = [
    Sps { width: 0, ..SPS_16 },
    Sps { height: 0, ..SPS_16 },
    Sps { width: 16_385, ..SPS_16 },
    Sps { height: 16_385, ..SPS_16 },
    Sps { width: u32::MAX, height: u32::MAX, colour: true, bit_depth: Depth12 },
    Sps { width: 15, bit_depth: Depth12, ..SPS_16 },
    Sps { height: 15, colour: true, ..SPS_16 },
    Sps { width: 14, colour: true, bit_depth: Depth12, ..SPS_16 },
];

/// A reader that holds what no take has holds nothing: a picture is refused with that, and the
/// take's own sets are taken.
#[test]
fn a_size_that_no_take_has() {
    let take = take_of_286();
    let pictures = &take[20..];
    for sps in NO_TAKES {
        assert_eq!(sps.plane_lengths(), [0; 3], "{sps:?}");
        let mut reader = Reader::holding(sps);
        let nothing_held = Answer::Refused { refusal: Refusal::NothingHeld, offset: 4 };
        assert_eq!(reader.read(pictures, PlanesMut::none()), nothing_held, "{sps:?}");
        let found: Vec<_> = Salvage::from_reader(Reader::holding(sps), &take).collect();
        assert!(found.iter().eq(&Salvage::new(&take).collect::<Vec<_>>()), "{sps:?}");
        assert!(matches!(&found[..], [Ok(picture)] if picture.sps == SPS_16), "{found:?}");
    }
}

/// A plane with its padding, its visible rows alone, and its stride.
fn plane(across: u32, down: u32, side: u32, depth: BitDepth) -> (Vec<u8>, Vec<u8>, usize) {
    let bytes = |samples: u32| samples as usize * usize::from(depth.num_bits()) / 8;
    let (row, stride) = (bytes(across), bytes(across.next_multiple_of(side)));
    let length = stride * down.next_multiple_of(side) as usize;
    let padded: Vec<u8> = (0..length).map(|i| (i * 7 % 251) as u8 & 0x1F).collect();
    let visible = padded.chunks(stride).take(down as usize).flat_map(|line| &line[..row]);
    let visible = visible.copied().collect();
    (padded, visible, stride)
}

/// The take with some of its bytes replaced, and the refusal that is met.
#[test]
fn each_refusal() {
    let sets = &take_of_286()[..20];
    let picture = &take_of_286()[20..];
    let other_sps = [0, 0, 1, 0x67, 0x64, 0, 0x0A, 0xF3, 0xCB, 0x61, 0x0E, 0x6C, 4];
    let cases: [(Vec<u8>, Refusal, usize); 9] = [
        ([&[7], sets, picture].concat(), Refusal::Stray, 0),
        ([sets, &[0, 0, 1], picture].concat(), Refusal::Empty, 23),
        ([sets, &[0, 0, 1, 9, 0, 0, 2], picture].concat(), Refusal::Escaping, 23),
        ([sets, &[0, 0, 1, 9], picture].concat(), Refusal::Header, 23),
        ([sets, &[0, 0, 1, 0x68], picture].concat(), Refusal::ParameterSet, 23),
        ([sets, &other_sps, picture].concat(), Refusal::OtherThanHeld, 23),
        ([picture, sets, picture].concat(), Refusal::NothingHeld, 4),
        ([sets, &picture[..265], picture].concat(), Refusal::PictureShort, 24),
        ([sets, picture, &[1], picture].concat(), Refusal::PictureForm, 24),
    ];
    for (take, refusal, offset) in cases {
        let (answers, reader) = read(&take);
        let refused = |answer: &&Answer| matches!(answer, Answer::Refused { .. });
        let refusals: Vec<&Answer> = answers.iter().filter(refused).collect();
        assert_eq!(refusals, [&Answer::Refused { refusal, offset }]);
        // What stands around it is read, the last picture too.
        assert_eq!(answers.len(), 4, "{answers:?}");
        assert!(matches!(answers[3], Answer::Picture { .. }));
        assert_eq!((reader.sps(), reader.place()), (Some(SPS_16), take.len()));
    }
}

#[test]
fn escaping() {
    let mut out = [7; 8];
    assert_eq!(nal_unit::escape(&[0; 5], &mut out), Ok(7));
    assert_eq!(out, [0, 0, 3, 0, 0, 3, 0, 7]);
    let mut back = [7; 6];
    assert_eq!(nal_unit::unescape(&out[..7], &mut back), Ok(5));
    assert_eq!(back, [0, 0, 0, 0, 0, 7]);
    for (payload, escaped) in [(&[0, 0][..], &[0, 0][..]), (&[0, 0, 4], &[0, 0, 4])] {
        assert_eq!(nal_unit::escape(payload, &mut out), Ok(payload.len()));
        assert_eq!(out[..payload.len()], *escaped);
    }
    assert_eq!(nal_unit::escape(&[0, 0, 3], &mut out), Ok(4));
    assert_eq!(out[..4], [0, 0, 3, 3]);
    assert_eq!(nal_unit::escape(&[0, 0, 3], &mut out[..3]), Err(Refusal::NoRoom));
    assert_eq!(nal_unit::unescape(&[0, 0, 1], &mut []), Err(Refusal::Escaping));
    assert_eq!(nal_unit::unescape(&[0, 0, 3], &mut []), Err(Refusal::NoRoom));
    assert_eq!(nal_unit::unescape(&[0, 0, 3], &mut out), Ok(2));
}

#[test]
fn codes() {
    let bits = |bytes: &[u8], n: u64| -> String {
        (0..n as usize)
            .map(|i| if bytes[i / 8] << (i % 8) & 128 == 0 { '0' } else { '1' })
            .collect()
    };
    let mut buffer = [0; 9];
    for (x, code) in [(0, "1"), (7, "0001000"), (25, "000011010")] {
        let behind = golomb::write_ue(&mut buffer, 0, x).unwrap();
        assert_eq!(bits(&buffer, behind), code);
        assert_eq!(golomb::read_ue(&buffer, 0), Ok((x, behind)));
    }
    for (x, code) in [(0, "1"), (-1, "011"), (4, "0001000")] {
        let behind = golomb::write_se(&mut buffer, 0, x).unwrap();
        assert_eq!(bits(&buffer, behind), code);
        assert_eq!(golomb::read_se(&buffer, 0), Ok((x, behind)));
    }
    assert_eq!(golomb::write_ue(&mut buffer, 9, u32::MAX - 1), Ok(72));
    assert_eq!(golomb::read_ue(&buffer, 9), Ok((u32::MAX - 1, 72)));
    assert_eq!(golomb::write_se(&mut buffer, 9, -i32::MAX), Ok(72));
    assert_eq!(golomb::read_se(&buffer, 9), Ok((-i32::MAX, 72)));
    assert_eq!(golomb::write_ue(&mut buffer, 10, u32::MAX - 1), Err(Refusal::NoRoom));
    assert_eq!(golomb::write_ue(&mut [], 0, u32::MAX), Err(Refusal::NoCode));
    assert_eq!(golomb::write_se(&mut [], 0, i32::MIN), Err(Refusal::NoCode));
    assert_eq!(golomb::read_ue(&[0, 0, 0, 0, 255, 255, 255, 255, 255], 0), Err(Refusal::NotACode));
    assert_eq!(golomb::read_se(&[1], 8), Err(Refusal::NotACode));
}
