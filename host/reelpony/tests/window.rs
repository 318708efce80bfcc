//! Takes read from any source, as a host does: with parameter sets that are given, and from sources
//! that give little at a time or fail.

use std::io::{self, Read};

use common::Noise;
use reelpony::reader::{Reader, Sps};
use reelpony::window::{Found, What, Window};
use reelpony::ycbcr_image::{DataPlane, Planes, YCbCrImage};
use reelpony::BitDepth::{Depth12, Depth8};
use reelpony::{H264Writer, Lost, Picture, Refusal, Salvage};

const SHAPES: [Sps; 4] = [
    Sps { width: 17, height: 3, colour: false, bit_depth: Depth8 },
    Sps { width: 6, height: 20, colour: false, bit_depth: Depth12 },
    Sps { width: 34, height: 18, colour: true, bit_depth: Depth8 },
    Sps { width: 4, height: 34, colour: true, bit_depth: Depth12 },
];

/// The pictures of a take behind its parameter sets, which have the length that is told.
fn take(sps: Sps, pictures: usize, noise: &mut Noise) -> (Vec<u8>, usize) {
    let mut writer = H264Writer::new(Vec::new()).unwrap();
    for _ in 0..pictures {
        let samples: Vec<u8> =
            (0..48 * 48 * 3 / 2).map(|_| noise.pick(&[0, 0, 1, 3, 7, 0x80, 0xFF])).collect();
        let plane = DataPlane { data: &samples, stride: 72, bit_depth: sps.bit_depth };
        let planes = match sps.colour {
            true => Planes::YCbCr((plane, plane, plane)),
            false => Planes::Mono(plane),
        };
        let image = YCbCrImage { planes, width: sps.width, height: sps.height };
        writer.write(&image).unwrap();
    }
    let take = writer.into_inner();
    let sets = take.windows(5).position(|five| five == [0, 0, 0, 1, 0x25]).unwrap();
    (take, sets)
}

/// Gives a few bytes at a time.
struct Slow<'a> {
    rest: &'a [u8],
    noise: Noise,
}

impl Read for Slow<'_> {
    fn read(&mut self, out: &mut [u8]) -> io::Result<usize> {
        let most = out.len().min(1 + self.noise.below(300) as usize);
        self.rest.read(&mut out[..most])
    }
}

fn slowly(bytes: &[u8]) -> Slow<'_> {
    Slow { rest: bytes, noise: Noise::new(21, bytes.len() as u64) }
}

/// Fails.
struct Torn;

impl Read for Torn {
    fn read(&mut self, _: &mut [u8]) -> io::Result<usize> {
        Err(io::Error::new(io::ErrorKind::ConnectionReset, "torn"))
    }
}

/// What a slice gives, with nothing held or with these sets.
fn by_slice(bytes: &[u8], held: Option<Sps>) -> Vec<Result<Picture, Lost>> {
    let reader = held.map_or(Reader::new(), Reader::holding);
    Salvage::from_reader(reader, bytes).collect()
}

/// What a window over the same bytes gives.
fn by_window(bytes: &[u8], held: Option<Sps>) -> Vec<Result<Picture, Lost>> {
    let mut window = Window::new(slowly(bytes));
    if let Some(sps) = held {
        window.hold(sps).unwrap();
    }
    window.salvage().collect::<io::Result<_>>().unwrap()
}

/// A take whose sets are cut off comes back with those of another take, whole and damaged.
#[test]
fn a_take_without_its_sets() {
    for (case, sps) in SHAPES.into_iter().enumerate() {
        let mut noise = Noise::new(22, case as u64);
        let (take, sets) = take(sps, 5, &mut noise);
        let whole = by_slice(&take, None);
        assert_eq!(whole.iter().flatten().count(), 5);
        let mut pictures = take[sets..].to_vec();

        // Its samples, in the window's planes.
        let mut window = Window::with_samples(slowly(&pictures));
        window.hold(sps).unwrap();
        assert!(window.sps() == Some(sps) && window.has_pps());
        for picture in whole.iter().flatten() {
            let Found { offset, length, what } = window.next().unwrap().unwrap();
            assert_eq!(what, What::Picture);
            let [offset, length] = [offset, length].map(|number| number as usize);
            assert_eq!((offset + sets, length), (picture.offset, picture.length));
            assert_eq!(*window.planes(), [&*picture.y, &picture.cb, &picture.cr]);
        }
        assert_eq!(window.next().unwrap(), None);
        assert_eq!(window.offset(), pictures.len() as u64);

        // Pictures of their own.
        let saved = by_window(&pictures, Some(sps));
        let samples = |found: &[Result<Picture, Lost>]| -> Vec<[Vec<u8>; 3]> {
            let pictures = found.iter().flatten().cloned();
            pictures.map(|Picture { y, cb, cr, .. }| [y, cb, cr]).collect()
        };
        assert_eq!(samples(&saved), samples(&whole));
        assert_eq!(saved, by_slice(&pictures, Some(sps)));
        let refused = by_window(&pictures, None);
        let is_refused = |found: &Result<Picture, Lost>| matches!(found, Err(lost) if lost.refusal == Refusal::NothingHeld);
        assert!(refused.len() == 5 && refused.iter().all(is_refused), "{refused:?}");

        // One picture loses a byte that is no zero.
        let middle = pictures.len() / 2;
        let lost = (middle..).find(|&at| pictures[at] > 3).unwrap();
        pictures.remove(lost);
        let saved = by_window(&pictures, Some(sps));
        assert_eq!(saved, by_slice(&pictures, Some(sps)));
        assert_eq!(saved.iter().flatten().count(), 4);
        // And the first one its first half: those bytes belong to no unit.
        pictures.drain(..whole[0].as_ref().unwrap().length / 2);
        let saved = by_window(&pictures, Some(sps));
        assert_eq!(saved, by_slice(&pictures, Some(sps)));
        assert_eq!(saved[0].as_ref().unwrap_err().refusal, Refusal::Stray);
        assert_eq!(saved.iter().flatten().count(), 3);
    }
}

/// The sets can be given when pictures were met already, and a window that only looked can save
/// what is still to come.
#[test]
fn sets_that_come_late() {
    let sps = SHAPES[2];
    let (take, sets) = take(sps, 4, &mut Noise::new(23, 0));
    let whole = by_slice(&take[sets..], Some(sps));
    let mut window = Window::new(slowly(&take[sets..]));
    let refused = window.next().unwrap().unwrap();
    assert_eq!(refused.what, What::Refused(Refusal::NothingHeld));
    window.hold(sps).unwrap();
    assert_eq!(window.next().unwrap().unwrap().what, What::Picture);
    assert_eq!(*window.planes(), [vec![], vec![], vec![]]);
    let rest: Vec<_> = window.salvage().map(|found| found.unwrap()).collect();
    assert_eq!(rest, whole[2..]);
}

/// Sets of a size or kind that no take has count as none.
#[test]
fn a_size_that_no_take_has() {
    let good = SHAPES[0];
    let (take, sets) = take(good, 3, &mut Noise::new(24, 0));
    for sps in [
        Sps { width: 0, ..good },
        Sps { height: 16_385, ..good },
        Sps { colour: true, ..good },
        Sps { bit_depth: Depth12, ..good },
        Sps { width: u32::MAX, height: u32::MAX, colour: true, bit_depth: Depth12 },
    ] {
        for bytes in [&take[..], &take[sets..], &take[..take.len() - 1], &[]] {
            assert_eq!(by_window(bytes, Some(sps)), by_window(bytes, None), "{sps:?}");
        }
        assert_eq!(by_window(&take, Some(sps)).iter().flatten().count(), 3);
    }
    // Of another size that takes have: nothing is read as what it is not.
    let other = Sps { width: 16, ..good };
    let refused = by_window(&take, Some(other));
    assert_eq!(refused, by_slice(&take, Some(other)));
    assert_eq!(refused[0].as_ref().unwrap_err().refusal, Refusal::OtherThanHeld);
    assert!(refused.iter().all(Result::is_err));
}

/// A source that fails behind any count of bytes: what was found before, the error, and no more.
#[test]
fn a_source_that_fails_anywhere() {
    let (take, _) = take(SHAPES[0], 3, &mut Noise::new(25, 0));
    let whole = by_slice(&take, None);
    let mut most = 0;
    for left in 0..=take.len() {
        let mut salvage = Window::new(take[..left].chain(Torn)).salvage();
        let mut found = Vec::new();
        let error = loop {
            match salvage.next().expect("an error before the end") {
                Ok(item) => found.push(item),
                Err(error) => break error,
            }
        };
        assert_eq!(error.to_string(), "torn");
        assert_eq!(found, whole[..found.len()], "at {left}");
        // A picture is one when the start code behind it was seen.
        let ends = whole.iter().flatten().map(|picture| picture.offset + picture.length);
        assert_eq!(found.len(), ends.filter(|end| end + 4 <= left).count(), "at {left}");
        most = most.max(found.len());
        assert!(salvage.next().is_none() && salvage.next().is_none());
    }
    assert_eq!(most, 2);
}
