//! `H264Writer` over sinks of every temper: the same take as the other calls write, and no byte
//! behind a part of a picture.

use std::cell::RefCell;
use std::io::{self, BufWriter, Write};
use std::panic::{catch_unwind, AssertUnwindSafe};
use std::rc::Rc;

use common::Noise;
use reelpony::ycbcr_image::{DataPlane, Planes, YCbCrImage};
use reelpony::BitDepth::{self, Depth12, Depth8};
use reelpony::{next, room, start, Error, H264Writer, LessEncoder, Pictures, Refusal, Salvage};

const KINDS: [(bool, BitDepth); 4] =
    [(false, Depth8), (false, Depth12), (true, Depth8), (true, Depth12)];

/// A picture with its own samples.
struct Shot {
    colour: bool,
    bit_depth: BitDepth,
    width: u32,
    height: u32,
    planes: [(Vec<u8>, usize); 3],
}

impl Shot {
    /// Samples from 0 to `range` - 1, in padded rows.
    fn new(kind: (bool, BitDepth), width: u32, height: u32, range: u64, noise: &mut Noise) -> Shot {
        let (colour, bit_depth) = kind;
        let chroma = (width / 2, height / 2, 8);
        let planes = [(width, height, 16), chroma, chroma].map(|(across, down, side)| {
            let samples = across.next_multiple_of(side) as usize;
            let stride = samples * usize::from(bit_depth.num_bits()) / 8;
            let length = stride * down.next_multiple_of(side) as usize;
            ((0..length).map(|_| noise.below(range) as u8).collect(), stride)
        });
        Shot { colour, bit_depth, width, height, planes }
    }

    fn image(&self) -> YCbCrImage<'_> {
        let [y, cb, cr] = [0, 1, 2].map(|i| {
            let (data, stride) = &self.planes[i];
            DataPlane { data, stride: *stride, bit_depth: self.bit_depth }
        });
        let planes = if self.colour { Planes::YCbCr((y, cb, cr)) } else { Planes::Mono(y) };
        YCbCrImage { planes, width: self.width, height: self.height }
    }
}

/// Three pictures of 16x16 with few zeros, and the take that they make by `start` and `next`, with
/// the place behind each.
fn small_take() -> (Vec<Shot>, Vec<u8>, Vec<usize>) {
    let mut noise = Noise::new(11, 0);
    let shots: Vec<Shot> =
        (0..3).map(|_| Shot::new((false, Depth8), 16, 16, 200, &mut noise)).collect();
    let (take, ends) = by_lent_calls(&shots);
    (shots, take, ends)
}

/// The take by the calls that write to lent memory, and the place behind each picture.
fn by_lent_calls(shots: &[Shot]) -> (Vec<u8>, Vec<usize>) {
    let (mut take, mut ends) = (Vec::new(), Vec::new());
    let mut session = None;
    for shot in shots {
        let image = shot.image();
        let mut out = vec![0; room(&image)];
        let length = match &mut session {
            Some(session) => next(session, &image, &mut out).unwrap(),
            None => {
                let (length, begun) = start(&image, &mut out).unwrap();
                session = Some(begun);
                length
            }
        };
        take.extend(&out[..length]);
        ends.push(take.len());
    }
    (take, ends)
}

/// The take by the encoder's units.
fn by_encoder(shots: &[Shot]) -> Vec<u8> {
    let (first, mut encoder) = LessEncoder::new(&shots[0].image()).unwrap();
    let mut take: Vec<u8> = first.into_iter().flat_map(|unit| unit.to_annex_b_data()).collect();
    for shot in &shots[1..] {
        take.extend(encoder.encode(&shot.image()).unwrap().as_annex_b_data());
    }
    take
}

/// One take, whoever writes it.
#[test]
fn the_same_take() {
    for kind in KINDS {
        for (width, height) in [(4, 2), (16, 16), (20, 50), (324, 18)] {
            // Zeros alone take most room, and the pictures of a take differ in length.
            let mut noise = Noise::new(12, u64::from(width));
            let shots: Vec<Shot> = [256, 1, 3, 256]
                .into_iter()
                .map(|range| Shot::new(kind, width, height, range, &mut noise))
                .collect();
            let (take, ends) = by_lent_calls(&shots);
            let mut writer = H264Writer::new(Vec::new()).unwrap();
            assert_eq!(writer.written(), 0);
            for (shot, end) in shots.iter().zip(ends) {
                writer.write(&shot.image()).unwrap();
                assert_eq!(writer.written(), end as u64);
            }
            assert_eq!(writer.into_inner(), take);
            assert_eq!(by_encoder(&shots), take);
            assert_eq!(Pictures::new(&take).filter(Result::is_ok).count(), 4);
        }
    }
}

/// Sinks as hosts have them: a sink that is lent, one behind a pointer, one that holds back.
#[test]
fn sinks_of_hosts() {
    let (shots, take, _) = small_take();
    fn write<W: Write>(shots: &[Shot], sink: W) -> W {
        let mut writer = H264Writer::new(sink).unwrap();
        shots.iter().for_each(|shot| writer.write(&shot.image()).unwrap());
        writer.into_inner()
    }
    let mut lent = Vec::new();
    write(&shots, &mut lent);
    assert_eq!(lent, take);
    let mut boxed = Vec::new();
    let sink: Box<dyn Write + '_> = Box::new(&mut boxed);
    drop(write(&shots, sink));
    assert_eq!(boxed, take);
    assert_eq!(write(&shots, BufWriter::new(Vec::new())).into_inner().unwrap(), take);
    // Behind what the sink had before, and one take behind another.
    let behind = write(&shots, write(&shots, vec![0; 3]));
    assert_eq!(behind, [&[0; 3], &take[..], &take].concat());
    assert_eq!(Pictures::new(&behind).filter(Result::is_ok).count(), 6);
    // Nothing was written.
    assert_eq!(write(&[], vec![7]), [7]);

    fn can_go_to_a_thread<T: Send>(_: &T) {}
    can_go_to_a_thread(&H264Writer::new(Vec::new()).unwrap());
}

/// What a sink was asked for, seen from outside of the writer.
#[derive(Clone, Default)]
struct Seen {
    bytes: Rc<RefCell<Vec<u8>>>,
    calls: Rc<RefCell<u32>>,
}

/// How a sink fails when it has no more room.
#[derive(Clone, Copy, Debug)]
enum Failure {
    Full,
    /// It takes nothing and says no error.
    TakesNothing,
    Panic,
}

/// Takes so many bytes.
struct Limited {
    seen: Seen,
    left: usize,
    failure: Failure,
}

impl Write for Limited {
    fn write(&mut self, bytes: &[u8]) -> io::Result<usize> {
        *self.seen.calls.borrow_mut() += 1;
        let taken = bytes.len().min(self.left);
        self.left -= taken;
        self.seen.bytes.borrow_mut().extend(&bytes[..taken]);
        match (taken, self.failure) {
            (0, Failure::Full) => Err(io::Error::new(io::ErrorKind::BrokenPipe, "full")),
            (0, Failure::Panic) => panic!("the sink's own"),
            (taken, _) => Ok(taken),
        }
    }

    fn flush(&mut self) -> io::Result<()> {
        panic!("nobody asked for it");
    }
}

/// A sink that fails behind every count of bytes: those are the take's first ones, no more come,
/// and the whole pictures among them can be told and read.
#[test]
fn a_sink_that_fails_anywhere() {
    let (shots, take, ends) = small_take();
    for failure in [Failure::Full, Failure::TakesNothing] {
        for room in 0..take.len() {
            let seen = Seen::default();
            let sink = Limited { seen: seen.clone(), left: room, failure };
            let mut writer = H264Writer::new(sink).unwrap();
            let whole = ends.iter().filter(|end| **end <= room).count();
            for shot in &shots[..whole] {
                writer.write(&shot.image()).unwrap();
            }
            let error = writer.write(&shots[whole].image()).unwrap_err();
            let Error::IoError { source } = &error else { panic!("{error} at {room}") };
            match failure {
                Failure::Full => assert_eq!(source.to_string(), "full"),
                _ => assert_eq!(source.kind(), io::ErrorKind::WriteZero),
            }
            assert_eq!(error.refusal(), None);
            let calls = *seen.calls.borrow();
            let written = if whole == 0 { 0 } else { ends[whole - 1] };
            // A good picture, a bad one, and again.
            let narrow = YCbCrImage { width: 15, ..shots[0].image() };
            for image in [shots[whole].image(), narrow, shots[0].image()] {
                let error = writer.write(&image).unwrap_err();
                assert!(matches!(error, Error::InconsistentState {}), "{error} at {room}");
                assert_eq!(writer.written(), written as u64);
            }
            assert_eq!(*seen.calls.borrow(), calls, "at {room}");
            let mut sink = writer.into_inner();
            let bytes = sink.seen.bytes.borrow().clone();
            assert_eq!(bytes, take[..room]);

            // Cut to what is whole, and as it is.
            let found: Result<Vec<_>, _> = Pictures::new(&bytes[..written]).collect();
            let found = found.unwrap();
            assert_eq!(found.len(), whole);
            let salvage: Vec<_> = Salvage::new(&bytes).collect();
            assert!(salvage.iter().flatten().eq(&found), "at {room}");
            assert!(salvage.len() <= whole + 1, "at {room}");
            // A host that knows of the part can go on with a take of its own behind it.
            sink.left = usize::MAX;
            let mut again = H264Writer::new(sink).unwrap();
            again.write(&shots[2].image()).unwrap();
            let bytes = again.into_inner().seen.bytes.take();
            let last = Salvage::new(&bytes).last().unwrap().unwrap();
            assert_eq!(last.y, shots[2].planes[0].0, "at {room}");
        }
    }
}

/// A sink that panics in the middle of a picture gets no other one behind it.
#[test]
fn a_sink_that_panics() {
    let (shots, take, ends) = small_take();
    let seen = Seen::default();
    let sink = Limited { seen: seen.clone(), left: ends[0] + 9, failure: Failure::Panic };
    let mut writer = H264Writer::new(sink).unwrap();
    writer.write(&shots[0].image()).unwrap();
    let write = AssertUnwindSafe(|| writer.write(&shots[1].image()));
    assert!(catch_unwind(write).is_err());
    let error = writer.write(&shots[2].image()).unwrap_err();
    assert!(matches!(error, Error::InconsistentState {}), "{error}");
    assert_eq!(writer.written(), ends[0] as u64);
    assert_eq!(*seen.bytes.borrow(), take[..ends[0] + 9]);
}

/// Takes a few bytes at a time, and is interrupted.
struct Stutter {
    bytes: Vec<u8>,
    noise: Noise,
}

impl Write for Stutter {
    fn write(&mut self, bytes: &[u8]) -> io::Result<usize> {
        if self.noise.once_in(4) {
            return Err(io::ErrorKind::Interrupted.into());
        }
        let taken = bytes.len().min(1 + self.noise.below(40) as usize);
        self.bytes.extend(&bytes[..taken]);
        Ok(taken)
    }

    fn flush(&mut self) -> io::Result<()> {
        panic!("nobody asked for it");
    }
}

#[test]
fn a_sink_that_stutters() {
    for (case, kind) in KINDS.into_iter().enumerate() {
        let mut noise = Noise::new(13, case as u64);
        let shots: Vec<Shot> =
            (0..5).map(|turn| Shot::new(kind, 36, 20, 1 + turn * 60, &mut noise)).collect();
        let mut writer = H264Writer::new(Stutter { bytes: Vec::new(), noise }).unwrap();
        for shot in &shots {
            writer.write(&shot.image()).unwrap();
        }
        assert_eq!(writer.into_inner().bytes, by_lent_calls(&shots).0);
    }
}

/// Refused pictures before the first, between and behind the others leave no byte, and the take is
/// the one without them. Those before the first have other sizes, larger and smaller ones.
#[test]
fn refused_pictures_write_nothing() {
    let mut noise = Noise::new(14, 0);
    let kind = (true, Depth8);
    let good: Vec<Shot> = (0..3).map(|_| Shot::new(kind, 20, 20, 3, &mut noise)).collect();
    let [tiny, large] = [2, 200].map(|side| Shot::new(kind, side, side, 1, &mut noise));
    let mono = Shot::new((false, Depth8), 20, 20, 3, &mut noise);
    let deep = Shot::new((true, Depth12), 20, 20, 3, &mut noise);
    let image = good[0].image();
    let Planes::YCbCr((y, cb, cr)) = image.planes else { unreachable!() };
    let with = |y, cb, cr| YCbCrImage { planes: Planes::YCbCr((y, cb, cr)), ..image };
    // Refused as a first picture and as a next one.
    let bad = [
        (YCbCrImage { width: 0, ..image }, Refusal::Size),
        (YCbCrImage { height: 16_385, ..image }, Refusal::Size),
        (YCbCrImage { width: u32::MAX, height: u32::MAX, ..image }, Refusal::Size),
        (with(y, cb, DataPlane { bit_depth: Depth12, ..cr }), Refusal::Depths),
        (YCbCrImage { width: 18, ..deep.image() }, Refusal::Colour12Width),
        (YCbCrImage { width: 19, ..image }, Refusal::OddWidth),
        (YCbCrImage { width: 199, ..large.image() }, Refusal::OddWidth),
        (YCbCrImage { height: 1, ..tiny.image() }, Refusal::OddHeight),
        (with(DataPlane { stride: 31, ..y }, cb, cr), Refusal::Stride),
        (with(DataPlane { stride: 0, ..y }, cb, cr), Refusal::Stride),
        (with(y, DataPlane { data: &[], ..cb }, cr), Refusal::Rows),
        (with(y, cb, DataPlane { data: &cr.data[1..], ..cr }), Refusal::Rows),
    ];
    // Refused as a next one only.
    let others =
        [&tiny, &large, &mono, &deep].map(|shot| (shot.image(), Refusal::OtherThanSession));

    let (take, ends) = by_lent_calls(&good);
    let seen = Seen::default();
    let sink = Limited { seen: seen.clone(), left: usize::MAX, failure: Failure::Full };
    let mut writer = H264Writer::new(sink).unwrap();
    let refuse = |writer: &mut H264Writer<Limited>, pictures: &[(YCbCrImage, Refusal)]| {
        let before = (seen.bytes.borrow().len(), *seen.calls.borrow(), writer.written());
        for (image, refusal) in pictures {
            let error = writer.write(image).unwrap_err();
            assert_eq!(error.refusal(), Some(*refusal), "{error}");
        }
        let after = (seen.bytes.borrow().len(), *seen.calls.borrow(), writer.written());
        assert_eq!(after, before);
    };
    refuse(&mut writer, &bad);
    for (shot, end) in good.iter().zip(ends) {
        writer.write(&shot.image()).unwrap();
        assert_eq!(writer.written(), end as u64);
        refuse(&mut writer, &bad);
        refuse(&mut writer, &others);
    }
    assert_eq!(writer.into_inner().seen.bytes.take(), take);

    // After each refused one alone, as the first.
    for (image, _) in &bad {
        let mut writer = H264Writer::new(Vec::new()).unwrap();
        writer.write(image).unwrap_err();
        for shot in &good {
            writer.write(&shot.image()).unwrap();
        }
        assert_eq!(writer.into_inner(), take);
    }
}

/// The bytes of a picture are no part of what is shown.
#[test]
fn shown() {
    let (shots, take, _) = small_take();
    let mut writer = H264Writer::new(Vec::new()).unwrap();
    shots.iter().for_each(|shot| writer.write(&shot.image()).unwrap());
    let shown = format!("{writer:?}");
    assert!(shown.contains(&take.len().to_string()) && shown.len() < 200, "{shown}");
}
