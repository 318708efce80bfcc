//! A caller of less-avc's API. This file is compiled twice, with `codec` standing for less-avc and
//! for reelpony, and what the two programs leave in their folders has to be the same (see run).
//!
//! Usage: same_source FOLDER
//!
//! Only what both define is asked for: less-avc panics at size 0, for instance, where reelpony
//! refuses.

use std::cell::RefCell;
use std::error::Error as _;
use std::fmt::Write as _;
use std::io::{self, BufWriter, Write as _};
use std::path::Path;
use std::process::ExitCode;
use std::rc::Rc;
use std::{env, fs};

use codec::nal_unit::{InitialNalUnits, NalRefIdc, NalUnit, NalUnitType};
use codec::ycbcr_image::{DataPlane, Planes, YCbCrImage};
use codec::{BitDepth, Error, H264Writer, LessEncoder, RbspData};

/// What the samples are like.
#[derive(Clone, Copy, Debug)]
enum Content {
    Zeros,
    /// From 0 to 3, where escaping has most to do.
    Low,
    Noise,
    Ramp,
}

const CONTENTS: [Content; 4] = [Content::Zeros, Content::Low, Content::Noise, Content::Ramp];

/// Colour, depth, width, height, and bytes behind each padded row.
const SHAPES: [(bool, BitDepth, u32, u32, usize); 16] = [
    (false, BitDepth::Depth8, 1, 1, 0),
    (false, BitDepth::Depth8, 16, 16, 0),
    (false, BitDepth::Depth8, 17, 16, 3),
    (false, BitDepth::Depth8, 33, 47, 1),
    (false, BitDepth::Depth8, 640, 480, 64),
    (false, BitDepth::Depth12, 2, 1, 0),
    (false, BitDepth::Depth12, 6, 20, 5),
    (false, BitDepth::Depth12, 34, 18, 0),
    (true, BitDepth::Depth8, 2, 2, 0),
    (true, BitDepth::Depth8, 18, 34, 7),
    (true, BitDepth::Depth8, 64, 48, 0),
    (true, BitDepth::Depth8, 322, 242, 0),
    (true, BitDepth::Depth12, 4, 2, 0),
    (true, BitDepth::Depth12, 16, 16, 1),
    (true, BitDepth::Depth12, 36, 50, 0),
    (true, BitDepth::Depth12, 320, 240, 0),
];

/// A picture with its own bytes.
struct Picture {
    colour: bool,
    bit_depth: BitDepth,
    width: u32,
    height: u32,
    /// Y, Cb and Cr, each with its stride.
    planes: [(Vec<u8>, usize); 3],
}

impl Picture {
    /// The padded planes of a shape; `turn` makes the pictures of a take differ.
    fn new(shape: (bool, BitDepth, u32, u32, usize), content: Content, turn: u64) -> Picture {
        let (colour, bit_depth, width, height, slack) = shape;
        let mut state = turn * 1_000_003 + u64::from(width) * 131 + u64::from(height);
        let mut plane = |across: u32, down: u32, side: u32| {
            let across = across.div_ceil(side) * side;
            let stride = across as usize * usize::from(bit_depth.num_bits()) / 8 + slack;
            let length = stride * (down.div_ceil(side) * side) as usize;
            let sample = |i: usize| {
                state = state.wrapping_mul(6_364_136_223_846_793_005).wrapping_add(1);
                match content {
                    Content::Zeros => 0,
                    Content::Low => (state >> 62) as u8,
                    Content::Noise => (state >> 56) as u8,
                    Content::Ramp => (i as u64 + turn * 5) as u8,
                }
            };
            ((0..length).map(sample).collect(), stride)
        };
        let planes = [
            plane(width, height, 16),
            plane(width / 2, height / 2, 8),
            plane(width / 2, height / 2, 8),
        ];
        Picture { colour, bit_depth, width, height, planes }
    }

    fn image(&self) -> YCbCrImage<'_> {
        let plane = |i: usize| {
            let (data, stride) = &self.planes[i];
            DataPlane { data, stride: *stride, bit_depth: self.bit_depth }
        };
        let planes = if self.colour {
            Planes::YCbCr((plane(0), plane(1), plane(2)))
        } else {
            Planes::Mono(plane(0))
        };
        YCbCrImage { planes, width: self.width, height: self.height }
    }
}

/// A take of three pictures, each unit taken in both forms.
fn take(pictures: &[Picture; 3]) -> Result<(Vec<u8>, Vec<u8>), Error> {
    let (mut bytes, mut units) = (Vec::new(), Vec::new());
    let mut add = |unit: &NalUnit| {
        bytes.extend(unit.to_annex_b_data());
        units.extend(unit.to_nal_unit());
    };
    let [first, rest @ ..] = pictures;
    let (initial, mut encoder) = LessEncoder::new(&first.image())?;
    for unit in initial.into_iter() {
        add(&unit);
    }
    for picture in rest {
        let unit: NalUnit = encoder.encode(&picture.image())?;
        add(&unit);
    }
    Ok((bytes, units))
}

/// Writes every take to the folder. An error of the file system becomes the codec's.
fn takes(folder: &Path) -> Result<(), Error> {
    for shape in SHAPES {
        for content in CONTENTS {
            let pictures = [0, 1, 2].map(|turn| Picture::new(shape, content, turn));
            let (bytes, units) = take(&pictures)?;
            let (colour, bit_depth, width, height, _) = shape;
            let colour = if colour { "colour" } else { "mono" };
            let name = format!("{colour}-{bit_depth:?}-{width}x{height}-{content:?}");
            fs::write(folder.join(format!("{name}.h264")), bytes)?;
            fs::write(folder.join(format!("{name}.units")), units)?;
            let file = fs::File::create(folder.join(format!("{name}.written")))?;
            let mut writer = H264Writer::new(BufWriter::new(file))?;
            for picture in &pictures {
                writer.write(&picture.image())?;
            }
            writer.into_inner().flush()?;
        }
    }
    Ok(())
}

/// An error's variant with what it holds, and its text. The match names every variant.
fn told(error: Error) -> String {
    let text = error.to_string();
    let source = error.source().is_some();
    let variant = match error {
        Error::DataShapeProblem { msg } => format!("DataShapeProblem, {msg}"),
        Error::UnsupportedFormat {} => "UnsupportedFormat".into(),
        Error::UnsupportedImageSize {} => "UnsupportedImageSize".into(),
        Error::InconsistentState {} => "InconsistentState".into(),
        Error::IoError { source } => format!("IoError, {source}"),
    };
    format!("{variant}: {text} (source: {source})")
}

/// Pictures with one fault each, as first and as next ones, and what is said of them. A good one
/// behind each shows that the encoder goes on.
fn refusals() -> Result<String, Error> {
    let mut text = String::new();
    for shape in [(true, BitDepth::Depth12, 6, 4, 0), (false, BitDepth::Depth12, 3, 4, 0)] {
        let picture = Picture::new(shape, Content::Ramp, 0);
        say(&mut text, "a width", LessEncoder::new(&picture.image()).map(|(units, _)| units.frame));
    }
    for height in [1, 17] {
        let picture = Picture::new((true, BitDepth::Depth8, 16, height, 0), Content::Ramp, 0);
        say(&mut text, "a height", LessEncoder::new(&picture.image()).map(|(units, _)| units.sps));
    }
    for shape in [(false, BitDepth::Depth8, 20, 20, 0), (true, BitDepth::Depth12, 20, 20, 0)] {
        let (colour, bit_depth, ..) = shape;
        let good = Picture::new(shape, Content::Noise, 0);
        let (InitialNalUnits { sps, pps, frame }, mut encoder) = LessEncoder::new(&good.image())?;
        for unit in [sps, pps, frame] {
            say(&mut text, "a good one", Ok(unit));
        }
        for plane in 0..if colour { 3 } else { 1 } {
            let (data, stride) = &good.planes[plane];
            let narrow = (data.clone(), stride - 1);
            let low = (data[..data.len() - stride].to_vec(), *stride);
            for (what, faulty) in [("a stride", narrow), ("rows", low)] {
                let mut planes = good.planes.clone();
                planes[plane] = faulty;
                let faulty = Picture { colour, bit_depth, width: 20, height: 20, planes };
                let first = LessEncoder::new(&faulty.image());
                say(&mut text, what, first.map(|(units, _)| units.pps));
                say(&mut text, what, encoder.encode(&faulty.image()));
                say(&mut text, "a good one", encoder.encode(&good.image()));
            }
        }
    }
    text += &told(Error::from(io::Error::other("a caller's own")));
    text.push('\n');
    text += &told(Error::UnsupportedFormat {});
    text.push('\n');
    Ok(text)
}

/// A sink that takes so many bytes and then fails; they are seen from outside, since less-avc's
/// writer doesn't give back a sink that failed.
struct Full {
    left: usize,
    taken: Rc<RefCell<Vec<u8>>>,
}

impl io::Write for Full {
    fn write(&mut self, bytes: &[u8]) -> io::Result<usize> {
        let length = bytes.len().min(self.left);
        if length == 0 {
            return Err(io::Error::other("full"));
        }
        self.left -= length;
        self.taken.borrow_mut().extend(&bytes[..length]);
        Ok(length)
    }

    fn flush(&mut self) -> io::Result<()> {
        Ok(())
    }
}

/// What the writer says of a first picture that is refused, and of sinks that fail: at the picture
/// for which there was no room, and at one behind it. A picture behind a refused one is not asked
/// for: less-avc's writer is of no more use then, ours goes on.
fn writer_errors() -> Result<String, Error> {
    let mut text = String::new();
    for shape in [(true, BitDepth::Depth12, 6, 4, 0), (true, BitDepth::Depth8, 16, 17, 0)] {
        let mut writer = H264Writer::new(Vec::new())?;
        let answer = writer.write(&Picture::new(shape, Content::Ramp, 0).image());
        writeln!(text, "a first one: {}", answer.map_or_else(told, |()| "written".into()))
            .expect("a string takes all");
    }
    let shape = (false, BitDepth::Depth8, 16, 16, 0);
    let pictures = [0, 1, 2].map(|turn| Picture::new(shape, Content::Ramp, turn));
    for left in (0..900).step_by(7) {
        let taken = Rc::default();
        let mut writer = H264Writer::new(Full { left, taken: Rc::clone(&taken) })?;
        for picture in &pictures {
            let answer = writer.write(&picture.image()).map_or_else(told, |()| "written".into());
            let taken = taken.borrow();
            writeln!(text, "room for {left}: {answer}; {} bytes, {taken:02x?}", taken.len())
                .expect("a string takes all");
        }
    }
    Ok(text)
}

/// One line: the unit's bytes, or the error.
fn say(text: &mut String, what: &str, answer: Result<NalUnit, Error>) {
    let answer = match answer {
        Ok(unit) => format!("{:02x?}", unit.to_annex_b_data()),
        Err(error) => told(error),
    };
    writeln!(text, "{what}: {answer}").expect("a string takes all");
}

/// Units that a caller makes of payloads.
fn own_units() -> Vec<u8> {
    let payloads: [&[u8]; 8] = [
        &[],
        &[0],
        &[0, 0],
        &[0, 0, 0],
        &[0, 0, 0, 0, 0, 0, 1, 0, 0, 2, 0, 0, 3, 0, 0, 4],
        &[5, 0, 0, 1, 0x80],
        &[0xFF; 40],
        &[0; 1000],
    ];
    let mut bytes = Vec::new();
    for payload in payloads {
        // The crate's numbers are no values to copy, so each list is made anew.
        for ref_idc in 0..4 {
            for unit_type in 0..9 {
                let ref_idcs = [NalRefIdc::Zero, NalRefIdc::One, NalRefIdc::Two, NalRefIdc::Three];
                let types = [
                    NalUnitType::Unspecified,
                    NalUnitType::CodedSliceOfANonIDRPicture,
                    NalUnitType::CodedSliceDataPartitionA,
                    NalUnitType::CodedSliceDataPartitionB,
                    NalUnitType::CodedSliceDataPartitionC,
                    NalUnitType::CodedSliceOfAnIDRPicture,
                    NalUnitType::SupplementalEnhancementInformation,
                    NalUnitType::SequenceParameterSet,
                    NalUnitType::PictureParameterSet,
                ];
                let pair = ref_idcs.into_iter().nth(ref_idc).zip(types.into_iter().nth(unit_type));
                let (ref_idc, unit_type) = pair.expect("one of each list");
                let rbsp = RbspData { data: payload.to_vec() };
                bytes.extend(NalUnit::new(ref_idc, unit_type, rbsp).to_annex_b_data());
            }
        }
    }
    bytes
}

fn main() -> ExitCode {
    let Some(folder) = env::args_os().nth(1) else {
        eprintln!("same_source: the folder to write to is wanted");
        return ExitCode::from(2);
    };
    let folder = Path::new(&folder);
    let written = takes(folder).and_then(|()| {
        fs::write(folder.join("refusals.txt"), refusals()?)?;
        fs::write(folder.join("writer-errors.txt"), writer_errors()?)?;
        fs::write(folder.join("own-units.h264"), own_units())?;
        Ok(())
    });
    match written {
        Ok(()) => ExitCode::SUCCESS,
        Err(error) => {
            eprintln!("same_source: {error}");
            ExitCode::FAILURE
        }
    }
}
