//! Reelpony: each picture of a take written as one uncompressed H.264 picture (I_PCM), and read
//! back, from cut and damaged takes too.
//!
//! A safe layer over the proved library `libreelpony.a`. Nothing here panics, whatever it is given:
//! what can't be done is a [`Refusal`], which has a number and a sentence.
//!
//! | | with memory that is lent | with memory of its own | from and to files |
//! |---|---|---|---|
//! | writing | [`start`], [`next`] | [`LessEncoder`], as in less-avc | [`H264Writer`], likewise |
//! | reading | [`Reader`] | [`Pictures`] | [`Window`] |
//! | reading what is damaged | [`Reader`] | [`Salvage`] | [`Window::salvage`] |
//!
//! A take is what a start call wrote, then what each next call wrote, one behind the other in a
//! file. The pictures that are written are lent as less-avc's types, see [`ycbcr_image`]. A file is
//! any [`Write`](std::io::Write) or [`Read`](std::io::Read):
//!
//! ```
//! use reelpony::ycbcr_image::{DataPlane, Planes, YCbCrImage};
//! use reelpony::{BitDepth, H264Writer, Window};
//!
//! let samples = vec![0x10; 640 * 480];
//! let y = DataPlane { data: &samples, stride: 640, bit_depth: BitDepth::Depth8 };
//! let image = YCbCrImage { planes: Planes::Mono(y), width: 640, height: 480 };
//! let mut writer = H264Writer::new(Vec::new())?;
//! writer.write(&image)?; // parameter sets and first picture
//! writer.write(&image)?; // one more picture
//! let take: Vec<u8> = writer.into_inner();
//!
//! for found in Window::new(&take[..]).salvage() {
//!     match found? {
//!         Ok(picture) => assert_eq!(picture.y, samples),
//!         Err(lost) => eprintln!("{lost}"),
//!     }
//! }
//! # assert_eq!(Window::new(&take[..]).salvage().filter(|found| matches!(found, Ok(Ok(_)))).count(), 2);
//! # Ok::<(), reelpony::Error>(())
//! ```
//!
//! The same without allocation, in buffers that the caller lends:
//!
//! ```
//! # use reelpony::ycbcr_image::{DataPlane, Planes, YCbCrImage};
//! # use reelpony::BitDepth;
//! # let samples = [0x10; 256];
//! # let y = DataPlane { data: &samples, stride: 16, bit_depth: BitDepth::Depth8 };
//! # let image = YCbCrImage { planes: Planes::Mono(y), width: 16, height: 16 };
//! use reelpony::{next, room, start};
//!
//! let mut out = [0; 1000];
//! assert!(room(&image) < out.len()); // enough, whatever the samples are
//! let (first, mut session) = start(&image, &mut out)?;
//! let second = next(&mut session, &image, &mut out[first..])?;
//! let take = &out[..first + second];
//!
//! use reelpony::reader::{Answer, PlanesMut, Reader};
//!
//! let mut y = [0; 256];
//! let mut reader = Reader::new();
//! loop {
//!     match reader.read(take, PlanesMut { y: &mut y, cb: &mut [], cr: &mut [] }) {
//!         Answer::End => break,
//!         Answer::Picture { .. } => assert_eq!(y, samples),
//!         Answer::Sps { sps, .. } => assert_eq!(sps.plane_lengths(), [256, 0, 0]),
//!         Answer::Pps { .. } => {}
//!         Answer::Refused { refusal, offset } => eprintln!("at {offset}: {refusal}"),
//!         _ => {} // what a later version may tell
//!     }
//! }
//! # Ok::<(), reelpony::Refusal>(())
//! ```

#![deny(unsafe_code, missing_docs)]

mod encoder;
mod error;
#[allow(unsafe_code)]
pub mod ffi;
pub mod golomb;
pub mod nal_unit;
mod pictures;
pub mod reader;
mod refusal;
pub mod window;
mod writer;
pub mod ycbcr_image;

pub use encoder::LessEncoder;
pub use error::Error;
pub use nal_unit::RbspData;
pub use pictures::{Lost, Picture, Pictures, Salvage};
pub use reader::Reader;
use reader::Sps;
pub use refusal::Refusal;
pub use window::Window;
pub use writer::H264Writer;
use ycbcr_image::{Planes, YCbCrImage};

/// Bits a sample.
#[derive(Clone, Copy, Debug, PartialEq, Eq)]
pub enum BitDepth {
    /// A byte a sample.
    Depth8,
    /// Two samples in three bytes.
    Depth12,
}

impl BitDepth {
    /// The number of bits.
    pub fn num_bits(&self) -> u8 {
        match self {
            BitDepth::Depth8 => 8,
            BitDepth::Depth12 => 12,
        }
    }
}

/// What the calls of one take have in common: the size, colour and depth of its pictures.
#[derive(Clone, Copy, Debug, PartialEq, Eq)]
pub struct Session([u32; 8]);

/// Begins a take: writes its parameter sets and first picture to the front of `out`. Answers the
/// length written and the session for the take's next pictures.
pub fn start(image: &YCbCrImage, out: &mut [u8]) -> Result<(usize, Session), Refusal> {
    let mut session = Session([0; 8]);
    let length = length(ffi::start(&image.numbers(), out, &mut session.0))?;
    Ok((length, session))
}

/// Writes one more picture of the session's take to the front of `out`. Answers the length
/// written.
pub fn next(session: &mut Session, image: &YCbCrImage, out: &mut [u8]) -> Result<usize, Refusal> {
    length(ffi::next(&image.numbers(), out, &mut session.0))
}

/// A length of the output with which neither call is refused for want of room, whatever the samples
/// are. With this much nothing has to be counted first, which makes writing faster.
///
/// 0 for a picture that is refused anyhow, since its planes have fewer bytes than it takes.
pub fn room(image: &YCbCrImage) -> usize {
    let YCbCrImage { planes, width, height } = *image;
    let (colour, bit_depth, lent) = match planes {
        Planes::Mono(y) => (false, y.bit_depth, [y.data.len(), 0, 0]),
        Planes::YCbCr((y, cb, cr)) => {
            (true, y.bit_depth, [y, cb, cr].map(|plane| plane.data.len()))
        }
    };
    let sps = Sps { width, height, colour, bit_depth };
    let short = lent.iter().zip(sps.plane_lengths()).any(|(lent, visible)| *lent < visible);
    if short {
        return 0;
    }
    sps.room()
}

/// The length of an accepted call, which is at most that of its output.
fn length(answer: ffi::Answer) -> Result<usize, Refusal> {
    match answer.number {
        0 => Ok(answer.length as usize),
        number => Err(Refusal::of(number, answer.length)),
    }
}
