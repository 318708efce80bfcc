//! Writing to any sink: the writer of less-avc, by its names.

use std::fmt;
use std::io::Write;

use crate::ycbcr_image::YCbCrImage;
use crate::{next, room, start, Error, Session};

/// Writes a take to any [`Write`], a file or a `Vec` for instance: the first picture begins it, with
/// its parameter sets, and the next ones follow. The names are less-avc's.
///
/// ```
/// use reelpony::ycbcr_image::{DataPlane, Planes, YCbCrImage};
/// use reelpony::{BitDepth, H264Writer, Refusal};
///
/// let samples = [0x10; 32 * 16];
/// let y = DataPlane { data: &samples, stride: 32, bit_depth: BitDepth::Depth8 };
/// let image = YCbCrImage { planes: Planes::Mono(y), width: 30, height: 16 };
///
/// let mut writer = H264Writer::new(Vec::new())?;
/// writer.write(&image)?;
/// let narrower = YCbCrImage { width: 28, ..image };
/// let error = writer.write(&narrower).unwrap_err();
/// assert_eq!(error.refusal(), Some(Refusal::OtherThanSession)); // nothing was written
/// writer.write(&image)?;
/// let take = writer.into_inner();
/// assert_eq!(reelpony::Pictures::new(&take).count(), 2);
/// # Ok::<(), reelpony::Error>(())
/// ```
///
/// # What an error leaves
///
/// - A picture that is refused ([`Error::refusal`] tells why) gives the sink nothing, and the writer
///   goes on as if it had not been given; as the first one it begins no take.
/// - An error of the sink is [`Error::IoError`], the only case of that error. The sink may have taken
///   a part of the picture, and with another one behind the part a take that was cut would be one
///   that is damaged in its middle, unseen. So the writer ends: it gives the sink no more bytes, and
///   every further picture is answered with [`Error::InconsistentState`]. What the sink took is
///   [`written`](H264Writer::written) bytes of whole pictures, and perhaps a part of one more.
///   [`into_inner`](H264Writer::into_inner) gives it back: a file that is cut behind those bytes is a
///   whole take; left as it is, it reads as a cut one, from which all whole pictures are saved. The
///   same holds where the sink panics.
///
/// The sink gets each picture in one [`Write::write_all`] and is never flushed: whoever lends a
/// `BufWriter` flushes it behind [`into_inner`](H264Writer::into_inner), and what it holds back counts
/// as taken.
pub struct H264Writer<W> {
    sink: W,
    /// Of the take, once its first picture was accepted.
    session: Option<Session>,
    /// Where each picture is written, with room for any of the session.
    out: Vec<u8>,
    written: u64,
    /// Whether the sink may have taken a part of a picture.
    broken: bool,
}

/// Without the sink, and without the bytes of the last picture.
impl<W> fmt::Debug for H264Writer<W> {
    fn fmt(&self, f: &mut fmt::Formatter) -> fmt::Result {
        f.debug_struct("H264Writer")
            .field("session", &self.session)
            .field("written", &self.written)
            .field("broken", &self.broken)
            .finish_non_exhaustive()
    }
}

impl<W: Write> H264Writer<W> {
    /// A writer to this sink, which gets nothing yet. It is never refused; the answer is a `Result`
    /// as in less-avc.
    pub fn new(wtr: W) -> Result<H264Writer<W>, Error> {
        Ok(H264Writer { sink: wtr, session: None, out: Vec::new(), written: 0, broken: false })
    }

    /// Writes one picture to the sink, of the first one's size and kind. The first one comes behind
    /// the parameter sets.
    pub fn write(&mut self, frame: &YCbCrImage) -> Result<(), Error> {
        if self.broken {
            return Err(Error::InconsistentState {});
        }
        let length = match &mut self.session {
            Some(session) => next(session, frame, &mut self.out)?,
            None => {
                self.out.resize(room(frame), 0);
                let (length, session) = start(frame, &mut self.out)?;
                self.session = Some(session);
                length
            }
        };
        // Until the sink has all of it.
        self.broken = true;
        self.sink.write_all(&self.out[..length])?;
        self.broken = false;
        self.written += length as u64;
        Ok(())
    }

    /// The bytes of the pictures that the sink took whole, the parameter sets among them.
    pub fn written(&self) -> u64 {
        self.written
    }

    /// Gives the sink back, whatever was written and whether or not it failed.
    pub fn into_inner(self) -> W {
        self.sink
    }
}
