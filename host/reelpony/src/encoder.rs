//! Writing with allocation: the calls of less-avc.

use std::fmt;
use std::sync::Arc;

use crate::nal_unit::{InitialNalUnits, NalUnit};
use crate::ycbcr_image::YCbCrImage;
use crate::{next, room, start, Error, Session};

/// Writes the pictures of a take, each into memory of its own. The names are less-avc's, so that
/// its callers change `less_avc` to `reelpony` and little else.
///
/// ```
/// use reelpony::ycbcr_image::{DataPlane, Planes, YCbCrImage};
/// use reelpony::{BitDepth, LessEncoder};
///
/// let samples = [0x10; 32 * 16];
/// let y = DataPlane { data: &samples, stride: 32, bit_depth: BitDepth::Depth8 };
/// let image = YCbCrImage { planes: Planes::Mono(y), width: 30, height: 16 };
///
/// let (first, mut encoder) = LessEncoder::new(&image)?;
/// let mut take = Vec::new();
/// for unit in first {
///     take.extend(unit.to_annex_b_data());
/// }
/// take.extend(encoder.encode(&image)?.to_annex_b_data());
/// assert_eq!(take[..5], [0, 0, 0, 1, 0x67]);
///
/// let narrower = YCbCrImage { width: 28, ..image };
/// let error = encoder.encode(&narrower).unwrap_err();
/// assert_eq!(error.refusal(), Some(reelpony::Refusal::OtherThanSession));
/// # Ok::<(), reelpony::Error>(())
/// ```
pub struct LessEncoder {
    session: Session,
    /// Where the last picture was written, with room for any picture of the session. The last unit
    /// lends from it; where that one is gone by the next call, the same memory is written again,
    /// which saves more time than the writing takes.
    out: Arc<Vec<u8>>,
}

/// Without the bytes of the last picture.
impl fmt::Debug for LessEncoder {
    fn fmt(&self, f: &mut fmt::Formatter) -> fmt::Result {
        f.debug_struct("LessEncoder").field("session", &self.session).finish_non_exhaustive()
    }
}

impl LessEncoder {
    /// Begins a take with its first picture. Answers the parameter sets, which say the pictures'
    /// size and kind, that picture, and the encoder of the next ones.
    pub fn new(y4m_frame: &YCbCrImage) -> Result<(InitialNalUnits, LessEncoder), Error> {
        let mut out = vec![0; room(y4m_frame)];
        let (length, session) = start(y4m_frame, &mut out)?;
        let units = InitialNalUnits::of(&out[..length]);
        Ok((units, LessEncoder { session, out: Arc::new(out) }))
    }

    /// Writes one more picture, of the first one's size and kind.
    pub fn encode(&mut self, y4m_frame: &YCbCrImage) -> Result<NalUnit, Error> {
        if Arc::strong_count(&self.out) > 1 {
            self.out = Arc::new(vec![0; self.out.len()]);
        }
        // No other holds it now, so nothing is copied.
        let out = Arc::make_mut(&mut self.out);
        let length = next(&mut self.session, y4m_frame, out)?;
        Ok(NalUnit::front(&self.out, length))
    }
}
