//! Units: what a take's start codes stand before, and the escaping that keeps start codes out of
//! them.

use std::sync::Arc;
use std::{array, fmt};

use crate::{ffi, length, Refusal};

/// What stands before each unit.
const START_CODE: [u8; 4] = [0, 0, 0, 1];

/// One unit of a take.
#[derive(Clone)]
pub struct NalUnit {
    /// At the front, its bytes behind a start code.
    bytes: Arc<Vec<u8>>,
    /// Their length.
    length: usize,
}

impl NalUnit {
    /// A unit of any payload, which gets a header and is escaped. What [`Reader`](crate::Reader)
    /// accepts is what [`LessEncoder`](crate::LessEncoder) gives; other units are passed over.
    pub fn new(ref_idc: NalRefIdc, unit_type: NalUnitType, rbsp_data: RbspData) -> NalUnit {
        let payload = &rbsp_data.data;
        let mut bytes = START_CODE.to_vec();
        bytes.push((ref_idc as u8) << 5 | unit_type as u8);
        let begin = bytes.len();
        bytes.resize(begin + payload.len() + payload.len() / 2, 0);
        // An escape has at most half as many bytes again as its payload, so there is room.
        let length = escape(payload, &mut bytes[begin..]).unwrap_or(0);
        NalUnit { bytes: Arc::new(bytes), length: begin + length }
    }

    /// What stands at the front of a shared buffer, which begins with a start code.
    pub(crate) fn front(bytes: &Arc<Vec<u8>>, length: usize) -> NalUnit {
        NalUnit { bytes: Arc::clone(bytes), length }
    }

    /// Of bytes that begin with a start code, which are copied.
    fn of(bytes: &[u8]) -> NalUnit {
        NalUnit { length: bytes.len(), bytes: Arc::new(bytes.to_vec()) }
    }

    /// The unit alone: its header byte and the escaped payload.
    pub fn to_nal_unit(&self) -> Vec<u8> {
        self.as_annex_b_data().get(START_CODE.len()..).unwrap_or_default().into()
    }

    /// The unit behind its start code, as it stands in a `.h264` file.
    pub fn to_annex_b_data(&self) -> Vec<u8> {
        self.as_annex_b_data().into()
    }

    /// The same bytes, lent.
    pub fn as_annex_b_data(&self) -> &[u8] {
        self.bytes.get(..self.length).unwrap_or_default()
    }
}

impl PartialEq for NalUnit {
    fn eq(&self, other: &NalUnit) -> bool {
        self.as_annex_b_data() == other.as_annex_b_data()
    }
}

impl Eq for NalUnit {}

/// Its header and length alone.
impl fmt::Debug for NalUnit {
    fn fmt(&self, f: &mut fmt::Formatter) -> fmt::Result {
        let header = self.as_annex_b_data().get(START_CODE.len());
        f.debug_struct("NalUnit")
            .field("header", &header)
            .field("length", &self.length)
            .finish_non_exhaustive()
    }
}

/// The units of a take up to its first picture.
#[derive(Clone, Debug, PartialEq, Eq)]
pub struct InitialNalUnits {
    /// The sequence parameter set: size and kind.
    pub sps: NalUnit,
    /// The picture parameter set.
    pub pps: NalUnit,
    /// The first picture.
    pub frame: NalUnit,
}

impl InitialNalUnits {
    /// Of what a start call wrote: three units, each behind a start code, and none inside them.
    pub(crate) fn of(bytes: &[u8]) -> InitialNalUnits {
        let (sps, bytes) = bytes.split_at(first_unit_length(bytes));
        let (pps, frame) = bytes.split_at(first_unit_length(bytes));
        let [sps, pps, frame] = [sps, pps, frame].map(NalUnit::of);
        InitialNalUnits { sps, pps, frame }
    }
}

/// The length of the first unit with its start code: up to the next start code or the end.
fn first_unit_length(bytes: &[u8]) -> usize {
    let is_code = |four: &[u8]| four == START_CODE;
    let next = bytes.windows(4).skip(1).position(is_code);
    next.map_or(bytes.len(), |before| before + 1)
}

/// The three units in the take's order. Calling `into_iter` reads as less-avc's own method.
impl IntoIterator for InitialNalUnits {
    type Item = NalUnit;
    type IntoIter = array::IntoIter<NalUnit, 3>;

    fn into_iter(self) -> array::IntoIter<NalUnit, 3> {
        [self.sps, self.pps, self.frame].into_iter()
    }
}

/// A payload that isn't escaped.
#[derive(Clone, Debug, Default, PartialEq, Eq)]
pub struct RbspData {
    /// Its bytes.
    pub data: Vec<u8>,
}

/// The header's `nal_ref_idc`, two bits.
#[derive(Clone, Copy, Debug, PartialEq, Eq)]
pub enum NalRefIdc {
    /// No other picture needs it.
    Zero,
    /// As pictures have it.
    One,
    /// Of more weight.
    Two,
    /// As parameter sets have it.
    Three,
}

/// The header's `nal_unit_type`, five bits; those that less-avc names.
#[derive(Clone, Copy, Debug, PartialEq, Eq)]
#[non_exhaustive]
pub enum NalUnitType {
    /// 0.
    Unspecified,
    /// 1.
    CodedSliceOfANonIDRPicture,
    /// 2.
    CodedSliceDataPartitionA,
    /// 3.
    CodedSliceDataPartitionB,
    /// 4.
    CodedSliceDataPartitionC,
    /// 5: a picture.
    CodedSliceOfAnIDRPicture,
    /// 6: a note beside the pictures (SEI).
    SupplementalEnhancementInformation,
    /// 7.
    SequenceParameterSet,
    /// 8.
    PictureParameterSet,
}

/// Writes the payload to the front of `out` with 03 put before each byte of 03 or less that follows
/// two zeros. Answers the length written, at most half as much again as the payload's.
pub fn escape(payload: &[u8], out: &mut [u8]) -> Result<usize, Refusal> {
    length(ffi::escape(payload, out))
}

/// Writes the payload to the front of `out` without what escaping put in. Answers the length
/// written, at most the payload's.
pub fn unescape(payload: &[u8], out: &mut [u8]) -> Result<usize, Refusal> {
    length(ffi::unescape(payload, out))
}
