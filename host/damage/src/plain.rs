//! Paper 01's "The bits of a take" and "Reading a take", written down plainly: byte by byte, slow,
//! and sharing nothing with the library.

/// A state, or an answer, in the export's numbers.
pub type Words = [u64; 8];

/// What an answer is, its first number.
pub const END: u64 = 0;
pub const SPS: u64 = 1;
pub const PPS: u64 = 2;
pub const PICTURE: u64 = 3;
pub const REFUSED: u64 = 4;

/// The size and kind of a take's pictures.
#[derive(Clone, Copy, Debug, PartialEq, Eq)]
pub struct Shape {
    pub width: u64,
    pub height: u64,
    /// 0: monochrome; 1: 4:2:0.
    pub colour: u64,
    /// 8 or 12.
    pub depth: u64,
}

impl Shape {
    /// Whether the writer accepts pictures of the shape.
    pub fn is_accepted(&self) -> bool {
        let Shape { width, height, colour, depth } = *self;
        let size = 1..=16_384;
        let across = match (colour, depth) {
            (0, 8) => 1,
            (0, 12) | (1, 8) => 2,
            (1, 12) => 4,
            _ => return false,
        };
        size.contains(&width)
            && size.contains(&height)
            && width % across == 0
            && height % (1 + colour) == 0
    }

    /// How many planes the kind uses.
    pub fn planes(&self) -> usize {
        if self.colour == 1 {
            3
        } else {
            1
        }
    }

    /// Bytes of a visible row, and visible rows, of a plane.
    pub fn visible(&self, plane: usize) -> (u64, u64) {
        let part = if plane == 0 { 1 } else { 2 };
        (self.width / part * self.depth / 8, self.height / part)
    }

    /// Bytes of a row, and rows, that a macroblock has of a plane.
    pub fn block(&self, plane: usize) -> (u64, u64) {
        let side = if plane == 0 { 16 } else { 8 };
        (side * self.depth / 8, side)
    }

    /// Macroblocks across and down.
    pub fn blocks(&self) -> (u64, u64) {
        (self.width.div_ceil(16), self.height.div_ceil(16))
    }

    /// The bytes of each plane's visible rows; 0 where the kind has no such plane.
    pub fn lengths(&self) -> [usize; 3] {
        [0, 1, 2].map(|plane| match self.visible(plane) {
            (row, rows) if plane < self.planes() => (row * rows) as usize,
            _ => 0,
        })
    }

    /// The exact length of a picture's payload.
    fn payload_length(&self) -> u64 {
        let (across, down) = self.blocks();
        let samples: u64 = (0..self.planes()).map(|i| self.block(i).0 * self.block(i).1).sum();
        4 + across * down * samples + (across * down - 1) * 2 + 1
    }
}

/// The parameter sets that a state holds.
#[derive(Clone, Copy)]
struct Held {
    sps: Option<Shape>,
    pps: bool,
}

impl Held {
    /// A state whose flags are no flags, or whose SPS no accepted SPS gives, holds nothing.
    fn of(reader: &Words) -> Held {
        let [_, sps, width, height, colour, depth, pps, _] = *reader;
        let shape = Shape { width, height, colour, depth };
        if sps > 1 || pps > 1 || (sps == 1 && !shape.is_accepted()) {
            return Held { sps: None, pps: false };
        }
        Held { sps: (sps == 1).then_some(shape), pps: pps == 1 }
    }

    /// Writes the state's numbers anew; what is not held is 0.
    fn store(&self, reader: &mut Words) {
        let sps = match self.sps {
            Some(Shape { width, height, colour, depth }) => [1, width, height, colour, depth],
            None => [0; 5],
        };
        reader[1..6].copy_from_slice(&sps);
        reader[6] = self.pps.into();
    }
}

/// What a unit is, if nothing is wrong with it.
enum Unit {
    Sps(Shape),
    Pps,
    /// The visible rows of each plane.
    Picture(Vec<Vec<u8>>),
}

/// One call: answers, moves the state on and fills the planes.
pub fn read(take: &[u8], planes: &mut [Vec<u8>; 3], reader: &mut Words) -> Words {
    let end = take.len();
    if reader[0] >= end as u64 {
        return [END, 0, 0, 0, 0, 0, 0, 0];
    }
    let place = reader[0] as usize;
    let code = start_code(take, place);
    if take[place..code.unwrap_or(end)].iter().any(|byte| *byte != 0) {
        reader[0] = code.unwrap_or(end) as u64;
        return refused(10, place);
    }
    let Some(code) = code else { return [END, 0, 0, 0, 0, 0, 0, 0] };

    let offset = code + 3;
    let behind = start_code(take, offset).unwrap_or(end);
    let mut unit = take[offset..behind].to_vec();
    while unit.last() == Some(&0) {
        unit.pop();
    }
    let held = Held::of(reader);
    let found = judge(&unit, held, planes);
    if !matches!(found, Err(19)) {
        reader[0] = behind as u64;
    }
    match found {
        Err(number) => refused(number, offset),
        Ok(Unit::Sps(shape)) => {
            if held.sps.is_none() {
                Held { sps: Some(shape), ..held }.store(reader);
            }
            let Shape { width, height, colour, depth } = shape;
            [SPS, offset as u64, width, height, colour, depth, 0, 0]
        }
        Ok(Unit::Pps) => {
            Held { pps: true, ..held }.store(reader);
            [PPS, offset as u64, 0, 0, 0, 0, 0, 0]
        }
        Ok(Unit::Picture(rows)) => {
            for (plane, rows) in planes.iter_mut().zip(&rows) {
                plane[..rows.len()].copy_from_slice(rows);
            }
            [PICTURE, offset as u64, 0, 0, 0, 0, 0, 0]
        }
    }
}

/// The answer of a refusal.
fn refused(number: u64, offset: usize) -> Words {
    [REFUSED, offset as u64, 0, 0, 0, 0, number, 0]
}

/// Where the next start code is, at or behind a place.
pub fn start_code(take: &[u8], place: usize) -> Option<usize> {
    (place..take.len()).find(|&i| take[i..].starts_with(&[0, 0, 1]))
}

/// The table's tests from 11 on, in its order, on a unit without its trailing zeros.
fn judge(unit: &[u8], held: Held, planes: &[Vec<u8>; 3]) -> Result<Unit, u64> {
    if unit.is_empty() {
        return Err(11);
    }
    if !is_escaped(unit) {
        return Err(12);
    }
    let payload = unescape(&unit[1..]);
    match unit[0] {
        0x67 => {
            let shape = shape_of_sps(&payload).ok_or(14_u64)?;
            match held.sps {
                Some(other) if other != shape => Err(15),
                _ => Ok(Unit::Sps(shape)),
            }
        }
        0x68 if payload == [0xCE, 0x38, 0x80] => Ok(Unit::Pps),
        0x68 => Err(14),
        0x25 => match held {
            Held { sps: Some(shape), pps: true } => picture(&payload, &shape, planes),
            _ => Err(16),
        },
        _ => Err(13),
    }
}

/// Whether the bytes hold none of 00 00 00, 00 00 02, and 00 00 03 with a byte over 03 behind.
pub fn is_escaped(bytes: &[u8]) -> bool {
    let is_wrong = |i: usize| match bytes[i..] {
        [0, 0, 0, ..] | [0, 0, 2, ..] => true,
        [0, 0, 3, behind, ..] => behind > 3,
        _ => false,
    };
    !(0..bytes.len()).any(is_wrong)
}

/// 03 put before each byte of 03 or less that two zeros stand before, counted since the last 03 put
/// in.
pub fn escape(payload: &[u8]) -> Vec<u8> {
    let mut out = Vec::new();
    let mut zeros = 0;
    for &byte in payload {
        if zeros == 2 && byte <= 3 {
            out.push(3);
            zeros = 0;
        }
        out.push(byte);
        zeros = if byte == 0 { zeros + 1 } else { 0 };
    }
    out
}

/// The payload without what escaping put in: each 03 behind two zeros.
pub fn unescape(bytes: &[u8]) -> Vec<u8> {
    let mut out = Vec::new();
    let mut zeros = 0;
    for &byte in bytes {
        if zeros == 2 && byte == 3 {
            zeros = 0;
            continue;
        }
        out.push(byte);
        zeros = if byte == 0 { zeros + 1 } else { 0 };
    }
    out
}

/// Tests 17 to 19, then the visible rows of each plane.
fn picture(payload: &[u8], shape: &Shape, planes: &[Vec<u8>; 3]) -> Result<Unit, u64> {
    let length = shape.payload_length();
    if (payload.len() as u64) < length {
        return Err(17);
    }
    if payload.len() as u64 > length {
        return Err(18);
    }
    let mut bytes = payload.iter().copied();
    let mut front = |n: u64| -> Vec<u8> { bytes.by_ref().take(n as usize).collect() };
    if front(4) != [0x88, 0x84, 0x28, 0x68] {
        return Err(18);
    }
    // Each plane's rows with their padding.
    let (across, down) = shape.blocks();
    let rows_of = |plane: usize| (down * shape.block(plane).1) as usize;
    let mut padded: Vec<Vec<Vec<u8>>> =
        (0..shape.planes()).map(|plane| vec![Vec::new(); rows_of(plane)]).collect();
    for block in 0..across * down {
        if block > 0 && front(2) != [0x0D, 0x00] {
            return Err(18);
        }
        for (plane, rows) in padded.iter_mut().enumerate() {
            let (wide, high) = shape.block(plane);
            for line in 0..high {
                let row = block / across * high + line;
                rows[row as usize].extend(front(wide));
            }
        }
    }
    if front(1) != [0x80] {
        return Err(18);
    }
    let lengths = shape.lengths();
    if planes.iter().zip(lengths).any(|(plane, length)| plane.len() < length) {
        return Err(19);
    }
    let tight = |(plane, rows): (usize, Vec<Vec<u8>>)| {
        let (row, count) = shape.visible(plane);
        rows.iter().take(count as usize).flat_map(|r| r[..row as usize].to_vec()).collect()
    };
    Ok(Unit::Picture(padded.into_iter().enumerate().map(tight).collect()))
}

/// Bits, most significant first, with a place to read from.
#[derive(Default)]
pub struct Bits {
    pub bits: Vec<bool>,
    place: usize,
}

impl Bits {
    pub fn of(bytes: &[u8]) -> Bits {
        let bits = |byte: &u8| (0..8).rev().map(|i| byte >> i & 1 == 1).collect::<Vec<_>>();
        Bits { bits: bytes.iter().flat_map(bits).collect(), place: 0 }
    }

    /// To be read from a place, if it isn't beyond the end.
    pub fn at(bytes: &[u8], place: u64) -> Option<Bits> {
        let bits = Bits::of(bytes);
        let place = usize::try_from(place).ok().filter(|place| *place <= bits.bits.len())?;
        Some(Bits { place, ..bits })
    }

    pub fn place(&self) -> usize {
        self.place
    }

    /// Whole bytes, zeros behind the last bit.
    pub fn packed(&self) -> Vec<u8> {
        let byte =
            |bits: &[bool]| (0..8).fold(0, |b, i| b << 1 | u8::from(bits.get(i) == Some(&true)));
        self.bits.chunks(8).map(byte).collect()
    }

    /// Writes `n` bits of a number.
    pub fn put(&mut self, number: u64, n: u32) {
        self.bits.extend((0..n).rev().map(|i| number >> i & 1 == 1));
    }

    /// Writes the unsigned code: as many zeros as x + 1 has bits behind its first, then x + 1.
    pub fn put_code(&mut self, x: u64) {
        let n = (x + 1).ilog2() + 1;
        self.put(0, n - 1);
        self.put(x + 1, n);
    }

    /// Reads `n` bits, if there are so many.
    fn number(&mut self, n: usize) -> Option<u64> {
        let bits = self.bits.get(self.place..self.place + n)?;
        self.place += n;
        Some(bits.iter().fold(0, |number, bit| number << 1 | u64::from(*bit)))
    }

    /// Reads an unsigned code, if a whole one with at most 31 zeros in front stands at the place.
    pub fn code(&mut self) -> Option<u64> {
        let zeros = self.bits.get(self.place..)?.iter().position(|bit| *bit)?;
        if zeros > 31 {
            return None;
        }
        self.place += zeros;
        Some(self.number(zeros + 1)? - 1)
    }
}

/// The sequence parameter set's payload.
pub fn sps(shape: &Shape) -> Vec<u8> {
    let Shape { width, height, colour, depth } = *shape;
    let profile = match (colour, depth) {
        (1, 8) => 66,
        (0, 8) => 100,
        _ => 244,
    };
    let (across, down) = shape.blocks();
    let mut bits = Bits::default();
    bits.put(profile, 8);
    bits.put(0, 8);
    bits.put(10, 8); // level
    bits.put_code(0); // id
    if profile != 66 {
        bits.put_code(colour); // chroma_format_idc
        bits.put_code(depth - 8);
        bits.put_code(depth - 8);
        bits.put(0, 2);
    }
    for _ in 0..3 {
        bits.put_code(0);
    }
    bits.put_code(0); // reference frames
    bits.put(0, 1); // gaps
    bits.put_code(across - 1);
    bits.put_code(down - 1);
    bits.put(1, 1); // frame_mbs_only
    bits.put(0, 1); // direct_8x8
    let crop = (across * 16 - width, down * 16 - height);
    bits.put((crop != (0, 0)).into(), 1);
    if crop != (0, 0) {
        bits.put_code(0);
        bits.put_code(crop.0 / (1 + colour));
        bits.put_code(0);
        bits.put_code(crop.1 / (1 + colour));
    }
    bits.put(1, 1); // VUI present
    bits.put(0b001, 3); // no aspect ratio, no overscan, a video signal type:
    bits.put(5, 3); // video_format
    bits.put(1, 1); // full range
    bits.put(0, 7); // all else absent
    bits.put(1, 1); // stop bit
    bits.packed()
}

/// The shape whose SPS has the payload: the numbers that stand where a shape's would, if the SPS
/// written for them is the payload again.
fn shape_of_sps(payload: &[u8]) -> Option<Shape> {
    let mut bits = Bits::of(payload);
    let profile = bits.number(8)?;
    bits.number(16)?;
    bits.code()?; // id
    let (mut colour, mut depth) = (1, 8);
    if profile != 66 {
        colour = bits.code()?;
        depth = 8 + bits.code()?;
        bits.code()?;
        bits.number(2)?;
    }
    for _ in 0..4 {
        bits.code()?;
    }
    bits.number(1)?;
    let mut width = 16 * (1 + bits.code()?);
    let mut height = 16 * (1 + bits.code()?);
    bits.number(2)?;
    if bits.number(1)? == 1 {
        bits.code()?;
        width = width.checked_sub(bits.code()? * (1 + colour))?;
        bits.code()?;
        height = height.checked_sub(bits.code()? * (1 + colour))?;
    }
    let shape = Shape { width, height, colour, depth };
    (shape.is_accepted() && sps(&shape) == payload).then_some(shape)
}

/// The worked cases of paper 01, so that what everything else is compared with is itself compared.
#[cfg(test)]
mod tests {
    use super::*;

    /// Case 3 and the PPS of the paper, each behind a start code, then a picture of 256 equal bytes.
    fn take() -> Vec<u8> {
        let mut take = vec![0, 0, 0, 1, 0x67, 0x64, 0, 0x0A, 0xF3, 0xDC, 0x9B, 1];
        take.extend([0, 0, 0, 1, 0x68, 0xCE, 0x38, 0x80]);
        take.extend([0, 0, 0, 1, 0x25, 0x88, 0x84, 0x28, 0x68]);
        take.extend([0x10; 256]);
        take.push(0x80);
        take
    }

    #[test]
    fn parameter_sets() {
        let cases: [(u64, u64, u64, &[u8]); 4] = [
            (16, 0, 8, &[0x64, 0, 0x0A, 0xF3, 0xDC, 0x9B, 1]),
            (17, 0, 8, &[0x64, 0, 0x0A, 0xF3, 0xCB, 0x61, 0x0E, 0x6C, 4]),
            (16, 0, 12, &[0xF4, 0, 0x0A, 0xCA, 0x53, 0xDC, 0x9B, 1]),
            (16, 1, 8, &[0x42, 0, 0x0A, 0xFB, 0x93, 0x60, 0x20]),
        ];
        for (width, colour, depth, payload) in cases {
            let shape = Shape { width, height: 16, colour, depth };
            assert_eq!(sps(&shape), payload);
            assert_eq!(shape_of_sps(payload), Some(shape));
        }
    }

    #[test]
    fn escaping() {
        let cases: [(&[u8], &[u8]); 4] = [
            (&[0; 5], &[0, 0, 3, 0, 0, 3, 0]),
            (&[0, 0], &[0, 0]),
            (&[0, 0, 4], &[0, 0, 4]),
            (&[0, 0, 3], &[0, 0, 3, 3]),
        ];
        for (payload, escaped) in cases {
            assert_eq!(escape(payload), escaped);
            assert_eq!(unescape(escaped), payload);
        }
        assert_eq!(unescape(&[7, 0, 0, 3]), [7, 0, 0]);
    }

    #[test]
    fn a_take_of_286_bytes() {
        let take = take();
        assert_eq!(take.len(), 286);
        let mut planes = [vec![7; 257], vec![7], Vec::new()];
        let mut reader = [0; 8];
        let mut call = || read(&take, &mut planes, &mut reader);
        assert_eq!(call(), [SPS, 4, 16, 16, 0, 8, 0, 0]);
        assert_eq!(call(), [PPS, 16, 0, 0, 0, 0, 0, 0]);
        assert_eq!(call(), [PICTURE, 24, 0, 0, 0, 0, 0, 0]);
        assert_eq!(call(), [END, 0, 0, 0, 0, 0, 0, 0]);
        assert_eq!(reader, [286, 1, 16, 16, 0, 8, 1, 0]);
        let mut y = vec![0x10; 256];
        y.push(7);
        assert_eq!(planes, [y, vec![7], Vec::new()]);
    }

    #[test]
    fn nothing() {
        let mut reader = [0; 8];
        assert_eq!(read(&[], &mut Default::default(), &mut reader), [0; 8]);
        assert_eq!(reader, [0; 8]);
    }
}
