//! Paper 01's table of refusals and its bits of a take, written down plainly: slow, short, and
//! sharing nothing with the library or with the crate less-avc.

use crate::call::Call;

/// A row of the table that a call meets.
#[derive(Clone, Copy)]
pub struct Fault {
    pub number: u32,
    /// In 8: the rows would be enough if the partial last one counted.
    pub partial_row: bool,
}

/// Everything up to 8 that is wrong with the call, in the table's order, so that the first one is
/// the refusal. A number that is no colour or depth leaves nothing else to ask; a stride of 0, where
/// no row can be counted, is 7's.
pub fn faults(call: &Call) -> Vec<Fault> {
    let depths = call.planes.each_ref().map(|plane| plane.depth);
    let mut numbers = shape_faults(call.width, call.height, call.colour, depths);
    let given = [call.width, call.height, call.colour, depths[0]];
    if call.next && given != call.session[..4] {
        numbers.push(6);
    }
    let fault = |number| Fault { number, partial_row: false };
    let mut found: Vec<Fault> = numbers.into_iter().map(fault).collect();
    if found.iter().any(|fault| fault.number == 99) {
        return found[..1].to_vec();
    }
    for (i, plane) in call.seen().iter().enumerate() {
        let (part, side) = if i == 0 { (1, 16) } else { (2, 8) };
        let padded = |size: u32| u64::from(size / part).next_multiple_of(side);
        let (row, rows) = (padded(call.width) * u64::from(plane.depth) / 8, padded(call.height));
        let (length, stride) = (plane.bytes.len() as u64, plane.stride as u64);
        if stride < row {
            found.push(fault(7));
        }
        if stride > 0 && length / stride < rows {
            let partial_row = length.div_ceil(stride) >= rows;
            found.push(Fault { number: 8, partial_row });
        }
    }
    found
}

/// The rows that ask for size, colour and depths alone: 99, then 1 to 5.
fn shape_faults(width: u32, height: u32, colour: u32, depths: [u32; 3]) -> Vec<u32> {
    let depths = if colour == 0 { &depths[..1] } else { &depths[..] };
    let depth = depths[0];
    let is_colour = colour == 1;
    let size = 1..=16_384;
    let table = [
        (99, colour > 1 || depths.iter().any(|depth| ![8, 12].contains(depth))),
        (1, !size.contains(&width) || !size.contains(&height)),
        (2, depths.iter().any(|other| *other != depth)),
        (3, is_colour && depth == 12 && width % 4 != 0),
        (4, width % 2 != 0 && (is_colour || depth != 8)),
        (5, is_colour && height % 2 != 0),
    ];
    table.into_iter().filter(|row| row.1).map(|row| row.0).collect()
}

/// Whether an accepted call can leave the session.
pub fn is_left(session: &[u32; 8]) -> bool {
    let [width, height, colour, depth, spare @ ..] = *session;
    shape_faults(width, height, colour, [depth; 3]).is_empty() && spare == [0; 4]
}

/// The bytes of a call without faults.
pub fn bytes(call: &Call) -> Vec<u8> {
    let mut out = Vec::new();
    if !call.next {
        unit(&mut out, 0x67, &sps(call));
        unit(&mut out, 0x68, &[0xCE, 0x38, 0x80]);
    }
    unit(&mut out, 0x25, &picture(call));
    out
}

/// The session that an accepted call leaves.
pub fn session(call: &Call) -> [u32; 8] {
    let depth = call.planes[0].depth;
    [call.width, call.height, call.colour, depth, 0, 0, 0, 0]
}

/// Start code, header byte, escaped payload.
fn unit(out: &mut Vec<u8>, header: u8, payload: &[u8]) {
    out.extend([0, 0, 0, 1, header]);
    let mut zeros = 0;
    for &byte in payload {
        if zeros == 2 && byte <= 3 {
            out.push(3);
            zeros = 0;
        }
        out.push(byte);
        zeros = if byte == 0 { zeros + 1 } else { 0 };
    }
}

/// Bits, most significant first.
struct Bits(Vec<bool>);

impl Bits {
    /// `n` bits of a number.
    fn plain(&mut self, number: u32, n: u32) {
        self.0.extend((0..n).rev().map(|i| number >> i & 1 == 1));
    }

    /// The unsigned Exp-Golomb code: as many zeros as x + 1 has bits behind its first, then x + 1.
    fn ue(&mut self, x: u32) {
        let n = (x + 1).ilog2() + 1;
        self.plain(0, n - 1);
        self.plain(x + 1, n);
    }

    /// Whole bytes, zeros behind the last bit.
    fn packed(&self) -> Vec<u8> {
        let byte =
            |bits: &[bool]| (0..8).fold(0, |b, i| b << 1 | u8::from(bits.get(i) == Some(&true)));
        self.0.chunks(8).map(byte).collect()
    }
}

/// The sequence parameter set's payload.
fn sps(call: &Call) -> Vec<u8> {
    let depth = call.planes[0].depth;
    let profile = match (call.colour, depth) {
        (1, 8) => 66,
        (0, 8) => 100,
        _ => 244,
    };
    let padded = [call.width, call.height].map(|size| size.next_multiple_of(16));
    let mut bits = Bits(Vec::new());
    bits.plain(profile, 8);
    bits.plain(0, 8);
    bits.plain(10, 8); // level
    bits.ue(0); // id
    if profile != 66 {
        bits.ue(call.colour); // chroma_format_idc
        bits.ue(depth - 8);
        bits.ue(depth - 8);
        bits.plain(0, 2);
    }
    for _ in 0..3 {
        bits.ue(0);
    }
    bits.ue(0); // reference frames
    bits.plain(0, 1); // gaps
    bits.ue(padded[0] / 16 - 1);
    bits.ue(padded[1] / 16 - 1);
    bits.plain(1, 1); // frame_mbs_only
    bits.plain(0, 1); // direct_8x8
    let cropped = padded != [call.width, call.height];
    bits.plain(cropped.into(), 1);
    if cropped {
        let unit = 1 + call.colour;
        bits.ue(0);
        bits.ue((padded[0] - call.width) / unit);
        bits.ue(0);
        bits.ue((padded[1] - call.height) / unit);
    }
    bits.plain(1, 1); // VUI present
    bits.plain(0b001, 3); // no aspect ratio, no overscan, a video signal type:
    bits.plain(5, 3); // video_format
    bits.plain(1, 1); // full range
    bits.plain(0, 7); // all else absent
    bits.plain(1, 1); // stop bit
    bits.packed()
}

/// The picture's payload: slice header, macroblocks in row order, stop bit.
fn picture(call: &Call) -> Vec<u8> {
    let mut payload = vec![0x88, 0x84, 0x28, 0x68];
    for row in 0..call.height.div_ceil(16) as usize {
        for column in 0..call.width.div_ceil(16) as usize {
            if (row, column) != (0, 0) {
                payload.extend([0x0D, 0x00]);
            }
            for (i, plane) in call.seen().iter().enumerate() {
                let side = if i == 0 { 16 } else { 8 };
                let wide = side * plane.depth as usize / 8;
                for line in row * side..(row + 1) * side {
                    let begin = line * plane.stride + column * wide;
                    payload.extend(&plane.bytes[begin..begin + wide]);
                }
            }
        }
    }
    payload.push(0x80);
    payload
}

/// The worked cases of paper 01, so that what everything else is compared with is itself compared.
#[cfg(test)]
mod tests {
    use super::*;
    use crate::call::Plane;

    fn start(width: u32, height: u32, colour: u32, depth: u32, value: u8) -> Call {
        let plane = |side: u32| {
            let stride = (width.next_multiple_of(side) * depth / 8) as usize;
            let rows = height.next_multiple_of(side) as usize;
            Plane { bytes: vec![value; stride * rows], stride, depth }
        };
        Call {
            next: false,
            width,
            height,
            colour,
            planes: [plane(16), plane(8), plane(8)],
            session: [0; 8],
        }
    }

    #[test]
    fn codes() {
        let code = |x| {
            let mut bits = Bits(Vec::new());
            bits.ue(x);
            let digit = |bit| if bit { '1' } else { '0' };
            bits.0.into_iter().map(digit).collect::<String>()
        };
        assert_eq!(code(0), "1");
        assert_eq!(code(7), "0001000");
        assert_eq!(code(25), "000011010");
    }

    #[test]
    fn parameter_sets() {
        let written = |width, colour, depth| sps(&start(width, 16, colour, depth, 0));
        assert_eq!(written(16, 0, 8), [0x64, 0, 0x0A, 0xF3, 0xDC, 0x9B, 1]);
        assert_eq!(written(17, 0, 8), [0x64, 0, 0x0A, 0xF3, 0xCB, 0x61, 0x0E, 0x6C, 4]);
        assert_eq!(written(16, 0, 12), [0xF4, 0, 0x0A, 0xCA, 0x53, 0xDC, 0x9B, 1]);
        assert_eq!(written(16, 1, 8), [0x42, 0, 0x0A, 0xFB, 0x93, 0x60, 0x20]);
    }

    #[test]
    fn escaping() {
        let escaped = |payload: &[u8]| {
            let mut out = Vec::new();
            unit(&mut out, 0x25, payload);
            out[5..].to_vec()
        };
        assert_eq!(escaped(&[0; 5]), [0, 0, 3, 0, 0, 3, 0]);
        assert_eq!(escaped(&[0, 0]), [0, 0]);
        assert_eq!(escaped(&[0, 0, 4]), [0, 0, 4]);
        assert_eq!(escaped(&[0, 0, 3]), [0, 0, 3, 3]);
    }

    #[test]
    fn lengths() {
        assert_eq!(bytes(&start(16, 16, 0, 8, 0x10)).len(), 286);
        assert_eq!(bytes(&start(16, 16, 0, 8, 0)).len(), 413);
        assert_eq!(bytes(&start(16, 16, 1, 8, 0x10)).len(), 414);
    }

    #[test]
    fn refusals() {
        let first = |call: &Call| faults(call).first().map_or(0, |fault| fault.number);
        assert_eq!(first(&start(16_384, 1, 0, 8, 0)), 0);
        assert_eq!(first(&start(16_385, 1, 0, 8, 0)), 1);
        assert_eq!(first(&start(0, 16, 0, 8, 0)), 1);
        assert_eq!(first(&start(16, 16, 1, 8, 0)), 0);
        assert_eq!(first(&start(16, 17, 1, 8, 0)), 5);
        assert_eq!(first(&start(4, 2, 1, 12, 0)), 0);
        assert_eq!(first(&start(6, 2, 1, 12, 0)), 3);
        assert_eq!(first(&start(1, 1, 0, 8, 0)), 0);
        assert_eq!(first(&start(1, 1, 0, 12, 0)), 4);
        let mut short = start(16, 16, 0, 8, 0);
        short.planes[0].bytes.pop();
        assert_eq!(first(&short), 8);
        short.planes[0].stride = 15;
        assert_eq!(first(&short), 7);
        short.next = true;
        assert_eq!(first(&short), 6);
        short.planes[0].depth = 9;
        assert_eq!(first(&short), 99);
    }
}
