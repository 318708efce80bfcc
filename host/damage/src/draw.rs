//! Random takes, made with the library's writer, and random bytes, states and parameter sets.

use common::Noise;
use reelpony::ffi;

use crate::plain::{self, Bits, Shape, Words};

/// A take and what was written to it.
pub struct Take {
    pub shape: Shape,
    pub bytes: Vec<u8>,
    /// Of each picture, the visible rows of each plane, one behind the other.
    pub pictures: Vec<[Vec<u8>; 3]>,
}

/// A shape that the writer accepts, up to `limit` samples wide and high.
pub fn shape(noise: &mut Noise, limit: u64) -> Shape {
    let (colour, depth) = noise.pick(&[(0, 8), (0, 12), (1, 8), (1, 12)]);
    let across = match (colour, depth) {
        (0, 8) => 1,
        (1, 12) => 4,
        _ => 2,
    };
    let mut size = |step: u64| {
        let size = match noise.below(4) {
            0 => 16 * (1 + noise.below(limit.div_ceil(16))),
            1 => 1,
            _ => 1 + noise.below(limit),
        };
        size.min(limit).next_multiple_of(step)
    };
    Shape { width: size(across), height: size(1 + colour), colour, depth }
}

/// What a picture's bytes are like.
fn contents(noise: &mut Noise) -> fn(&mut Noise) -> u64 {
    let contents: [fn(&mut Noise) -> u64; 6] = [
        |noise| noise.below(256),
        |noise| noise.below(256) * u64::from(noise.once_in(6)),
        |_| 0,
        |noise| noise.below(5),
        |noise| noise.pick(&[0, 0, 0, 1, 3]),
        |noise| 1 + noise.below(255),
    ];
    noise.pick(&contents)
}

/// Writes a take of some pictures.
pub fn take(noise: &mut Noise, shape: Shape, pictures: u64) -> Result<Take, String> {
    let mut take = Take { shape, bytes: Vec::new(), pictures: Vec::new() };
    let mut session = [0; 8];
    for _ in 0..pictures {
        add_picture(noise, &mut take, &mut session)?;
    }
    Ok(take)
}

/// Writes one more picture; the first with a start call.
fn add_picture(noise: &mut Noise, take: &mut Take, session: &mut [u32; 8]) -> Result<(), String> {
    let shape = take.shape;
    let byte = contents(noise);
    // The planes with their padding, and here and there some bytes behind each row.
    let mut padded = |plane: usize| {
        let (wide, high) = shape.block(plane);
        let (across, down) = shape.blocks();
        let stride = (wide * across) as usize + noise.pick(&[0, 0, 5]);
        let length = stride * (high * down) as usize;
        let bytes: Vec<u8> = (0..length).map(|_| byte(noise) as u8).collect();
        (bytes, stride)
    };
    let planes = [0, 1, 2].map(&mut padded);
    let picture = ffi::Picture {
        width: shape.width as u32,
        height: shape.height as u32,
        colour: shape.colour as u32,
        planes: planes.each_ref().map(|(bytes, stride)| ffi::Plane {
            bytes,
            stride: *stride,
            depth: shape.depth as u32,
        }),
    };
    // Room for the worst escaping and the framing.
    let mut out = vec![0; planes.iter().map(|(bytes, _)| bytes.len()).sum::<usize>() * 2 + 1000];
    let write = if take.pictures.is_empty() { ffi::start } else { ffi::next };
    let answer = write(&picture, &mut out, session);
    if answer.number != 0 {
        return Err(format!("the writer refuses {shape:?} with {}", answer.number));
    }
    take.bytes.extend(&out[..answer.length as usize]);
    take.pictures.push([0, 1, 2].map(|plane| {
        let (row, rows) = shape.visible(plane);
        let (bytes, stride) = &planes[plane];
        let visible = bytes.chunks(*stride).take(rows as usize);
        let visible = visible.flat_map(|line| line[..row as usize].to_vec());
        if plane < shape.planes() {
            visible.collect()
        } else {
            Vec::new()
        }
    }));
    Ok(())
}

/// Lengths of planes that are enough for the shape; some have no byte to spare.
pub fn enough(noise: &mut Noise, shape: &Shape) -> [usize; 3] {
    shape.lengths().map(|length| length + noise.pick(&[0, 0, 1, 20]))
}

/// A state: fresh, one that a take leaves, or numbers of little or no sense.
pub fn state(noise: &mut Noise, shape: &Shape, length: usize) -> Words {
    let place = match noise.below(4) {
        0 => 0,
        1 | 2 => noise.below(length as u64 + 4),
        _ => noise.pick(&[length as u64, 1 << 32, 1 << 63, u64::MAX - 2, u64::MAX]),
    };
    let Shape { width, height, colour, depth } = *shape;
    let spare = noise.pick(&[0, 1, u64::MAX]);
    let mut state = [place, 1, width, height, colour, depth, 1, spare];
    match noise.below(8) {
        0 => return [place, 0, 0, 0, 0, 0, 0, spare],
        1 | 2 => {}
        3 => state[1] = noise.pick(&[0, 0, 2, 256, u64::MAX]),
        4 => state[6] = noise.pick(&[0, 0, 2, 256, u64::MAX]),
        5 => state[2] = odd_size(noise, width),
        6 => state[3] = odd_size(noise, height),
        _ => {
            state[4] = noise.pick(&[0, 1, 2, 1 << 32, u64::MAX]);
            state[5] = noise.pick(&[0, 8, 9, 10, 12, 264, (1 << 32) + 8]);
        }
    }
    if noise.once_in(4) {
        let word = 1 + noise.below(6) as usize;
        state[word] = noise.pick(&[0, 0, 1, 2, 3, 16, u64::MAX]);
    }
    state
}

/// A width or height near the one given, or at a limit, or far beyond.
fn odd_size(noise: &mut Noise, size: u64) -> u64 {
    let over = (1 << 32) + size;
    noise.pick(&[0, 1, size + 1, size + 2, size + 4, 16_384, 16_385, 16_388, over, u64::MAX])
}

/// Bytes that a reader stumbles over: pieces of start codes, headers, escapes and zeros, among
/// bytes of no meaning. Now and then none at all.
pub fn rubble(noise: &mut Noise) -> Vec<u8> {
    let mut bytes = Vec::new();
    for _ in 0..noise.pick(&[0, 1, 1, 1, 2, 3, 8]) {
        match noise.below(11) {
            0 | 1 => bytes.extend([0, 0, 1]),
            2 => bytes.extend([0, 0, 3]),
            3 => bytes.extend([0, 0, noise.below(5) as u8]),
            4 => bytes.push(noise.pick(&[0x67, 0x68, 0x25])),
            5 => bytes.extend([0, 0, 1, noise.pick(&[0x67, 0x68, 0x25])]),
            6 => bytes.extend([0x68, 0xCE, 0x38, 0x80]),
            7 => bytes.extend([0x25, 0x88, 0x84, 0x28, 0x68]),
            8 => bytes.resize(bytes.len() + 1 + noise.below(6) as usize, 0),
            _ => bytes.extend((0..1 + noise.below(12)).map(|_| noise.below(256) as u8)),
        }
    }
    bytes
}

/// What a stretch of a take is replaced by: rubble, often behind a start code or a parameter set.
pub fn damage(noise: &mut Noise) -> Vec<u8> {
    let mut bytes = Vec::new();
    let set = noise.once_in(6);
    if set || noise.once_in(6) {
        bytes.extend(start_code(noise));
    }
    if set {
        let shape = shape(noise, 40);
        bytes.extend(parameter_set(noise, &shape));
    }
    bytes.extend(rubble(noise));
    bytes
}

/// A start code, now and then with zeros more than it needs.
pub fn start_code(noise: &mut Noise) -> Vec<u8> {
    let mut code = vec![0; noise.pick(&[2, 3, 3, 3, 6])];
    code.push(1);
    code
}

/// A unit of a parameter set without its start code: one that is accepted, or nearly.
pub fn parameter_set(noise: &mut Noise, shape: &Shape) -> Vec<u8> {
    let (header, payload) = match noise.below(8) {
        0 => (0x68, vec![0xCE, 0x38, 0x80]),
        1 => (0x68, altered(noise, vec![0xCE, 0x38, 0x80])),
        2 => (0x67, plain::sps(shape)),
        3 => (0x67, altered(noise, plain::sps(shape))),
        4 => (0x67, plain::sps(&self::shape(noise, 16_384))),
        5 => {
            let payload = sps_like(noise);
            (0x67, altered(noise, payload))
        }
        _ => (0x67, sps_like(noise)),
    };
    let mut unit = vec![header];
    unit.extend(plain::escape(&payload));
    if noise.once_in(12) {
        unit.extend([0, 0, 3]);
    }
    unit
}

/// The bytes with a bit changed, or one more or less somewhere, or some taken off or added.
fn altered(noise: &mut Noise, bytes: Vec<u8>) -> Vec<u8> {
    let mut bits = Bits::of(&bytes);
    let at = noise.below(bits.bits.len() as u64) as usize;
    match noise.below(5) {
        0 | 1 => bits.bits[at] ^= true,
        2 => bits.bits.insert(at, noise.once_in(2)),
        3 => drop(bits.bits.remove(at)),
        _ => bits.bits.truncate(at),
    }
    let mut bytes = bits.packed();
    if noise.once_in(4) {
        bytes.push(noise.pick(&[0x80, 1, 0xFF]));
    }
    bytes
}

/// A number of a sequence parameter set, as so many bits or as a code.
#[derive(Clone, Copy)]
enum Field {
    Bits(u64, u32),
    Code(u64),
}

/// A payload that has the form of a sequence parameter set, with numbers of any kind and size, or
/// of a size near to what is accepted, and now and then one number that no accepted one has.
fn sps_like(noise: &mut Noise) -> Vec<u8> {
    let small = noise.once_in(2);
    let mut blocks = || match noise.below(3) {
        0 => noise.pick(&[1022, 1023, 1024, 511]),
        _ => noise.below(if small { 4 } else { 1024 }),
    };
    let (across, down) = (blocks(), blocks());
    let (profile, colour, depth) =
        noise.pick(&[(66, 1, 0), (100, 0, 0), (244, 0, 4), (244, 1, 4), (100, 1, 0), (244, 1, 0)]);
    let mut fields = vec![Field::Bits(profile, 8), Field::Bits(0, 8), Field::Bits(10, 8)];
    fields.push(Field::Code(0));
    if profile != 66 {
        fields.extend([colour, depth, depth].map(Field::Code));
        fields.push(Field::Bits(0, 2));
    }
    fields.extend([Field::Code(0); 4]);
    fields.push(Field::Bits(0, 1));
    fields.extend([across, down].map(Field::Code));
    fields.push(Field::Bits(0b10, 2));
    let crop = noise.below(2);
    fields.push(Field::Bits(crop, 1));
    if crop == 1 {
        let mut cut = || noise.pick(&[0, 1, 2, 3, 4, 6, 7, 8, 9, 14, 15, 16, 17]);
        fields.extend([0, cut(), 0, cut()].map(Field::Code));
    }
    fields.extend([Field::Bits(0b1001, 4), Field::Bits(5, 3), Field::Bits(1, 1)]);
    fields.extend([Field::Bits(0, 7), Field::Bits(1, 1)]);
    if noise.once_in(2) {
        let at = noise.below(fields.len() as u64) as usize;
        fields[at] = match fields[at] {
            Field::Bits(number, n) => Field::Bits(number ^ 1 << noise.below(n.into()), n),
            Field::Code(_) => Field::Code(noise.pick(&[0, 1, 2, 4, 31, (1 << 32) - 2])),
        };
    }
    let mut bits = Bits::default();
    for field in fields {
        match field {
            Field::Bits(number, n) => bits.put(number, n),
            Field::Code(x) => bits.put_code(x),
        }
    }
    bits.packed()
}
