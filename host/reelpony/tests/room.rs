//! `reelpony_room`: an output of exactly that length is enough for both calls, whatever the
//! samples, and there is none for a shape that both refuse.

use common::Noise;
use reelpony::ffi::{next, room, start, Picture, Plane};

/// Sizes at and around whole macroblocks, and thin ones.
const SIDES: [u32; 11] = [1, 2, 3, 4, 8, 15, 16, 17, 20, 32, 50];

/// Colour and depth of each kind.
const KINDS: [(u32, u32); 4] = [(0, 8), (0, 12), (1, 8), (1, 12)];

/// Bytes of a padded plane, and its stride.
fn padded(width: u32, height: u32, side: u32, depth: u32) -> (usize, usize) {
    let stride = (width.next_multiple_of(side) * depth / 8) as usize;
    (stride * height.next_multiple_of(side) as usize, stride)
}

/// Lends `bytes`, of which there are enough, as a picture's planes.
fn picture(bytes: &[u8], width: u32, height: u32, colour: u32, depth: u32) -> Picture<'_> {
    let plane = |width, height, side| {
        let (length, stride) = padded(width, height, side, depth);
        Plane { bytes: &bytes[..length], stride, depth }
    };
    let chroma = plane(width / 2, height / 2, 8);
    Picture { width, height, colour, planes: [plane(width, height, 16), chroma, chroma] }
}

/// Whether 3, 4 and 5 let a size of `SIDES` pass.
fn accepted(width: u32, height: u32, colour: u32, depth: u32) -> bool {
    match (colour, depth) {
        (0, 8) => true,
        (0, _) => width % 2 == 0,
        (_, 8) => width % 2 == 0 && height % 2 == 0,
        _ => width % 4 == 0 && height % 2 == 0,
    }
}

/// Contents that take the most inserted bytes, or might: zeros, start codes, inserted bytes as
/// samples, zeros in twos and threes, and noise of few and of all values.
fn contents() -> Vec<Vec<u8>> {
    let patterns: [&[u8]; 6] =
        [&[0], &[0, 0, 1], &[0, 0, 3], &[0, 0, 0, 1], &[0, 0, 255], &[1, 0, 0]];
    let repeated = |pattern: &&[u8]| pattern.iter().copied().cycle().take(9000).collect();
    let mut contents: Vec<Vec<u8>> = patterns.iter().map(repeated).collect();
    for (part, values) in [2, 5, 256].into_iter().enumerate() {
        let mut noise = Noise::new(77, part as u64);
        contents.push((0..9000).map(|_| noise.below(values) as u8).collect());
    }
    contents
}

/// The lengths that a start and a next call write into an output of `room` bytes.
fn written(picture: &Picture, room: u64) -> [u64; 2] {
    let (mut out, mut session) = (vec![0xEE; room as usize], [0; 8]);
    let first = start(picture, &mut out, &mut session);
    let second = next(picture, &mut out, &mut session);
    assert_eq!([first.number, second.number], [0, 0], "{first:?} and {second:?} with {room}");
    [first.length, second.length]
}

#[test]
fn an_output_of_that_length_is_enough() {
    let contents = contents();
    let mut most = 0.0f64;
    for (width, height) in SIDES.iter().flat_map(|&width| SIDES.map(|height| (width, height))) {
        for (colour, depth) in KINDS {
            let room = room(width, height, colour, depth);
            if !accepted(width, height, colour, depth) {
                assert_eq!(room, 0, "{width} x {height}, {colour}, {depth}");
                continue;
            }
            for bytes in &contents {
                let [first, second] = written(&picture(bytes, width, height, colour, depth), room);
                assert!(second < first && first <= room);
                most = most.max(first as f64 / room as f64);
            }
        }
    }
    assert!(most > 0.95, "the worst content takes {most} of the room");
}

#[test]
fn no_room_for_what_is_refused() {
    let bytes = [0; 9000];
    let shapes = [
        (16, 16, 2, 8),
        (16, 16, u32::MAX, 8),
        (16, 16, 0, 0),
        (16, 16, 0, 10),
        (16, 16, 1, 16),
        (0, 16, 0, 8),
        (16, 0, 1, 12),
        (0, 0, 7, 7),
        (16_385, 16, 0, 8),
        (16, 16_385, 0, 12),
        (u32::MAX, u32::MAX, 1, 8),
        (6, 16, 1, 12),
        (5, 16, 1, 12),
        (17, 16, 1, 8),
        (17, 16, 0, 12),
        (16, 17, 1, 8),
    ];
    for (width, height, colour, depth) in shapes {
        assert_eq!(room(width, height, colour, depth), 0);
        let plane = Plane { bytes: &bytes, stride: 48, depth };
        let picture = Picture { width, height, colour, planes: [plane; 3] };
        for call in [start, next] {
            let answer = call(&picture, &mut [], &mut [16, 16, 0, 8, 0, 0, 0, 0]);
            assert!(matches!(answer.number, 1..=5 | 99), "{answer:?}");
        }
    }
}

#[test]
fn rooms_of_known_pictures() {
    let black = vec![0; 640 * 480];
    let image = picture(&black, 640, 480, 0, 8);
    let needed = start(&image, &mut [], &mut [0; 8]).length;
    assert_eq!(needed, 463_230);
    assert!((needed..needed + 2000).contains(&room(640, 480, 0, 8)));
    // 64, 5, the payload (3 and 258 bytes, or 578, for each macroblock), and its half.
    assert_eq!(room(16, 16, 0, 8), 69 + 261 + 130);
    assert_eq!(room(16_384, 16_384, 1, 12), 69 + 606_076_931 + 303_038_465);
}
