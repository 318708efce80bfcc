//! The demo's moving picture: a pony that gallops across a meadow, with the picture's number.

use reelpony::reader::Sps;
use reelpony::BitDepth::Depth8;

use crate::y4m::visible;

/// `#` is the pony, `m` its mane and tail. The legs are below.
const BODY: [&str; 11] = [
    ".................##.....",
    "...............mm##.....",
    "..............mm####....",
    ".............mm######...",
    "............mm#####.##..",
    ".mm........mm####.......",
    "mmm.############........",
    "m.m#############........",
    "m..#############........",
    "...#############........",
    "....############........",
];
const LEGS: [[&str; 4]; 2] = [
    [
        "....###......###........",
        ".....##......##.........",
        "......##....##..........",
        "......#......#..........",
    ],
    [
        "...###........###.......",
        "..##............##......",
        ".##..............##.....",
        ".#................#.....",
    ],
];

/// Each digit in three columns and five rows.
const DIGITS: [[u8; 5]; 10] = [
    [7, 5, 5, 5, 7],
    [2, 6, 2, 2, 7],
    [7, 1, 7, 4, 7],
    [7, 1, 3, 1, 7],
    [5, 5, 7, 1, 1],
    [7, 4, 7, 1, 7],
    [7, 4, 7, 5, 7],
    [7, 1, 1, 2, 2],
    [7, 5, 7, 5, 7],
    [7, 5, 7, 1, 7],
];

/// Whether a point belongs to a number whose digits are so many times as large, the first one's
/// corner at the point 0, 0.
pub fn in_number(number: usize, scale: usize, x: usize, y: usize) -> bool {
    let text = number.to_string();
    let (column, row) = (x / scale, y / scale);
    let digit = text.as_bytes().get(column / 4).map(|digit| usize::from(digit - b'0'));
    let bits = digit.and_then(|digit| DIGITS[digit].get(row)).copied().unwrap_or(0);
    column % 4 < 3 && bits >> (2 - column % 4) & 1 == 1
}

/// The colour at a point of a picture, in 12 bits: Y, Cb, Cr.
fn point(shape: &Sps, number: usize, x: usize, y: usize) -> [u16; 3] {
    let (width, height) = (shape.width as usize, shape.height as usize);
    let scale = height / 28;
    if x >= scale && y >= scale && in_number(number, scale, x - scale, y - scale) {
        return [3900, 2048, 2048];
    }
    let left = number.saturating_sub(1) * width / 14 % width;
    let (column, row) = (x.wrapping_sub(left) / scale, y.wrapping_sub(height / 3) / scale);
    let line = match row.checked_sub(BODY.len()) {
        None => BODY.get(row),
        Some(row) => LEGS[number % 2].get(row),
    };
    match line.and_then(|line| line.as_bytes().get(column)) {
        Some(b'#') => return [1500 - 12 * row as u16, 1700, 2500],
        Some(b'm') => return [500, 1950, 2200],
        _ => {}
    }
    let (sun_x, sun_y) = (width * 4 / 5, height / 5);
    if x.abs_diff(sun_x).pow(2) + y.abs_diff(sun_y).pow(2) < (height / 9).pow(2) {
        return [3800, 1000, 2300];
    }
    // Shades that fall slowly, so that the lowest of 12 bits count too.
    let slope = |from: usize, to: usize, at: usize, end: usize| {
        ((from * (end - at) + to * at) / end) as u16
    };
    let horizon = height * 7 / 10;
    match y < horizon {
        true => [slope(2000, 3300, y, horizon), slope(2700, 2250, y, horizon), 1850],
        false => {
            let tuft = ((x + number * 5) / 6 + y / 3) % 7 * 40;
            [slope(2100, 1200, y, height) + tuft as u16, 1500, 1700]
        }
    }
}

/// The samples of a picture as a Y4M has them.
pub fn picture(shape: &Sps, number: usize) -> Vec<u8> {
    let mut samples = Vec::new();
    for (plane, (across, down)) in visible(shape).into_iter().enumerate() {
        let step = if plane == 0 { 1 } else { 2 };
        for y in 0..down {
            for x in 0..across {
                let value = point(shape, number, x * step, y * step)[plane];
                match shape.bit_depth {
                    Depth8 => samples.push((value >> 4) as u8),
                    _ => samples.extend(value.to_le_bytes()),
                }
            }
        }
    }
    samples
}
