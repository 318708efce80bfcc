//! A contact sheet: small pictures in rows, with those marked that were lost.

use reelpony::reader::Sps;
use reelpony::BitDepth::Depth8;

use crate::png::Canvas;
use crate::scene::in_number;

/// Points around each picture.
const GAP: usize = 4;
const PAPER: [u8; 3] = [24, 24, 28];
const LOST: [u8; 3] = [56, 56, 60];
const MARK: [u8; 3] = [230, 40, 40];

/// A picture's samples as a Y4M has them; None where it was lost.
pub type Row = (Sps, Vec<Option<Vec<u8>>>);

/// The sheet of some rows of pictures, all of one even size, each shown half as large.
pub fn sheet(rows: &[Row]) -> Canvas {
    let (width, height) =
        rows.first().map_or((0, 0), |(s, _)| (s.width as usize / 2, s.height as usize / 2));
    let columns = rows.iter().map(|(_, pictures)| pictures.len()).max().unwrap_or(0);
    let side = |count: usize, size: usize| count * (size + GAP) + GAP;
    let mut canvas = Canvas::new(side(columns, width), side(rows.len(), height), PAPER);
    for (row, (shape, pictures)) in rows.iter().enumerate() {
        for (column, picture) in pictures.iter().enumerate() {
            let (left, top) = (side(column, width), side(row, height));
            for y in 0..height {
                for x in 0..width {
                    let colour = match picture {
                        Some(samples) => shown(shape, samples, x, y),
                        None => lost(column + 1, x, y, width, height),
                    };
                    canvas.set(left + x, top + y, colour);
                }
            }
        }
    }
    canvas
}

/// The mark of a lost picture: a frame, a cross, and its number.
fn lost(number: usize, x: usize, y: usize, width: usize, height: usize) -> [u8; 3] {
    const THICK: usize = 3;
    let scale = height / 28;
    if x >= scale && y >= scale && in_number(number, scale, x - scale, y - scale) {
        return [240; 3];
    }
    let edge = x.min(width - 1 - x).min(y.min(height - 1 - y));
    let along = x * height / width;
    let across = y.abs_diff(along).min(y.abs_diff(height - 1 - along));
    if edge < THICK || across < THICK {
        MARK
    } else {
        LOST
    }
}

/// The colour of four samples of Y and the one of Cb and Cr that stands for them.
fn shown(shape: &Sps, samples: &[u8], x: usize, y: usize) -> [u8; 3] {
    let (width, height) = (shape.width as usize, shape.height as usize);
    let sample = |at: usize| -> f32 {
        match shape.bit_depth {
            Depth8 => samples.get(at).map_or(0.0, |byte| f32::from(*byte)),
            _ => samples
                .get(2 * at..2 * at + 2)
                .map_or(0.0, |two| f32::from(u16::from_le_bytes([two[0], two[1]])) / 16.0),
        }
    };
    let four = [(0, 0), (0, 1), (1, 0), (1, 1)];
    let luma = four.map(|(down, right)| sample((2 * y + down) * width + 2 * x + right));
    let luma = luma.iter().sum::<f32>() / 4.0;
    let [cb, cr] = match shape.colour {
        true => [0, 1].map(|plane| {
            sample(width * height + plane * width * height / 4 + y * (width / 2) + x) - 128.0
        }),
        false => [0.0; 2],
    };
    [luma + 1.402 * cr, luma - 0.344 * cb - 0.714 * cr, luma + 1.772 * cb].map(|value| value as u8)
}
