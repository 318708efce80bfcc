//! The raw video that ffmpeg hands over: YUV4MPEG2, whose header says what the samples are.

use crate::Outcome;

/// Decoded pictures.
pub struct Video {
    pub width: usize,
    pub height: usize,
    /// Bits a sample; over 8, a sample is two bytes, the low one first.
    pub bits: u8,
    /// Samples across and down of each plane.
    planes: Vec<(usize, usize)>,
    /// Each picture's planes, one behind the other in tight rows.
    pictures: Vec<Vec<u8>>,
}

impl Video {
    /// Reads a header line such as `YUV4MPEG2 W17 H16 F25:1 C420jpeg`, then pictures, each behind a
    /// line that begins with FRAME.
    pub fn parse(bytes: Vec<u8>) -> Outcome<Video> {
        let (header, mut rest) = line(&bytes).ok_or("no header from ffmpeg")?;
        let field = |letter: char| header.split(' ').skip(1).find_map(|f| f.strip_prefix(letter));
        let width: usize = field('W').ok_or("no width from ffmpeg")?.parse()?;
        let height: usize = field('H').ok_or("no height from ffmpeg")?.parse()?;
        let chroma = (width.div_ceil(2), height.div_ceil(2));
        let format = field('C').unwrap_or("420");
        let (bits, planes) = match format {
            "mono" => (8, vec![(width, height)]),
            "mono12" => (12, vec![(width, height)]),
            "420" | "420jpeg" | "420mpeg2" | "420paldv" => {
                (8, vec![(width, height), chroma, chroma])
            }
            "420p12" => (12, vec![(width, height), chroma, chroma]),
            _ => return Err(format!("ffmpeg decoded to format {format}").into()),
        };
        let samples: usize = planes.iter().map(|(across, down)| across * down).sum();
        let length = samples * bytes_each(bits);
        let mut pictures = Vec::new();
        while let Some((_, picture)) = line(rest).filter(|(text, _)| text.starts_with("FRAME")) {
            let whole = picture.get(..length).ok_or("a cut picture from ffmpeg")?;
            pictures.push(whole.to_vec());
            rest = &picture[length..];
        }
        if !rest.is_empty() {
            return Err("bytes behind the last picture from ffmpeg".into());
        }
        Ok(Video { width, height, bits, planes, pictures })
    }

    /// How many pictures there are.
    pub fn pictures(&self) -> usize {
        self.pictures.len()
    }

    /// The sample of a picture's plane at a column and row, if there is such a plane.
    pub fn sample(&self, picture: usize, plane: usize, x: usize, y: usize) -> Option<u16> {
        let (across, _) = *self.planes.get(plane)?;
        let before: usize = self.planes[..plane].iter().map(|(w, h)| w * h).sum();
        let at = before + y * across + x;
        let bytes = &self.pictures[picture];
        match bytes_each(self.bits) {
            1 => bytes.get(at).map(|byte| u16::from(*byte)),
            _ => {
                let pair = bytes.get(2 * at..2 * at + 2)?;
                Some(u16::from_le_bytes([pair[0], pair[1]]))
            }
        }
    }
}

/// Bytes of a sample.
fn bytes_each(bits: u8) -> usize {
    usize::from(bits).div_ceil(8)
}

/// The first line as text, and what stands behind it.
fn line(bytes: &[u8]) -> Option<(&str, &[u8])> {
    let end = bytes.iter().position(|byte| *byte == b'\n')?;
    let text = std::str::from_utf8(&bytes[..end]).ok()?;
    Some((text, &bytes[end + 1..]))
}
