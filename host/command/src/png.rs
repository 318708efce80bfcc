//! Pictures for common viewers: PNG, its bytes stored and not compressed.

/// A picture in red, green and blue.
pub struct Canvas {
    pub width: usize,
    pub height: usize,
    /// Three bytes a point, rows from the top.
    pub points: Vec<u8>,
}

impl Canvas {
    /// All of one colour.
    pub fn new(width: usize, height: usize, colour: [u8; 3]) -> Canvas {
        Canvas { width, height, points: colour.repeat(width * height) }
    }

    /// Sets a point; one outside is left out.
    pub fn set(&mut self, x: usize, y: usize, colour: [u8; 3]) {
        if x < self.width && y < self.height {
            let at = (y * self.width + x) * 3;
            self.points[at..at + 3].copy_from_slice(&colour);
        }
    }

    /// The file's bytes.
    pub fn png(&self) -> Vec<u8> {
        let mut file = b"\x89PNG\r\n\x1a\n".to_vec();
        let mut head = Vec::new();
        head.extend((self.width as u32).to_be_bytes());
        head.extend((self.height as u32).to_be_bytes());
        // 8 bits, red green blue, the one compression and filter there are, not interlaced.
        head.extend([8, 2, 0, 0, 0]);
        add_part(&mut file, b"IHDR", &head);

        let mut rows = Vec::new();
        for row in self.points.chunks_exact(self.width * 3) {
            rows.push(0);
            rows.extend(row);
        }
        let mut data = vec![0x78, 0x01];
        let mut blocks = rows.chunks(0xFFFF).peekable();
        while let Some(block) = blocks.next() {
            let length = block.len() as u16;
            data.push(u8::from(blocks.peek().is_none()));
            data.extend(length.to_le_bytes());
            data.extend((!length).to_le_bytes());
            data.extend(block);
        }
        data.extend(adler(&rows).to_be_bytes());
        add_part(&mut file, b"IDAT", &data);
        add_part(&mut file, b"IEND", &[]);
        file
    }
}

/// A part of the file: length, name, bytes, checksum of name and bytes.
fn add_part(file: &mut Vec<u8>, name: &[u8; 4], bytes: &[u8]) {
    file.extend((bytes.len() as u32).to_be_bytes());
    let begin = file.len();
    file.extend(name);
    file.extend(bytes);
    let sum = crc(&file[begin..]);
    file.extend(sum.to_be_bytes());
}

fn crc(bytes: &[u8]) -> u32 {
    !bytes.iter().fold(!0, |sum, &byte| {
        (0..8).fold(sum ^ u32::from(byte), |sum: u32, _| {
            sum >> 1 ^ (0xEDB8_8320 & (sum & 1).wrapping_neg())
        })
    })
}

fn adler(bytes: &[u8]) -> u32 {
    let (a, b) = bytes.iter().fold((1, 0), |(a, b), &byte| {
        let a = (a + u32::from(byte)) % 65_521;
        (a, (b + a) % 65_521)
    });
    b << 16 | a
}

#[cfg(test)]
mod tests {
    use super::*;

    /// The checksums' published examples.
    #[test]
    fn checksums() {
        assert_eq!(crc(b"123456789"), 0xCBF4_3926);
        assert_eq!(adler(b"Wikipedia"), 0x11E6_0398);
    }

    #[test]
    fn a_small_file() {
        let mut canvas = Canvas::new(2, 1, [1, 2, 3]);
        canvas.set(1, 0, [4, 5, 6]);
        canvas.set(2, 0, [7, 7, 7]);
        let file = canvas.png();
        assert_eq!(file[8..16], *b"\0\0\0\x0dIHDR");
        let data = file.windows(4).position(|four| four == b"IDAT").unwrap() + 4;
        let wanted = [0x78, 1, 1, 7, 0, 0xF8, 0xFF, 0, 1, 2, 3, 4, 5, 6];
        assert_eq!(file[data..data + 14], wanted);
        assert!(file.ends_with(b"\0\0\0\0IEND\xAE\x42\x60\x82"));
    }
}
