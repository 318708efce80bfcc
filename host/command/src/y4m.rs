//! Raw video as ffmpeg writes and reads it: YUV4MPEG2. A header line says what the samples are; a
//! picture is a line that begins with FRAME, then the planes in tight rows. Samples of 12 bits are
//! two bytes each, the low one first; in a take two of them stand in three bytes.

use std::fs::File;
use std::io::{self, BufRead, BufReader, Read};

use reelpony::reader::Sps;
use reelpony::ycbcr_image::{DataPlane, Planes, YCbCrImage};
use reelpony::BitDepth::{self, Depth12, Depth8};

use crate::error::{Error, Result};
use crate::files::{Name, Output};
use crate::kinds;
use crate::names::shown;
use reelpony::window::zeros;

/// Of a line no more is looked at, and a longer one is refused.
const LONGEST_LINE: usize = 4096;

/// Where a Y4M's bytes come from. It is told where in the Y4M they are, so that a live source can be
/// ended between two pictures.
pub trait Feed: BufRead {
    /// The next byte, if there is one, begins a picture.
    fn between(&mut self) {}

    /// The next so many bytes are a picture's samples, all of them.
    fn samples(&mut self, _length: usize) {}
}

impl Feed for &[u8] {}

impl Feed for BufReader<File> {}

impl<F: Feed> Feed for &mut F {
    fn between(&mut self) {
        (**self).between();
    }

    fn samples(&mut self, length: usize) {
        (**self).samples(length);
    }
}

/// What a Y4M's header says.
#[derive(Debug, PartialEq, Eq)]
pub struct Header {
    pub shape: Sps,
    /// What it says that a take can't say, in words.
    pub unkept: Vec<String>,
}

/// A Y4M that is read picture by picture.
pub struct Source<R> {
    input: R,
    name: Name,
    pub header: Header,
    planes: Vec<Plane>,
    /// Bytes of a picture's samples.
    length: usize,
    /// A row of 12-bit samples as they are read.
    row: Vec<u8>,
    pub pictures: u64,
    /// Bytes read.
    pub bytes: u64,
}

/// A plane with padding up to whole macroblocks.
struct Plane {
    name: &'static str,
    data: Vec<u8>,
    stride: usize,
    /// Visible samples across and down.
    across: usize,
    down: usize,
}

impl<R: Feed> Source<R> {
    /// Reads the header. Sizes and kinds that no take can have are an error.
    pub fn open(mut input: R, name: &Name) -> Result<Source<R>> {
        let failed = |error| Error::reading(name, error);
        // What comes first, for a file that is no Y4M.
        let first = input.fill_buf().map_err(failed)?;
        let first = first[..first.len().min(kinds::FIRST)].to_vec();
        let Line { text: line, end } = line(&mut input).map_err(failed)?;
        if !is_y4m(&line) {
            return Error::sentence(format!("{name} {}", no_y4m(&first)));
        }
        if end == End::TooLong {
            return Error::sentence(format!("{name} can't be read: its first line {TOO_LONG}"));
        }
        let header = match Header::parse(&line) {
            Ok(header) => header,
            Err(text) => return Error::sentence(format!("{name} {text}")),
        };
        if let Some(text) = refused(&header.shape) {
            return Error::sentence(format!("{name} can't become a take: {text}"));
        }
        let out_of_memory = |error| Error::reading(name, error);
        let shape = header.shape;
        let mut planes = Vec::new();
        let mut length = 0;
        for (plane, (across, down)) in visible(&shape).into_iter().enumerate() {
            let side = if plane == 0 { 16 } else { 8 };
            let stride = row_bytes(shape.bit_depth, across.div_ceil(side) * side);
            let data = zeros(stride * down.div_ceil(side) * side).map_err(out_of_memory)?;
            length += across * down * bytes_each(shape.bit_depth);
            planes.push(Plane { name: ["Y", "Cb", "Cr"][plane], data, stride, across, down });
        }
        let row = vec![0; 2 * shape.width as usize];
        let bytes = line.len() as u64 + 1;
        Ok(Source { input, name: name.clone(), header, planes, length, row, pictures: 0, bytes })
    }

    /// Reads the next picture, if there is one.
    pub fn next(&mut self) -> Result<Option<YCbCrImage<'_>>> {
        let number = self.pictures + 1;
        let name = &self.name;
        let cut = || Error::Sentence(format!("{name} is cut short: picture {number} is not whole"));
        self.input.between();
        let line = line(&mut self.input).map_err(|error| Error::reading(name, error))?;
        let is_frame = line.text == b"FRAME" || line.text.starts_with(b"FRAME ");
        match line.end {
            End::Cut if line.text.is_empty() => return Ok(None),
            End::Cut if is_frame || b"FRAME".starts_with(&line.text) => return Err(cut()),
            End::TooLong if is_frame => {
                return Error::sentence(format!(
                    "{name}: the line before picture {number} {TOO_LONG}"
                ));
            }
            End::Whole if is_frame => {}
            _ => {
                return Error::sentence(format!("{name}: no FRAME stands before picture {number}"))
            }
        }
        self.bytes += line.text.len() as u64 + 1;
        self.input.samples(self.length);
        let Sps { bit_depth, width, height, .. } = self.header.shape;
        for plane in &mut self.planes {
            plane.read(&mut self.input, bit_depth, &mut self.row).map_err(|fault| match fault {
                Fault::Sample { column, row, value } => Error::Sentence(format!(
                    "{name}: picture {number} has {value} in {} at column {column}, row {row}; \
                     12 bits end at 4095",
                    plane.name
                )),
                Fault::Read(error) if error.kind() == io::ErrorKind::UnexpectedEof => cut(),
                Fault::Read(error) => Error::reading(name, error),
            })?;
        }
        self.bytes += self.length as u64;
        self.pictures = number;
        let lent = |plane: &'_ Plane| DataPlane { stride: plane.stride, bit_depth, data: &[] };
        let planes = match &self.planes[..] {
            [y, cb, cr] => Planes::YCbCr((
                DataPlane { data: &y.data, ..lent(y) },
                DataPlane { data: &cb.data, ..lent(cb) },
                DataPlane { data: &cr.data, ..lent(cr) },
            )),
            luma => Planes::Mono(DataPlane { data: &luma[0].data, ..lent(&luma[0]) }),
        };
        Ok(Some(YCbCrImage { planes, width, height }))
    }
}

/// What can be wrong with a plane.
enum Fault {
    Read(io::Error),
    Sample { column: usize, row: usize, value: u16 },
}

impl Plane {
    /// Reads the visible rows, and repeats each row's last sample and the last row as padding.
    fn read(
        &mut self,
        input: &mut impl Read,
        depth: BitDepth,
        row: &mut [u8],
    ) -> std::result::Result<(), Fault> {
        for (number, line) in self.data.chunks_exact_mut(self.stride).take(self.down).enumerate() {
            match depth {
                Depth8 => {
                    input.read_exact(&mut line[..self.across]).map_err(Fault::Read)?;
                    let last = line[self.across - 1];
                    line[self.across..].fill(last);
                }
                Depth12 => {
                    let row = &mut row[..2 * self.across];
                    input.read_exact(row).map_err(Fault::Read)?;
                    pack(row, line).map_err(|(column, value)| Fault::Sample {
                        column,
                        row: number,
                        value,
                    })?;
                }
            }
        }
        let (visible, padding) = self.data.split_at_mut(self.stride * self.down);
        let last = &visible[visible.len() - self.stride..];
        padding.chunks_exact_mut(self.stride).for_each(|line| line.copy_from_slice(last));
        Ok(())
    }
}

/// Packs samples of two bytes, an even number of them, two in three bytes; the last one is repeated
/// up to the line's end. The first one that has more than 12 bits is an error, with its column.
fn pack(row: &[u8], line: &mut [u8]) -> std::result::Result<(), (usize, u16)> {
    let mut high = 0;
    let mut packed = line.chunks_exact_mut(3);
    for (four, three) in row.chunks_exact(4).zip(&mut packed) {
        high |= four[1] | four[3];
        three[0] = four[1] << 4 | four[0] >> 4;
        three[1] = four[0] << 4 | four[3];
        three[2] = four[2];
    }
    if high > 15 {
        let value = |two: &[u8]| u16::from_le_bytes([two[0], two[1]]);
        let mut samples = row.chunks_exact(2).map(value).enumerate();
        if let Some(found) = samples.find(|(_, value)| *value > 4095) {
            return Err(found);
        }
    }
    if let [.., low, high] = *row {
        let twice = [high << 4 | low >> 4, low << 4 | high, low];
        packed.for_each(|three| three.copy_from_slice(&twice));
    }
    Ok(())
}

/// Unpacks bytes of two samples in three to two bytes each.
fn unpack(packed: &[u8], row: &mut [u8]) {
    for (three, four) in packed.chunks_exact(3).zip(row.chunks_exact_mut(4)) {
        four[0] = three[0] << 4 | three[1] >> 4;
        four[1] = three[0] >> 4;
        four[2] = three[2];
        four[3] = three[1] & 15;
    }
}

const TOO_LONG: &str = "is longer than the 4,096 bytes that are looked at";

/// Whether a line is a Y4M's first one.
fn is_y4m(line: &[u8]) -> bool {
    line == b"YUV4MPEG2" || line.starts_with(b"YUV4MPEG2 ")
}

/// What a file is that is no Y4M, in words that follow its name.
fn no_y4m(first: &[u8]) -> String {
    match kinds::told(first) {
        _ if kinds::is_byte_stream(first) => {
            "is a take or another H.264 byte stream, not a Y4M; extract reads it".into()
        }
        // Only nearly one: its first word goes on.
        Some(_) if first.starts_with(b"YUV4MPEG2") => NO_Y4M.into(),
        Some(words) => format!("{words}, not a Y4M"),
        None => NO_Y4M.into(),
    }
}

const NO_Y4M: &str = "is not a Y4M: it doesn't begin with a line YUV4MPEG2";

impl Header {
    /// From the first line. An error is what to say behind the file's name.
    fn parse(line: &[u8]) -> std::result::Result<Header, String> {
        let line = String::from_utf8_lossy(line);
        let mut kind = "420";
        let mut sides = [None; 2];
        let mut range = "";
        let mut unkept = Vec::new();
        for field in line.split(' ').skip(1) {
            let mut letters = field.chars();
            let letter = letters.next();
            let value = letters.as_str();
            match letter {
                Some('W') => sides[0] = value.parse().ok(),
                Some('H') => sides[1] = value.parse().ok(),
                Some('C') => kind = value,
                Some('F') if value != "0:0" => unkept.push(format!(
                    "a take has no frame rate; to get {0} back, extract with --rate {0}",
                    shown(value)
                )),
                Some('A') if !matches!(value, "0:0" | "1:1") => unkept.push(format!(
                    "its samples are {} as wide as high, and a take doesn't say so",
                    shown(value)
                )),
                Some('I') if !matches!(value, "p" | "?") => {
                    unkept.push("it is interlaced, and a take doesn't say so".into());
                }
                Some('X') => range = value.strip_prefix("COLORRANGE=").unwrap_or(range),
                _ => {}
            }
        }
        match range {
            "FULL" => {}
            "LIMITED" => {
                unkept.push("its samples are of limited range, and a take says full range".into());
            }
            _ => unkept.push("it doesn't say its range, and is taken as full range".into()),
        }
        let [Some(width), Some(height)] = sides else {
            return Err("is no Y4M that can be read: its first line has no width and height".into());
        };
        let (colour, bit_depth) = kind_of(kind).ok_or_else(|| {
            format!(
                "is of the kind \"{}\", which no take can have: only mono, mono12, 420 and 420p12",
                shown(kind)
            )
        })?;
        if let "420mpeg2" | "420paldv" = kind {
            unkept.push(format!(
                "its chroma is sited as {kind} has it, and a take doesn't say so; extract writes \
                 420jpeg"
            ));
        }
        Ok(Header { shape: Sps { width, height, colour, bit_depth }, unkept })
    }
}

/// Whether a kind of samples is colour, and how deep they are; None for what no take can have.
fn kind_of(kind: &str) -> Option<(bool, BitDepth)> {
    match kind {
        "mono" => Some((false, Depth8)),
        "mono12" => Some((false, Depth12)),
        "420" | "420jpeg" | "420mpeg2" | "420paldv" => Some((true, Depth8)),
        "420p12" => Some((true, Depth12)),
        _ => None,
    }
}

/// A size and a kind as an option gives them: `640x480:420p12`. An error is what is wrong with it.
pub fn shape_of(text: &str) -> std::result::Result<Sps, String> {
    let form = || {
        "needs a size and a kind like 640x480:420, the kind being mono, mono12, 420 or 420p12"
            .to_string()
    };
    let (size, kind) = text.split_once(':').ok_or_else(form)?;
    let (width, height) = size.split_once('x').ok_or_else(form)?;
    let side = |text: &str| match text.bytes().all(|byte| byte.is_ascii_digit()) {
        true => text.parse().map_err(|_| form()),
        false => Err(form()),
    };
    let (width, height) = (side(width)?, side(height)?);
    let (colour, bit_depth) = kind_of(kind).ok_or_else(form)?;
    let shape = Sps { width, height, colour, bit_depth };
    refused(&shape).map_or(Ok(shape), Err)
}

/// Why no take can have pictures like these. The library is asked with planes of no bytes: it looks
/// at them only when the size and the kind are right.
fn refused(shape: &Sps) -> Option<String> {
    use reelpony::Refusal::{Colour12Width, OddHeight, OddWidth, Size};

    let none = DataPlane { data: &[], stride: 0, bit_depth: shape.bit_depth };
    let planes = match shape.colour {
        true => Planes::YCbCr((none, none, none)),
        false => Planes::Mono(none),
    };
    let image = YCbCrImage { planes, width: shape.width, height: shape.height };
    match reelpony::start(&image, &mut []) {
        Err(refusal @ (Size | Colour12Width | OddWidth | OddHeight)) => {
            Some(format!("{refusal}, and this is {}", words(shape)))
        }
        _ => None,
    }
}

/// `640x480, colour, 8 bits`.
pub fn words(shape: &Sps) -> String {
    let Sps { width, height, colour, bit_depth } = shape;
    let colour = if *colour { "colour" } else { "monochrome" };
    format!("{width}x{height}, {colour}, {} bits", bit_depth.num_bits())
}

/// Visible samples across and down of each plane.
pub fn visible(shape: &Sps) -> Vec<(usize, usize)> {
    let (width, height) = (shape.width as usize, shape.height as usize);
    let chroma = (width / 2, height / 2);
    match shape.colour {
        true => vec![(width, height), chroma, chroma],
        false => vec![(width, height)],
    }
}

/// Bytes of a row in a take.
fn row_bytes(depth: BitDepth, samples: usize) -> usize {
    samples * usize::from(depth.num_bits()) / 8
}

/// Bytes of a sample in a Y4M.
fn bytes_each(depth: BitDepth) -> usize {
    match depth {
        Depth8 => 1,
        Depth12 => 2,
    }
}

/// A line without its end.
struct Line {
    text: Vec<u8>,
    end: End,
}

/// How a line ends.
#[derive(PartialEq, Eq)]
enum End {
    /// As lines do.
    Whole,
    /// With the file.
    Cut,
    /// It goes on.
    TooLong,
}

/// The next line; an empty one that is cut at the end of the file.
fn line(input: &mut impl BufRead) -> io::Result<Line> {
    let mut text = Vec::new();
    input.take(LONGEST_LINE as u64 + 1).read_until(b'\n', &mut text)?;
    let end = match text.last() {
        Some(b'\n') => {
            text.pop();
            End::Whole
        }
        _ if text.len() > LONGEST_LINE => End::TooLong,
        _ => End::Cut,
    };
    Ok(Line { text, end })
}

/// The header of a Y4M of such pictures, so many a second.
pub fn header(shape: &Sps, rate: &str) -> String {
    let kind = match (shape.colour, shape.bit_depth) {
        (false, Depth8) => "mono",
        (false, Depth12) => "mono12",
        (true, Depth8) => "420jpeg XYSCSS=420JPEG",
        (true, Depth12) => "420p12 XYSCSS=420P12",
    };
    let Sps { width, height, .. } = shape;
    format!("YUV4MPEG2 W{width} H{height} F{rate} Ip A0:0 C{kind} XCOLORRANGE=FULL\n")
}

/// Writes a picture from planes as a take's reader leaves them. One that a second look found says so
/// in its frame's line, which players pass over.
pub fn write(
    output: &mut Output,
    depth: BitDepth,
    marked: bool,
    planes: &[Vec<u8>; 3],
) -> Result<()> {
    output.write(if marked { b"FRAME XREELPONY=SECOND-LOOK\n" } else { b"FRAME\n" })?;
    let mut row = Vec::new();
    for plane in planes {
        match depth {
            Depth8 => output.write(plane)?,
            Depth12 => {
                // Some thousands of samples at a time.
                for part in plane.chunks(3 << 14) {
                    row.resize(part.len() / 3 * 4, 0);
                    unpack(part, &mut row);
                    output.write(&row)?;
                }
            }
        }
    }
    Ok(())
}

#[cfg(test)]
mod tests {
    use super::*;

    fn shape(width: u32, height: u32, colour: bool, bit_depth: BitDepth) -> Sps {
        Sps { width, height, colour, bit_depth }
    }

    #[test]
    fn headers() {
        for (line, wanted) in [
            ("YUV4MPEG2 W18 H10", shape(18, 10, true, Depth8)),
            (
                "YUV4MPEG2 W18 H10 F25:1 Ip A1:1 Cmono XCOLORRANGE=FULL",
                shape(18, 10, false, Depth8),
            ),
            ("YUV4MPEG2 C420p12 H9 W7 XYSCSS=420P12", shape(7, 9, true, Depth12)),
            ("YUV4MPEG2 W1 H1 Cmono12 I?", shape(1, 1, false, Depth12)),
        ] {
            let header = Header::parse(line.as_bytes()).map(|header| header.shape);
            assert_eq!(header, Ok(wanted), "{line}");
        }
        for shape in [shape(18, 10, true, Depth8), shape(4, 2, true, Depth12)] {
            let line = header(&shape, "25:1");
            let header = Header::parse(line.trim_end().as_bytes()).map(|header| header.shape);
            assert_eq!(header, Ok(shape));
        }
        for line in ["YUV4MPEG2", "YUV4MPEG2 W2", "YUV4MPEG2 Wx H2", "YUV4MPEG2 W2 H2 C422"] {
            assert!(Header::parse(line.as_bytes()).is_err(), "{line}");
        }
        for (line, is) in [
            ("YUV4MPEG2", true),
            ("YUV4MPEG2 W2", true),
            ("YUV4MPEG2W2", false),
            ("YUV4MPEG", false),
            ("", false),
        ] {
            assert_eq!(is_y4m(line.as_bytes()), is, "{line}");
        }
    }

    /// Each thing that a take can't keep is told, and nothing else.
    #[test]
    fn unkept() {
        for (fields, words) in [
            ("XCOLORRANGE=FULL", &[][..]),
            ("F0:0 Ip A0:0 C420jpeg XYSCSS=420JPEG XCOLORRANGE=FULL", &[]),
            ("A1:1 I? Cmono XCOLORRANGE=FULL", &[]),
            ("", &["doesn't say its range"]),
            ("XCOLORRANGE=LIMITED", &["limited range"]),
            ("F30000:1001 XCOLORRANGE=FULL", &["--rate 30000:1001"]),
            ("A10:11 XCOLORRANGE=FULL", &["10:11"]),
            ("It XCOLORRANGE=FULL", &["interlaced"]),
            ("C420mpeg2 XCOLORRANGE=FULL", &["sited as 420mpeg2"]),
            ("C420paldv XCOLORRANGE=FULL", &["sited as 420paldv"]),
            ("F1:1\x1b[2J XCOLORRANGE=FULL", &["1:1\\x1b[2J"]),
            (
                "F24:1 A2:1 Im C420mpeg2",
                &["--rate 24:1", "2:1 as wide", "interlaced", "range", "sited"],
            ),
        ] {
            let header = Header::parse(format!("YUV4MPEG2 W2 H2 {fields}").as_bytes()).unwrap();
            assert_eq!(header.unkept.len(), words.len(), "{fields}: {:?}", header.unkept);
            for (told, words) in header.unkept.iter().zip(words) {
                assert!(told.contains(words), "{fields}: {told}");
            }
        }
    }

    #[test]
    fn shapes() {
        assert_eq!(shape_of("640x480:420"), Ok(shape(640, 480, true, Depth8)));
        assert_eq!(shape_of("18x5:mono12"), Ok(shape(18, 5, false, Depth12)));
        for text in ["", "640x480", "640:420", "640x480:422", "+1x1:mono", "x1:mono", "1x1:mono "] {
            assert!(shape_of(text).is_err_and(|text| text.contains("like 640x480:420")), "{text}");
        }
        for text in ["0x1:mono", "16385x1:mono", "1x2:420", "6x2:420p12"] {
            assert!(shape_of(text).is_err_and(|text| text.contains("and this is")), "{text}");
        }
    }

    /// All pairs of a low and a high sample come back, and the last one is repeated.
    #[test]
    fn twelve_bits() {
        let mut line = [0; 6];
        let mut back = [0; 8];
        for first in 0..4096u16 {
            let second = 4095 - first;
            let row = [first.to_le_bytes(), second.to_le_bytes()].concat();
            assert_eq!(pack(&row, &mut line), Ok(()));
            assert_eq!(u16::from(line[0]) << 4 | u16::from(line[1]) >> 4, first);
            unpack(&line, &mut back);
            assert_eq!(back[..4], row);
            assert_eq!(back[4..], [&row[2..], &row[2..]].concat());
        }
        assert_eq!(pack(&[0, 0, 0, 0x10], &mut line), Err((1, 4096)));
    }

    /// Files with anything changed are read or refused.
    #[test]
    fn any_bytes() {
        let name = Name::of(std::path::Path::new("x.y4m"), "");
        let mut read = [0; 2];
        for case in 0..20_000 {
            let mut noise = common::Noise::new(4, case);
            let kind = noise.pick(&["mono", "mono12", "420", "420p12", "", "444"]);
            let side = noise.pick(&["2", "4", "1", "0", "16384", "16385", "-1", "4294967296", ""]);
            let head = format!("YUV4MPEG2 W4 H{side} F25:1 C{kind} Ip\nFRAME\n");
            let mut file = head.into_bytes();
            let any = noise.below(60) as usize;
            let length = noise.pick(&[8, 12, 16, 24, 32, 48, any]);
            file.extend(vec![noise.pick(&[1, 15, 16]); length]);
            file.extend(b"FRAME\n");
            file.extend(vec![1; length]);
            for _ in 0..noise.below(3) {
                let at = noise.below(file.len() as u64) as usize;
                file[at] = noise.pick(&[0, b'\n', b' ', b'9', 255]);
            }
            let accepted = Source::open(&file[..], &name).and_then(|mut source| {
                while source.next()?.is_some() {}
                Ok(())
            });
            read[usize::from(accepted.is_ok())] += 1;
        }
        assert!(read.iter().all(|&times| times > 50), "{read:?}");
    }

    /// The padding repeats the last sample of a row and the last row.
    #[test]
    fn padding() {
        let y4m = b"YUV4MPEG2 W3 H2 Cmono\nFRAME\nabcdef";
        let name = Name::of(std::path::Path::new("x.y4m"), "");
        let mut source = Source::open(&y4m[..], &name).unwrap();
        assert!(source.next().unwrap().is_some());
        let rows: Vec<&[u8]> = source.planes[0].data.chunks(16).collect();
        assert_eq!(rows.len(), 16);
        assert_eq!(rows[0], b"abcccccccccccccc");
        assert!(rows[1..].iter().all(|row| row == b"deffffffffffffff"));
        assert!(source.next().unwrap().is_none());
        assert_eq!(source.bytes, y4m.len() as u64);
    }
}
