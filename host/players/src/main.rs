//! Writes takes of every kind with the library, lets ffmpeg decode them, and compares every visible
//! sample with what was written.
//!
//! Usage: players
//!
//! The takes stay in target/host/players, for other players to try. Status 0: all alike; 1: a
//! difference; 77: not run, since ffmpeg (Debian package ffmpeg) is missing.

mod y4m;

use std::error::Error;
use std::fs;
use std::io;
use std::path::Path;
use std::process::{Command, ExitCode, Stdio};

use common::Noise;
use reelpony::ycbcr_image::{DataPlane, Planes, YCbCrImage};
use reelpony::{next, start, BitDepth};

use y4m::Video;

/// What a test can find wrong, in words.
type Outcome<T> = Result<T, Box<dyn Error>>;

/// What the pictures of a take are like.
#[derive(Clone, Copy)]
struct Kind {
    colour: bool,
    bit_depth: BitDepth,
    width: u32,
    height: u32,
}

const fn kind(colour: bool, bit_depth: BitDepth, width: u32, height: u32) -> Kind {
    Kind { colour, bit_depth, width, height }
}

/// Whole macroblocks, cropped ones, the smallest of each kind, and one of everyday size.
const KINDS: [Kind; 21] = [
    kind(false, BitDepth::Depth8, 16, 16),
    kind(false, BitDepth::Depth8, 17, 16),
    kind(false, BitDepth::Depth8, 1, 1),
    kind(false, BitDepth::Depth8, 33, 47),
    kind(false, BitDepth::Depth8, 640, 360),
    kind(false, BitDepth::Depth12, 16, 16),
    kind(false, BitDepth::Depth12, 18, 34),
    kind(false, BitDepth::Depth12, 2, 1),
    kind(false, BitDepth::Depth12, 30, 17),
    kind(false, BitDepth::Depth12, 640, 360),
    kind(true, BitDepth::Depth8, 16, 16),
    kind(true, BitDepth::Depth8, 18, 34),
    kind(true, BitDepth::Depth8, 2, 2),
    kind(true, BitDepth::Depth8, 46, 30),
    kind(true, BitDepth::Depth8, 640, 360),
    kind(true, BitDepth::Depth8, 1920, 1080),
    kind(true, BitDepth::Depth12, 16, 16),
    kind(true, BitDepth::Depth12, 20, 18),
    kind(true, BitDepth::Depth12, 4, 2),
    kind(true, BitDepth::Depth12, 44, 50),
    kind(true, BitDepth::Depth12, 640, 360),
];

impl Kind {
    fn name(&self) -> String {
        let colour = if self.colour { "colour" } else { "mono" };
        let bits = self.bit_depth.num_bits();
        format!("{colour}{bits}-{}x{}", self.width, self.height)
    }

    /// Visible samples across and down of each plane.
    fn visible(&self) -> Vec<(usize, usize)> {
        let (width, height) = (self.width as usize, self.height as usize);
        match self.colour {
            true => vec![(width, height), (width / 2, height / 2), (width / 2, height / 2)],
            false => vec![(width, height)],
        }
    }
}

/// A plane with its own bytes.
struct Plane {
    data: Vec<u8>,
    stride: usize,
    bit_depth: BitDepth,
}

impl Plane {
    /// The sample at a column and row. 12 bits are two samples in three bytes.
    fn sample(&self, x: usize, y: usize) -> u16 {
        let row = &self.data[y * self.stride..];
        match (self.bit_depth, x % 2) {
            (BitDepth::Depth8, _) => row[x].into(),
            (BitDepth::Depth12, 0) => {
                let [high, low] = [row[x / 2 * 3], row[x / 2 * 3 + 1]].map(u16::from);
                high << 4 | low >> 4
            }
            (BitDepth::Depth12, _) => {
                let [high, low] = [row[x / 2 * 3 + 1], row[x / 2 * 3 + 2]].map(u16::from);
                (high & 15) << 8 | low
            }
        }
    }

    fn lent(&self) -> DataPlane<'_> {
        DataPlane { data: &self.data, stride: self.stride, bit_depth: self.bit_depth }
    }
}

/// Some pictures of a kind: of random bytes, of many zeros, of zeros alone, of the bytes that
/// escaping looks at, and without zeros. Padding and slack are of the same bytes.
fn pictures(kind: &Kind, noise: &mut Noise) -> Vec<Vec<Plane>> {
    let contents: [fn(&mut Noise) -> u64; 5] = [
        |noise| noise.below(256),
        |noise| noise.below(256) * u64::from(noise.once_in(5)),
        |_| 0,
        |noise| noise.below(5),
        |noise| 1 + noise.below(255),
    ];
    let mut picture = |byte: fn(&mut Noise) -> u64| {
        let plane = |(i, (width, height)): (usize, (usize, usize))| {
            let side = if i == 0 { 16 } else { 8 };
            let row = width.next_multiple_of(side) * usize::from(kind.bit_depth.num_bits()) / 8;
            let stride = row + noise.pick(&[0, 5, 64]);
            let length = stride * height.next_multiple_of(side);
            Plane {
                data: (0..length).map(|_| byte(noise) as u8).collect(),
                stride,
                bit_depth: kind.bit_depth,
            }
        };
        kind.visible().into_iter().enumerate().map(plane).collect()
    };
    contents.into_iter().map(&mut picture).collect()
}

/// The bytes of a take.
fn take(kind: &Kind, pictures: &[Vec<Plane>]) -> Outcome<Vec<u8>> {
    let mut bytes = Vec::new();
    let mut session = None;
    for picture in pictures {
        let image = YCbCrImage {
            planes: match &picture[..] {
                [y, cb, cr] => Planes::YCbCr((y.lent(), cb.lent(), cr.lent())),
                luma => Planes::Mono(luma[0].lent()),
            },
            width: kind.width,
            height: kind.height,
        };
        // Room for the worst escaping and the framing.
        let samples: usize = picture.iter().map(|plane| plane.data.len()).sum();
        let mut out = vec![0; samples * 2 + 1000];
        let length = match &mut session {
            Some(session) => next(session, &image, &mut out)?,
            None => {
                let (length, started) = start(&image, &mut out)?;
                session = Some(started);
                length
            }
        };
        bytes.extend(&out[..length]);
    }
    Ok(bytes)
}

/// What ffmpeg makes of a file. It must not complain of anything.
fn decoded(file: &Path) -> Outcome<Video> {
    let output = Command::new("ffmpeg")
        .args(["-nostdin", "-v", "error", "-f", "h264", "-i"])
        .arg(file)
        .args(["-f", "yuv4mpegpipe", "-strict", "-1", "-"])
        .output()?;
    let said = String::from_utf8_lossy(&output.stderr);
    if !output.status.success() || !said.is_empty() {
        return Err(format!("ffmpeg: {}: {}", output.status, said.trim()).into());
    }
    Video::parse(output.stdout)
}

/// Compares every visible sample; answers how many there were. The decoder may add grey chroma to
/// monochrome, which isn't looked at.
fn compare(kind: &Kind, pictures: &[Vec<Plane>], video: &Video) -> Outcome<u64> {
    let size = (kind.width as usize, kind.height as usize);
    if (video.width, video.height) != size {
        return Err(format!("decoded as {}x{}", video.width, video.height).into());
    }
    let bits = kind.bit_depth.num_bits();
    if video.bits != bits {
        return Err(format!("decoded as {} bits", video.bits).into());
    }
    if video.pictures() != pictures.len() {
        let (found, written) = (video.pictures(), pictures.len());
        return Err(format!("{found} pictures decoded, {written} written").into());
    }
    let mut compared = 0;
    for (n, picture) in pictures.iter().enumerate() {
        for (i, (width, height)) in kind.visible().into_iter().enumerate() {
            for y in 0..height {
                for x in 0..width {
                    let (found, written) = (video.sample(n, i, x, y), picture[i].sample(x, y));
                    if found != Some(written) {
                        return Err(format!(
                            "picture {n}, plane {i}, column {x}, row {y}: decoded {found:?}, \
                             written {written}"
                        )
                        .into());
                    }
                    compared += 1;
                }
            }
        }
    }
    Ok(compared)
}

/// One take from samples to samples; answers how many were compared.
fn round_trip(kind: &Kind, noise: &mut Noise, folder: &Path) -> Outcome<u64> {
    let pictures = pictures(kind, noise);
    let file = folder.join(kind.name()).with_extension("h264");
    fs::write(&file, take(kind, &pictures)?)?;
    compare(kind, &pictures, &decoded(&file)?)
}

/// Whether ffmpeg can be started.
fn has_ffmpeg() -> bool {
    let mut probe = Command::new("ffmpeg");
    probe.arg("-version").stdout(Stdio::null()).stderr(Stdio::null());
    probe.status().is_ok_and(|status| status.success())
}

/// The folder for the takes, made if need be.
fn folder() -> io::Result<std::path::PathBuf> {
    let folder = common::root().join("target/host/players");
    fs::create_dir_all(&folder)?;
    Ok(folder)
}

fn main() -> ExitCode {
    if !has_ffmpeg() {
        println!("players: not run, ffmpeg is missing (Debian package ffmpeg)");
        return ExitCode::from(77);
    }
    let folder = match folder() {
        Ok(folder) => folder,
        Err(error) => {
            println!("FAILED: target/host/players: {error}");
            return ExitCode::FAILURE;
        }
    };
    let mut samples = 0;
    for (i, kind) in KINDS.iter().enumerate() {
        match round_trip(kind, &mut Noise::new(1, i as u64), &folder) {
            Ok(compared) => {
                println!("{}: {compared} samples alike", kind.name());
                samples += compared;
            }
            Err(what) => {
                println!("DIFFERENCE in {}: {what}", kind.name());
                return ExitCode::FAILURE;
            }
        }
    }
    println!("{} takes, {samples} samples", KINDS.len());
    println!("ok");
    ExitCode::SUCCESS
}
