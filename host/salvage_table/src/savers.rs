//! The two that save pictures: the command `reelpony extract`, and ffmpeg in several ways.

use std::fmt::Display;
use std::fs;
use std::path::{Path, PathBuf};
use std::process::{Command, Stdio};

use reelpony::reader::Sps;
use reelpony::BitDepth::{Depth12, Depth8};

use crate::md5::{md5, parse, Md5};
use crate::shoot::Written;
use crate::Outcome;

/// A picture that the command handed out.
pub struct Saved {
    pub picture: Written,
    /// Whether its frame line says that a second look won it.
    pub marked: bool,
}

/// Why there is nothing to count of a run of the command.
pub enum Unable {
    /// It doesn't have this option.
    NoOption(String),
    /// It did not do what it promises, in words.
    Wrong(String),
}

/// The word of a frame line that marks a picture.
const MARK: &str = "XREELPONY=SECOND-LOOK";

/// The command's program: it is built into the same folder as this one.
pub fn command() -> Outcome<PathBuf> {
    let here = std::env::current_exe().map_err(|error| error.to_string())?;
    let command = here.with_file_name("reelpony");
    match command.is_file() {
        true => Ok(command),
        false => Err(format!("{} is missing; build the workspace first", command.display())),
    }
}

/// What the command saves of a take, in a folder that is made for it.
pub fn ours(
    command: &Path,
    take: &Path,
    folder: &Path,
    options: &[String],
) -> Result<Vec<Saved>, Unable> {
    let wrong = |error: &dyn Display| Unable::Wrong(format!("extract: {error}"));
    fs::create_dir_all(folder).map_err(|error| wrong(&error))?;
    let output = Command::new(command)
        .arg("extract")
        .args(options)
        .args([take, &folder.join("out.y4m")])
        .stdin(Stdio::null())
        .output()
        .map_err(|error| wrong(&error))?;
    let mut saved = Vec::new();
    for number in 1.. {
        let name = if number == 1 { "out.y4m".into() } else { format!("out-{number}.y4m") };
        match fs::read(folder.join(name)) {
            Ok(file) => frames(&file, &mut saved).map_err(|what| wrong(&what))?,
            Err(_) => break,
        }
    }
    fs::remove_dir_all(folder).map_err(|error| wrong(&error))?;
    let said = String::from_utf8_lossy(&output.stderr);
    let option = said.split_once(" has no option ").and_then(|(_, rest)| rest.split(';').next());
    match (output.status.code(), option) {
        (Some(2), Some(option)) => Err(Unable::NoOption(option.into())),
        (Some(0 | 3), _) if !saved.is_empty() => Ok(saved),
        (Some(1), _) if saved.is_empty() => Ok(saved),
        _ => {
            let (status, pictures) = (output.status, saved.len());
            Err(wrong(&format!("{status} and {pictures} pictures: {}", said.trim())))
        }
    }
}

/// Adds the pictures of a Y4M.
fn frames(file: &[u8], saved: &mut Vec<Saved>) -> Outcome<()> {
    let (header, mut rest) = line(file).ok_or("a Y4M without a header")?;
    let field = |letter: char| header.split(' ').skip(1).find_map(|word| word.strip_prefix(letter));
    let number = |letter: char| field(letter).and_then(|value| value.parse().ok());
    let (colour, bit_depth) = match field('C') {
        Some("mono") => (false, Depth8),
        Some("mono12") => (false, Depth12),
        Some("420jpeg") => (true, Depth8),
        Some("420p12") => (true, Depth12),
        _ => return Err(format!("a Y4M with the header {header}")),
    };
    let (Some(width), Some(height)) = (number('W'), number('H')) else {
        return Err(format!("a Y4M with the header {header}"));
    };
    let shape = Sps { width, height, colour, bit_depth };
    let [width, height] = [width, height].map(|side| side as usize);
    let chroma = if colour { width.div_ceil(2) * height.div_ceil(2) * 2 } else { 0 };
    let length = (width * height + chroma) * usize::from(bit_depth.num_bits()).div_ceil(8);
    while let Some((words, behind)) = line(rest) {
        let mut words = words.split(' ');
        let (Some("FRAME"), Some(samples)) = (words.next(), behind.get(..length)) else {
            return Err("a Y4M with a frame that is none".into());
        };
        let picture = Written { shape, md5: md5(samples) };
        saved.push(Saved { picture, marked: words.any(|word| word == MARK) });
        rest = &behind[length..];
    }
    match rest.is_empty() {
        true => Ok(()),
        false => Err("bytes behind the last picture of a Y4M".into()),
    }
}

/// The first line as text, and what stands behind it.
fn line(bytes: &[u8]) -> Option<(&str, &[u8])> {
    let end = bytes.iter().position(|byte| *byte == b'\n')?;
    let text = std::str::from_utf8(&bytes[..end]).ok()?;
    Some((text, &bytes[end + 1..]))
}

/// The ways in which ffmpeg is run: what stands before the file's name. None of some ten others that
/// were tried saved a picture more.
pub const WAYS: [&[&str]; 2] = [&[], &["-flags", "+output_corrupt", "-err_detect", "ignore_err"]];

/// Whether ffmpeg can be started.
pub fn has_ffmpeg() -> bool {
    let mut probe = Command::new("ffmpeg");
    probe.arg("-version").stdout(Stdio::null()).stderr(Stdio::null());
    probe.status().is_ok_and(|status| status.success())
}

/// The pictures that ffmpeg makes of a file in one way, none dropped, doubled or scaled. Of
/// monochrome it makes colour, of which only Y is taken.
pub fn ffmpeg(way: &[&str], take: &Path, colour: bool) -> Outcome<Vec<Md5>> {
    let mut run = Command::new("ffmpeg");
    run.args(["-nostdin", "-v", "quiet", "-threads", "1"]).args(way);
    run.args(["-f", "h264", "-i"]).arg(take);
    run.args(["-fps_mode", "passthrough", "-autoscale", "0"]);
    if !colour {
        run.args(["-vf", "extractplanes=y"]);
    }
    run.args(["-f", "framemd5", "-"]);
    let output = run.stdin(Stdio::null()).output().map_err(|error| format!("ffmpeg: {error}"))?;
    let text = String::from_utf8_lossy(&output.stdout);
    let digest = |line: &str| line.rsplit(' ').next().and_then(parse);
    Ok(text.lines().filter(|line| !line.starts_with('#')).filter_map(digest).collect())
}

#[cfg(test)]
mod tests {
    use super::*;

    /// Frames are read with their marks; anything else than a Y4M's frames is an error.
    #[test]
    fn marks() {
        let file = b"YUV4MPEG2 W2 H1 F25:1 Ip Cmono12\nFRAME\n\x01\x02\x03\x04FRAME \
            XREELPONY=SECOND-LOOK\n\x01\x02\x03\x05";
        let mut saved = Vec::new();
        assert_eq!(frames(file, &mut saved), Ok(()));
        let marked: Vec<bool> = saved.iter().map(|saved| saved.marked).collect();
        assert_eq!(marked, [false, true]);
        let shape = Sps { width: 2, height: 1, colour: false, bit_depth: Depth12 };
        assert!(saved[0].picture == Written { shape, md5: md5(&[1, 2, 3, 4]) });
        assert!(saved[1].picture == Written { shape, md5: md5(&[1, 2, 3, 5]) });
        for wrong in [&file[..file.len() - 1], &file[1..10], b"", &[&file[..], b"x"].concat()] {
            assert!(frames(wrong, &mut Vec::new()).is_err());
        }
    }
}
