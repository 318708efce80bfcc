//! What the command's tests share: runs of it, and Y4Ms of every kind with their takes.

#![allow(dead_code)]

use std::ffi::OsStr;
use std::fs;
use std::io::Write;
use std::path::{Path, PathBuf};
use std::process::{Child, ChildStdin, Command, Output, Stdio};
use std::thread::sleep;
use std::time::{Duration, Instant};

use common::Noise;

/// An empty folder of a test's own.
pub fn folder(name: &str) -> PathBuf {
    let folder = Path::new(env!("CARGO_TARGET_TMPDIR")).join("command").join(name);
    let _ = fs::remove_dir_all(&folder);
    fs::create_dir_all(&folder).unwrap();
    folder
}

pub fn command(folder: &Path, arguments: &[impl AsRef<OsStr>]) -> Command {
    let mut command = Command::new(env!("CARGO_BIN_EXE_reelpony"));
    command.args(arguments).current_dir(folder).stdin(Stdio::null());
    command
}

/// What a run left: its status, and what it wrote.
pub struct Ran {
    pub status: i32,
    pub out: Vec<u8>,
    pub said: String,
}

impl Ran {
    pub fn of(output: Output) -> Ran {
        let said = String::from_utf8(output.stderr).unwrap();
        assert!(!said.contains("panicked"), "{said}");
        Ran { status: output.status.code().expect("no signal"), out: output.stdout, said }
    }

    pub fn text(&self) -> &str {
        std::str::from_utf8(&self.out).unwrap()
    }
}

pub fn run(folder: &Path, arguments: &[impl AsRef<OsStr>]) -> Ran {
    Ran::of(command(folder, arguments).output().unwrap())
}

/// A run that reads bytes from its standard input.
pub fn run_with(folder: &Path, arguments: &[&str], input: &[u8]) -> Ran {
    let mut child = command(folder, arguments)
        .stdin(Stdio::piped())
        .stdout(Stdio::piped())
        .stderr(Stdio::piped())
        .spawn()
        .unwrap();
    let mut pipe = child.stdin.take().unwrap();
    std::thread::scope(|scope| {
        scope.spawn(move || {
            let _ = pipe.write_all(input);
        });
        Ran::of(child.wait_with_output().unwrap())
    })
}

/// Waits until something is so; it must be within some seconds.
pub fn until(what: &str, mut is_so: impl FnMut() -> bool) {
    let begun = Instant::now();
    while !is_so() {
        assert!(begun.elapsed() < Duration::from_secs(20), "{what}");
        sleep(Duration::from_millis(2));
    }
}

/// A run under way, whose standard input the test writes.
pub struct Running {
    pub child: Child,
    pub pipe: Option<ChildStdin>,
}

impl Running {
    pub fn begin(mut command: Command) -> Running {
        command.stdin(Stdio::piped()).stdout(Stdio::piped()).stderr(Stdio::piped());
        let mut child = command.spawn().unwrap();
        let pipe = child.stdin.take();
        Running { child, pipe }
    }

    pub fn feed(&mut self, bytes: &[u8]) {
        self.pipe.as_mut().unwrap().write_all(bytes).unwrap();
    }

    pub fn signal(&self, name: &str) {
        let id = self.child.id().to_string();
        assert!(Command::new("kill").args(["-s", name, &id]).status().unwrap().success());
    }

    /// Waits until the run catches a signal, by its number.
    pub fn until_it_catches(&self, signal: u32) {
        let status = format!("/proc/{}/status", self.child.id());
        until("no signal is caught", || {
            let status = fs::read_to_string(&status).unwrap();
            let caught = status.lines().find_map(|line| line.strip_prefix("SigCgt:\t")).unwrap();
            u64::from_str_radix(caught, 16).unwrap() >> (signal - 1) & 1 == 1
        });
    }

    /// Waits for the end. The pipe stays open up to there, unless the test closed it.
    pub fn output(self) -> Output {
        let Running { child, pipe } = self;
        let output = child.wait_with_output().unwrap();
        drop(pipe);
        output
    }

    pub fn end(self) -> Ran {
        Ran::of(self.output())
    }
}

/// A run that must fail with one sentence on standard error and nothing else.
pub fn fails(folder: &Path, arguments: &[&str], status: i32, part: &str) {
    let ran = run(folder, arguments);
    assert_eq!(ran.status, status, "{arguments:?}: {}", ran.said);
    assert!(ran.said.contains(part), "{arguments:?}: {}", ran.said);
    assert_eq!(ran.said.lines().count(), 1, "{arguments:?}: {}", ran.said);
    assert!(ran.out.is_empty(), "{arguments:?}");
}

/// The names of a folder's files, sorted.
pub fn names(folder: &Path) -> Vec<String> {
    let name = |entry: std::io::Result<fs::DirEntry>| entry.unwrap().file_name();
    let names = fs::read_dir(folder).unwrap().map(name);
    let mut names: Vec<String> = names.map(|name| name.into_string().unwrap()).collect();
    names.sort();
    names
}

pub struct Kind {
    pub y4m: &'static str,
    pub words: &'static str,
    pub width: usize,
    pub height: usize,
    pub samples: usize,
    pub twelve: bool,
}

pub const KINDS: [Kind; 4] = [
    Kind {
        y4m: "mono",
        words: "17x5, monochrome, 8 bits",
        width: 17,
        height: 5,
        samples: 85,
        twelve: false,
    },
    Kind {
        y4m: "mono12",
        words: "18x33, monochrome, 12 bits",
        width: 18,
        height: 33,
        samples: 594,
        twelve: true,
    },
    Kind {
        y4m: "420jpeg",
        words: "34x18, colour, 8 bits",
        width: 34,
        height: 18,
        samples: 918,
        twelve: false,
    },
    Kind {
        y4m: "420p12",
        words: "20x2, colour, 12 bits",
        width: 20,
        height: 2,
        samples: 60,
        twelve: true,
    },
];

impl Kind {
    /// A Y4M's pictures without its header, of noise and of many zeros.
    pub fn pictures(&self, count: u64) -> Vec<u8> {
        let mut bytes = Vec::new();
        for number in 0..count {
            let mut noise = Noise::new(3, number);
            let range = noise.pick(&[2, 256]);
            bytes.extend(b"FRAME\n");
            for _ in 0..self.samples {
                bytes.push(noise.below(range) as u8);
                if self.twelve {
                    bytes.push(noise.below(range.min(16)) as u8);
                }
            }
        }
        bytes
    }

    pub fn header(&self) -> String {
        let Kind { y4m, width, height, .. } = self;
        format!("YUV4MPEG2 W{width} H{height} F25:1 Ip A1:1 C{y4m}\n")
    }

    pub fn y4m(&self, count: u64) -> Vec<u8> {
        [self.header().into_bytes(), self.pictures(count)].concat()
    }

    /// The same as the command writes it.
    pub fn is_saved(&self, saved: &[u8], pictures: &[u8]) -> bool {
        let end = saved.iter().position(|byte| *byte == b'\n').unwrap() + 1;
        let header = String::from_utf8_lossy(&saved[..end]);
        header.starts_with(&format!("YUV4MPEG2 W{} H{} F25:1 ", self.width, self.height))
            && header.contains(&format!(" C{} ", self.y4m))
            && saved[end..] == *pictures
    }

    /// Bytes of a picture in a Y4M.
    pub fn each(&self) -> usize {
        6 + self.samples * if self.twelve { 2 } else { 1 }
    }
}

/// A folder with the take of a kind, `take.h264`, and each picture's place and length in it.
pub fn recorded(name: &str, kind: &Kind, count: u64) -> (PathBuf, Vec<u8>, Vec<(usize, usize)>) {
    let folder = folder(name);
    fs::write(folder.join("in.y4m"), kind.y4m(count)).unwrap();
    let ran = run(&folder, &["record", "in.y4m", "take.h264"]);
    assert_eq!(ran.status, 0, "{}", ran.said);
    let list = run(&folder, &["list", "take.h264"]);
    let places = list.text().lines().filter(|line| line.contains("  picture "));
    let places = places.filter(|line| !line.contains("parameter")).map(|line| {
        let numbers: Vec<usize> =
            line.split_whitespace().take(2).map(|word| word.parse().unwrap()).collect();
        (numbers[0], numbers[1])
    });
    let places: Vec<(usize, usize)> = places.collect();
    assert_eq!(places.len() as u64, count, "{}", list.text());
    let take = fs::read(folder.join("take.h264")).unwrap();
    (folder, take, places)
}

/// Whether ffmpeg can be started. host/run-tests says where it can't.
pub fn has_ffmpeg() -> bool {
    let mut probe = Command::new("ffmpeg");
    probe.arg("-version").stdout(Stdio::null()).stderr(Stdio::null());
    probe.status().is_ok_and(|status| status.success())
}

/// What ffmpeg writes to standard output. It must not complain.
pub fn ffmpeg(folder: &Path, arguments: &[&str]) -> Vec<u8> {
    let mut command = Command::new("ffmpeg");
    command.args(["-nostdin", "-v", "error"]).args(arguments).current_dir(folder);
    let ran = Ran::of(command.output().unwrap());
    assert_eq!((ran.status, &ran.said[..]), (0, ""), "{arguments:?}");
    ran.out
}
