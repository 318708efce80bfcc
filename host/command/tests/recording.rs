//! Recordings that break off, end by a signal or die; files that must not be written over; and the
//! command line. Real files, real signals, a disk that is really full.

mod helpers;

use std::ffi::{OsStr, OsString};
use std::fs::{self, File, Permissions};
use std::io::{Read, Write};
use std::os::unix::ffi::OsStrExt;
use std::os::unix::fs::{chown, symlink, MetadataExt, PermissionsExt};
use std::os::unix::process::{CommandExt, ExitStatusExt};
use std::path::{Path, PathBuf};
use std::process::{Command, Stdio};
use std::thread::{self, sleep};
use std::time::{Duration, Instant};

use helpers::{
    command, fails, ffmpeg, folder, has_ffmpeg, names, recorded, run, run_with, until, Kind, Ran,
    Running, KINDS,
};

/// A take of a kind, and where each of its pictures ends.
fn whole(name: &str, kind: &Kind, count: u64) -> (PathBuf, Vec<u8>, Vec<usize>) {
    let (folder, take, places) = recorded(name, kind, count);
    (folder, take, places.iter().map(|(place, length)| place + length).collect())
}

/// The bytes of a file.
fn bytes(folder: &Path, name: &str) -> Vec<u8> {
    fs::read(folder.join(name)).unwrap_or_else(|error| panic!("{name}: {error}"))
}

fn length(path: &Path) -> usize {
    fs::metadata(path).map_or(0, |about| about.len() as usize)
}

/// Extracts a file and compares its pictures with the first so many of a kind.
fn holds(folder: &Path, take: &str, kind: &Kind, count: u64) {
    let saved = run(folder, &["extract", take, "-"]);
    assert_eq!(saved.status, 0, "{}", saved.said);
    assert!(kind.is_saved(&saved.out, &kind.pictures(count)), "{take}");
}

fn is_root() -> bool {
    fs::metadata("/proc/self").unwrap().uid() == 0
}

// ---- A source that breaks off.

#[test]
fn broken_sources() {
    for kind in &KINDS {
        let (folder, take, ends) = whole(&format!("broken-{}", kind.y4m), kind, 9);
        let y4m = kind.y4m(9);
        let begin = |number: usize| kind.header().len() + (number - 1) * kind.each();
        let short = |number: usize| format!("is cut short: picture {number} is not whole");
        let mut cases = Vec::new();
        for number in [1, 2, 9] {
            let at = begin(number);
            for cut in [at + 1, at + 5, at + 6, at + kind.each() / 2, at + kind.each() - 1] {
                cases.push((number, y4m[..cut].to_vec(), short(number)));
            }
            let frame = format!("no FRAME stands before picture {number}");
            cases.push((number, [&y4m[..at], b"frame\n", &y4m[at + 6..]].concat(), frame.clone()));
            cases.push((number, [&y4m[..at], b"\n", &y4m[at..]].concat(), frame));
            let long = [&y4m[..at], b"FRAME ", &[b'x'; 4096], &y4m[at + 5..]].concat();
            let words = format!("the line before picture {number} is longer than the 4,096 bytes");
            cases.push((number, long, words));
            if kind.twelve {
                let mut bad = y4m.clone();
                (bad[at + 6 + 8], bad[at + 6 + 9]) = (0, 16);
                cases.push((number, bad, format!("picture {number} has 4096 in Y at column 4")));
            }
        }
        for (number, source, why) in cases {
            let out = folder.join("out.h264");
            fs::write(folder.join("bad.y4m"), &source).unwrap();
            let ran = run_with(&folder, &["record", "-", "out.h264", "--quiet"], &source);
            assert!(ran.said.contains(&why), "{why}: {}", ran.said);
            assert_eq!(ran.said.lines().count(), 1, "{}", ran.said);
            if number == 1 {
                assert_eq!(ran.status, 1, "{why}: {}", ran.said);
                assert!(!out.exists(), "{why}");
                continue;
            }
            assert_eq!(ran.status, 3, "{why}: {}", ran.said);
            let pictures = match number {
                2 => "1 picture of ".into(),
                _ => format!("{} pictures of ", number - 1),
            };
            assert!(ran.said.starts_with(&format!("reelpony: partial: out.h264: {pictures}")));
            assert!(bytes(&folder, "out.h264") == take[..ends[number - 2]], "{why}");
            holds(&folder, "out.h264", kind, number as u64 - 1);
            fs::remove_file(&out).unwrap();
            // A file does as a pipe does.
            let ran = run(&folder, &["record", "bad.y4m", "out.h264"]);
            assert_eq!(ran.status, 3, "{why}: {}", ran.said);
            assert!(bytes(&folder, "out.h264") == take[..ends[number - 2]], "{why}");
            fs::remove_file(&out).unwrap();
        }
        // Between two pictures nothing is missing.
        let ran = run_with(&folder, &["record", "-", "out.h264"], &y4m[..begin(9)]);
        assert_eq!(ran.status, 0, "{}", ran.said);
        assert!(bytes(&folder, "out.h264") == take[..ends[7]]);
        assert_eq!(names(&folder), ["bad.y4m", "in.y4m", "out.h264", "take.h264"]);
    }
}

/// What there is to keep is on standard output, too.
#[test]
fn broken_sources_to_a_pipe() {
    let (folder, take, ends) = whole("broken-pipe", &KINDS[2], 3);
    let y4m = KINDS[2].y4m(3);
    let ran = run_with(&folder, &["record", "-", "-"], &y4m[..y4m.len() - 1]);
    assert_eq!(ran.status, 3, "{}", ran.said);
    assert!(ran.out == take[..ends[1]]);
}

// ---- A disk that is full.

/// A file system of so many bytes, gone with the value.
struct Disk(PathBuf);

impl Disk {
    fn of(folder: &Path, size: &str) -> Option<Disk> {
        let path = folder.join("disk");
        fs::create_dir(&path).unwrap();
        let size = format!("size={size}");
        let mut mount = Command::new("mount");
        mount.args(["-t", "tmpfs", "-o", &size, "tmpfs"]).arg(&path);
        let mounted = mount.stderr(Stdio::null()).status().is_ok_and(|status| status.success());
        mounted.then_some(Disk(path))
    }
}

impl Drop for Disk {
    fn drop(&mut self) {
        let _ = Command::new("umount").arg(&self.0).status();
    }
}

#[test]
fn full_disks() {
    let kind = &KINDS[2];
    let (folder, take, ends) = whole("full", kind, 100);
    let Some(disk) = Disk::of(&folder, "40k") else {
        println!("full_disks: no file system can be mounted here; see file_size_limits");
        return;
    };
    println!("full_disks: a tmpfs of 40 kB is used");
    // More than is free for old and new at once, but not more than all.
    let old = vec![7; 16 << 10];
    for options in [&[][..], &["--force"], &["--in-place"]] {
        let _ = fs::remove_file(disk.0.join("out.h264"));
        if !options.is_empty() {
            fs::write(disk.0.join("out.h264"), &old).unwrap();
        }
        let ran = run(&folder, &[&["record", "in.y4m", "disk/out.h264"], options].concat());
        assert_eq!(ran.status, 3, "{options:?}: {}", ran.said);
        assert!(ran.said.contains("the disk is full"), "{}", ran.said);
        let kept = bytes(&disk.0, "out.h264");
        let count = ends.iter().position(|end| *end == kept.len());
        let count = count.unwrap_or_else(|| panic!("{} bytes are no whole pictures", kept.len()));
        assert!(kept == take[..kept.len()]);
        assert!(ran.said.contains(&format!("{} pictures of", count + 1)), "{}", ran.said);
        holds(&disk.0, "out.h264", kind, count as u64 + 1);
        let room = if options == ["--force"] { 24 << 10 } else { 40 << 10 };
        assert!(kept.len() <= room && kept.len() + 2000 > room, "{options:?}: {}", kept.len());
        assert_eq!(names(&disk.0), ["out.h264"]);
    }

    // Standard output can't be cut back, and reads up to its last whole picture.
    fs::remove_file(disk.0.join("out.h264")).unwrap();
    let out = File::create(disk.0.join("out.h264")).unwrap();
    let ran = Ran::of(command(&folder, &["record", "in.y4m", "-"]).stdout(out).output().unwrap());
    assert_eq!(ran.status, 3, "{}", ran.said);
    let kept = bytes(&disk.0, "out.h264");
    let count = ends.iter().take_while(|end| **end <= kept.len()).count();
    assert!(ran.said.contains(&format!("standard output: {count} pictures of")), "{}", ran.said);
    assert!(kept == take[..kept.len()]);

    // Not one picture: nothing is left, and a file that was there is as it was.
    fs::write(disk.0.join("out.h264"), &old).unwrap();
    fs::write(disk.0.join("rest"), vec![0; 24 << 10]).unwrap();
    fails(&folder, &["record", "in.y4m", "disk/new", "--quiet"], 1, "the disk is full");
    let ran = run(&folder, &["record", "in.y4m", "disk/out.h264", "--quiet", "--force"]);
    assert_eq!(ran.status, 1, "{}", ran.said);
    assert!(bytes(&disk.0, "out.h264") == old);
    // extract leaves nothing.
    let ran = run(&folder, &["extract", "take.h264", "disk/new"]);
    assert!(ran.status == 1 && ran.said.contains("the disk is full"), "{}", ran.said);
    assert_eq!(names(&disk.0), ["out.h264", "rest"]);
    // In place the old bytes are gone, as was said, and no half of a result is left.
    let ran = run(&folder, &["extract", "take.h264", "disk/out.h264", "--in-place"]);
    assert!(ran.status == 1 && ran.said.contains("the disk is full"), "{}", ran.said);
    assert!(ran.said.contains("if the work fails, the old one is gone"), "{}", ran.said);
    assert_eq!(names(&disk.0), ["rest"]);
}

/// A limit of the file's length is an error of the write, and the signal for it is no death.
#[test]
fn file_size_limits() {
    let kind = &KINDS[2];
    let (folder, take, ends) = whole("limit", kind, 100);
    let limited = |arguments: &str| {
        let program = env!("CARGO_BIN_EXE_reelpony");
        let script = format!("ulimit -f 16; exec {program} {arguments}");
        let mut shell = Command::new("sh");
        Ran::of(shell.args(["-c", &script]).current_dir(&folder).output().unwrap())
    };
    let ran = limited("record in.y4m out.h264");
    assert_eq!(ran.status, 3, "{}", ran.said);
    assert!(ran.said.contains("it may not get any longer"), "{}", ran.said);
    let kept = bytes(&folder, "out.h264");
    assert!(ends.contains(&kept.len()) && kept == take[..kept.len()] && kept.len() <= 16 << 10);
    let ran = limited("extract take.h264 out.y4m");
    assert!(ran.status == 1 && ran.said.contains("it may not get any longer"), "{}", ran.said);
    assert_eq!(names(&folder), ["in.y4m", "out.h264", "take.h264"]);
}

// ---- Signals.

/// A recording from a pipe under way, that has written so many pictures and read some bytes more.
fn under_way(
    folder: &Path,
    kind: &Kind,
    ends: &[usize],
    count: usize,
    more: usize,
    options: &[&str],
) -> Running {
    let arguments = [&["record", "-", "out.h264"], options].concat();
    let mut running = Running::begin(command(folder, &arguments));
    let begin = kind.header().len() + count * kind.each();
    running.feed(&kind.y4m(count as u64 + 5)[..begin + more]);
    if count > 0 {
        let out = folder.join("out.h264");
        until("the pictures are not written", || length(&out) == ends[count - 1]);
    }
    running
}

#[test]
fn signals_between_pictures() {
    let kind = &KINDS[1];
    let (folder, take, ends) = whole("between", kind, 9);
    for signal in ["INT", "TERM", "HUP"] {
        let running = under_way(&folder, kind, &ends, 3, 0, &[]);
        running.signal(signal);
        let ran = running.end();
        assert_eq!(ran.status, 0, "{signal}: {}", ran.said);
        assert!(ran.said.contains("out.h264: 3 pictures of "), "{}", ran.said);
        assert!(ran.said.ends_with(&format!("; SIG{signal} ended it\n")), "{}", ran.said);
        assert!(bytes(&folder, "out.h264") == take[..ends[2]]);
        fs::remove_file(folder.join("out.h264")).unwrap();
    }
}

/// The picture under way is read to its end, where that comes, and none is begun behind it. Two
/// signals at once, as `timeout` sends them, are one.
#[test]
fn signals_in_a_picture_that_is_finished() {
    for kind in &KINDS {
        let (folder, take, ends) = whole(&format!("finished-{}", kind.y4m), kind, 9);
        let y4m = kind.y4m(9);
        // In the samples, in the line before them, and right behind that.
        for more in [kind.each() / 2, 3, 6] {
            for times in 1..=2 {
                let mut running = under_way(&folder, kind, &ends, 3, more, &[]);
                let id = running.child.id();
                let script = format!("kill -TERM {id}; ").repeat(times);
                assert!(Command::new("sh").args(["-c", &script]).status().unwrap().success());
                sleep(Duration::from_millis(60));
                // The rest, and what a source has sent meanwhile.
                running.feed(&y4m[kind.header().len() + 3 * kind.each() + more..]);
                let ran = running.end();
                assert_eq!(ran.status, 0, "{more}: {}", ran.said);
                assert!(ran.said.ends_with("; SIGTERM ended it\n"), "{}", ran.said);
                let kept = bytes(&folder, "out.h264");
                assert!(kept == take[..ends[3]], "{more}: {} bytes", kept.len());
                fs::remove_file(folder.join("out.h264")).unwrap();
            }
        }
    }
}

/// Its rest doesn't come: after some seconds the pictures before it are kept.
#[test]
fn signals_in_a_picture_that_is_not_finished() {
    let kind = &KINDS[3];
    let (folder, take, ends) = whole("unfinished", kind, 9);
    let running = under_way(&folder, kind, &ends, 3, 20, &[]);
    let begun = Instant::now();
    running.signal("INT");
    let ran = running.end();
    assert_eq!(ran.status, 3, "{}", ran.said);
    assert!(ran.said.contains("SIGINT ended it in picture 4"), "{}", ran.said);
    assert!(bytes(&folder, "out.h264") == take[..ends[2]]);
    assert!(begun.elapsed() > Duration::from_millis(1900));

    // The source ends in it.
    fs::remove_file(folder.join("out.h264")).unwrap();
    let mut running = under_way(&folder, kind, &ends, 3, 20, &[]);
    running.signal("INT");
    sleep(Duration::from_millis(60));
    running.pipe = None;
    let ran = running.end();
    assert_eq!(ran.status, 3, "{}", ran.said);
    assert!(ran.said.contains("SIGINT ended it in picture 4"), "{}", ran.said);
    assert!(bytes(&folder, "out.h264") == take[..ends[2]]);
}

/// Bytes go on coming, but slowly: a second signal ends it at once, the third one whatever it does.
#[test]
fn second_signals() {
    let kind = &KINDS[1];
    let (folder, take, ends) = whole("second", kind, 9);
    let mut running = under_way(&folder, kind, &ends, 3, 20, &[]);
    let mut pipe = running.pipe.take().unwrap();
    let dripping = thread::spawn(move || {
        (0..100).all(|_| {
            sleep(Duration::from_millis(100));
            pipe.write_all(&[1]).is_ok()
        })
    });
    running.signal("HUP");
    sleep(Duration::from_millis(2500));
    assert!(running.child.try_wait().unwrap().is_none(), "it waits as long as bytes come");
    running.signal("INT");
    let ran = running.end();
    assert_eq!(ran.status, 3, "{}", ran.said);
    assert!(ran.said.contains("SIGHUP ended it in picture 4"), "{}", ran.said);
    assert!(bytes(&folder, "out.h264") == take[..ends[2]]);
    assert!(!dripping.join().unwrap(), "all bytes were waited for");

    // Blocked where nobody reads.
    let large = Kind { width: 640, height: 480, samples: 640 * 480, ..KINDS[0] };
    let mut running = Running::begin(command(&folder, &["record", "-", "-"]));
    running.until_it_catches(2);
    let mut pipe = running.pipe.take().unwrap();
    let feeding = thread::spawn(move || drop(pipe.write_all(&large.y4m(5))));
    let mut some = [0];
    running.child.stdout.as_mut().unwrap().read_exact(&mut some).unwrap();
    for _ in 0..3 {
        assert!(running.child.try_wait().unwrap().is_none());
        running.signal("INT");
        sleep(Duration::from_millis(30));
    }
    until("the third signal doesn't end it", || running.child.try_wait().unwrap().is_some());
    assert_eq!(running.child.wait().unwrap().signal(), Some(2));
    feeding.join().unwrap();
}

#[test]
fn signals_before_the_first_picture() {
    let kind = &KINDS[0];
    let folder = folder("before-the-first");
    let header = kind.header();
    for begin in ["", "YUV4MPEG2 W17", &header, &format!("{header}FRAME\nabc")] {
        let mut running = Running::begin(command(&folder, &["record", "-", "out.h264", "--quiet"]));
        running.feed(begin.as_bytes());
        running.until_it_catches(15);
        if begin.len() >= header.len() {
            until("OUT is not begun", || folder.join("out.h264").exists());
        }
        running.signal("TERM");
        sleep(Duration::from_millis(60));
        running.pipe = None;
        let ran = running.end();
        assert_eq!(ran.status, 1, "{begin:?}: {}", ran.said);
        let wanted = "reelpony: SIGTERM ended it before a picture was whole; nothing is recorded\n";
        assert_eq!(ran.said, wanted, "{begin:?}");
        assert!(names(&folder).is_empty(), "{begin:?}");
    }
}

/// A file that is converted is not at its end where a signal stops it: that is a part.
#[test]
fn signals_while_a_file_is_converted() {
    let folder = folder("converted");
    let large = Kind { width: 640, height: 480, samples: 640 * 480, ..KINDS[0] };
    fs::write(folder.join("in.y4m"), large.y4m(12)).unwrap();
    let mut running = Running::begin(command(&folder, &["record", "in.y4m", "-"]));
    let mut out = vec![0; 1];
    let mut stdout = running.child.stdout.take().unwrap();
    stdout.read_exact(&mut out).unwrap();
    running.signal("INT");
    sleep(Duration::from_millis(60));
    stdout.read_to_end(&mut out).unwrap();
    let ran = running.end();
    assert_eq!(ran.status, 3, "{}", ran.said);
    assert!(ran.said.contains("SIGINT ended it before the end of in.y4m"), "{}", ran.said);
    fs::write(folder.join("out.h264"), &out).unwrap();
    let check = run(&folder, &["check", "out.h264"]);
    assert_eq!(check.status, 0, "{}", check.text());
    // Status 3 is only for what is left over: at the file's end it is as without a signal.
    let count: u64 = check.text().split(' ').nth(3).unwrap().parse().unwrap();
    assert!((1..12).contains(&count), "{}", check.text());
    holds(&folder, "out.h264", &large, count);
}

/// What was ignored when the program was started stays so, as nohup wants it.
#[test]
fn ignored_signals() {
    let kind = &KINDS[0];
    let (folder, take, ends) = whole("ignored", kind, 6);
    let mut shell = Command::new("sh");
    let script = format!("trap '' HUP; exec {} record - out.h264", env!("CARGO_BIN_EXE_reelpony"));
    shell.args(["-c", &script]).current_dir(&folder);
    let mut running = Running::begin(shell);
    let y4m = kind.y4m(6);
    let (first, second) = y4m.split_at(kind.header().len() + 3 * kind.each());
    running.feed(first);
    until("the pictures are not written", || length(&folder.join("out.h264")) == ends[2]);
    running.signal("HUP");
    sleep(Duration::from_millis(60));
    running.feed(second);
    running.pipe = None;
    let ran = running.end();
    assert_eq!(ran.status, 0, "{}", ran.said);
    assert!(!ran.said.contains("SIGHUP"), "{}", ran.said);
    assert!(bytes(&folder, "out.h264") == take);
}

/// extract dies by the signal, and takes its unfinished file with it.
#[test]
fn signals_while_extracting() {
    let (folder, take, _) = whole("extracting", &KINDS[2], 20);
    for signal in ["INT", "TERM", "HUP"] {
        let mut running = Running::begin(command(&folder, &["extract", "-", "out.y4m"]));
        running.feed(&take[..take.len() / 2]);
        until("no part is begun", || names(&folder).iter().any(|name| name.ends_with(".part")));
        running.signal(signal);
        let output = running.output();
        let number = match signal {
            "HUP" => 1,
            "INT" => 2,
            _ => 15,
        };
        assert_eq!(output.status.signal(), Some(number), "{signal}");
        assert_eq!(names(&folder), ["in.y4m", "take.h264"], "{signal}");
    }
}

// ---- A recording that dies.

#[test]
fn killed() {
    let kind = &KINDS[2];
    let (folder, take, ends) = whole("killed", kind, 9);
    let mut running = under_way(&folder, kind, &ends, 5, 100, &[]);
    // It can be read while it grows.
    holds(&folder, "out.h264", kind, 5);
    running.signal("KILL");
    assert_eq!(running.child.wait().unwrap().signal(), Some(9));
    assert!(bytes(&folder, "out.h264") == take[..ends[4]]);
    holds(&folder, "out.h264", kind, 5);

    // With --force, under the name that was told; the old file is as it was.
    let arguments = ["record", "-", "out.h264", "--force", "--quiet"];
    let mut running = Running::begin(command(&folder, &arguments));
    running.feed(&kind.y4m(3));
    let part = || names(&folder).into_iter().find(|name| name.ends_with(".part"));
    until("no part is begun", || part().is_some_and(|part| length(&folder.join(part)) == ends[2]));
    running.signal("KILL");
    let output = running.output();
    let said = String::from_utf8(output.stderr).unwrap();
    let part = part().unwrap();
    assert!(said.ends_with(&format!("until then the take is {part}\n")), "{said}");
    holds(&folder, &part, kind, 3);
    assert!(bytes(&folder, "out.h264") == take[..ends[4]]);
}

/// Killed at any moment, in the middle of a write too: a take up to the last whole picture.
#[test]
fn killed_at_any_moment() {
    let large = Kind { width: 320, height: 200, samples: 64_000, ..KINDS[0] };
    let (folder, take, ends) = whole("any-moment", &large, 100);
    let y4m = large.y4m(100);
    for wait in 0..12 {
        let out = folder.join("out.h264");
        let mut running = Running::begin(command(&folder, &["record", "-", "out.h264"]));
        let mut pipe = running.pipe.take().unwrap();
        thread::scope(|scope| {
            scope.spawn(|| {
                let _ = pipe.write_all(&y4m);
                drop(pipe);
            });
            until("too little is written", || length(&out) > 64_000 * (1 + 3 * wait));
            running.signal("KILL");
            running.child.wait().unwrap();
        });
        let left = bytes(&folder, "out.h264");
        assert!(left == take[..left.len()]);
        let count = ends.iter().take_while(|end| **end <= left.len()).count();
        let saved = run(&folder, &["extract", "out.h264", "-"]);
        let status = if ends.contains(&left.len()) { 0 } else { 3 };
        assert_eq!(saved.status, status, "{}", saved.said);
        assert!(large.is_saved(&saved.out, &large.pictures(count as u64)), "{count}");
        fs::remove_file(&out).unwrap();
    }
}

// ---- Files that must not be written over.

#[test]
fn existing_files() {
    let (folder, take, _) = whole("existing", &KINDS[0], 2);
    let there = |name: &str, bytes: &[u8], mode: u32| {
        let path = folder.join(name);
        let _ = fs::remove_file(&path);
        fs::write(&path, bytes).unwrap();
        fs::set_permissions(&path, Permissions::from_mode(mode)).unwrap();
    };
    let commands = [["record", "in.y4m", "out"], ["extract", "take.h264", "out"]];
    for command in commands {
        for (old, mode) in [(&b""[..], 0o644), (b"old", 0o644), (b"old", 0o444), (&take, 0o600)] {
            there("out", old, mode);
            fails(&folder, &command, 1, "out exists; --force replaces it");
            assert!(bytes(&folder, "out") == old);
            let ran = run(&folder, &[&command[..], &["--force"]].concat());
            assert_eq!(ran.status, 0, "{}", ran.said);
            let first = if command[0] == "record" { &take[..] } else { b"YUV4MPEG2 " };
            assert!(bytes(&folder, "out").starts_with(first));
            let about = fs::metadata(folder.join("out")).unwrap();
            assert_eq!(about.mode() & 0o7777, mode, "{command:?}");
        }
        // In place it stays the same file, and a read-only one stays as it is.
        there("out", &[7; 90_000], 0o640);
        let inode = fs::metadata(folder.join("out")).unwrap().ino();
        let ran = run(&folder, &[&command[..], &["--in-place"]].concat());
        assert_eq!(ran.status, 0, "{}", ran.said);
        assert!(ran
            .said
            .contains("note: out is replaced in place: if the work fails, the old one"));
        assert!(bytes(&folder, "out").len() < 90_000);
        let about = fs::metadata(folder.join("out")).unwrap();
        assert_eq!((about.ino(), about.mode() & 0o7777), (inode, 0o640));
        there("out", b"old", 0o444);
        fails(&folder, &[&command[..], &["--in-place"]].concat(), 1, "out is read-only; --force");
        assert_eq!(bytes(&folder, "out"), b"old");
    }
    assert_eq!(names(&folder), ["in.y4m", "out", "take.h264"]);

    // No picture comes: an old file is as it was, whatever the option.
    fs::write(folder.join("none.y4m"), "YUV4MPEG2 W2 H2\nFRAME\n12345").unwrap();
    fs::write(folder.join("none.h264"), "nothing").unwrap();
    for option in ["--force", "--in-place"] {
        there("out", b"old", 0o644);
        for command in [["record", "none.y4m", "out"], ["extract", "none.h264", "out"]] {
            let ran = run(&folder, &[&command[..], &[option]].concat());
            assert_eq!(ran.status, 1, "{option}: {}", ran.said);
            assert_eq!(bytes(&folder, "out"), b"old", "{command:?} {option}");
        }
    }
    assert_eq!(names(&folder), ["in.y4m", "none.h264", "none.y4m", "out", "take.h264"]);
}

/// A part of a recording replaces what was to be replaced.
#[test]
fn broken_sources_and_old_files() {
    let (folder, take, ends) = whole("broken-old", &KINDS[0], 4);
    let y4m = KINDS[0].y4m(4);
    for option in ["--force", "--in-place"] {
        fs::write(folder.join("out"), vec![7; 90_000]).unwrap();
        let arguments = ["record", "-", "out", option];
        let ran = run_with(&folder, &arguments, &y4m[..y4m.len() - 1]);
        assert_eq!(ran.status, 3, "{}", ran.said);
        assert!(bytes(&folder, "out") == take[..ends[2]], "{option}");
        assert_eq!(names(&folder), ["in.y4m", "out", "take.h264"]);
    }
}

/// Mode and group are the old file's before there is any content, and stay so.
#[test]
fn modes_and_groups() {
    let kind = &KINDS[0];
    let (folder, _, ends) = whole("modes", kind, 9);
    let out = folder.join("out.h264");
    let group = if is_root() { 54_321 } else { fs::metadata("/proc/self").unwrap().gid() };
    let owner = if is_root() { Some(54_322) } else { None };
    for mode in [0o640, 0o604, 0o2750, 0o400] {
        let _ = fs::remove_file(&out);
        fs::write(&out, "old").unwrap();
        chown(&out, owner, Some(group)).unwrap();
        fs::set_permissions(&out, Permissions::from_mode(mode)).unwrap();
        let old = fs::metadata(&out).unwrap();
        let same = |path: &Path| {
            let about = fs::metadata(path).unwrap();
            assert_eq!(about.mode() & 0o7777, mode);
            assert_eq!((about.uid(), about.gid()), (old.uid(), old.gid()));
        };
        let arguments = ["record", "-", "out.h264", "--force"];
        let mut running = Running::begin(command(&folder, &arguments));
        running.feed(&kind.y4m(1));
        let part = || names(&folder).into_iter().find(|name| name.ends_with(".part"));
        until("no part is begun", || part().is_some_and(|part| length(&folder.join(part)) > 0));
        same(&folder.join(part().unwrap()));
        running.pipe = None;
        assert_eq!(running.end().status, 0);
        same(&out);
        assert_eq!(length(&out), ends[0]);
    }
}

/// A group that can't be kept is said, and the new one gets no more than anybody.
#[test]
fn groups_that_cannot_be_kept() {
    if !is_root() {
        println!("groups_that_cannot_be_kept: not run, since it needs root to give files away");
        return;
    }
    let kind = &KINDS[0];
    let (folder, ..) = whole("groups", kind, 2);
    fs::set_permissions(&folder, Permissions::from_mode(0o777)).unwrap();
    let out = folder.join("out.h264");
    fs::write(&out, "old").unwrap();
    chown(&out, Some(54_322), Some(54_321)).unwrap();
    fs::set_permissions(&out, Permissions::from_mode(0o664)).unwrap();
    let mut force = command(&folder, &["record", "in.y4m", "out.h264", "--force"]);
    let output = match force.uid(54_322).gid(54_322).output() {
        Ok(output) => output,
        Err(error) => {
            println!("groups_that_cannot_be_kept: not run: {error}");
            return;
        }
    };
    let ran = Ran::of(output);
    assert_eq!(ran.status, 0, "{}", ran.said);
    assert!(ran.said.contains("note: out.h264 can't keep its group, 54321"), "{}", ran.said);
    let about = fs::metadata(&out).unwrap();
    assert_eq!((about.mode() & 0o7777, about.uid(), about.gid()), (0o644, 54_322, 54_322));
}

#[test]
fn links() {
    let (folder, take, _) = whole("links", &KINDS[0], 2);
    fs::create_dir(folder.join("far")).unwrap();
    fs::write(folder.join("far/old"), "old").unwrap();
    for (link, to) in [("link", "far/old"), ("first", "second"), ("second", "far/new")] {
        symlink(to, folder.join(link)).unwrap();
    }
    let is_link = |name: &str| fs::symlink_metadata(folder.join(name)).unwrap().is_symlink();
    fails(&folder, &["record", "in.y4m", "link"], 1, "link exists; --force replaces it");
    assert_eq!(bytes(&folder, "far/old"), b"old");
    assert_eq!(run(&folder, &["record", "in.y4m", "link", "--force"]).status, 0);
    assert!(is_link("link") && bytes(&folder, "far/old") == take);
    // A link to nothing, through another one: the file is made where it points.
    for command in [["record", "in.y4m", "first"], ["extract", "take.h264", "first"]] {
        let ran = run(&folder, &command);
        assert_eq!(ran.status, 0, "{}", ran.said);
        assert!(is_link("first") && is_link("second"));
        assert_eq!(names(&folder.join("far")), ["new", "old"]);
        fs::remove_file(folder.join("far/new")).unwrap();
    }
    symlink("none/new", folder.join("lost")).unwrap();
    fails(&folder, &["record", "in.y4m", "lost"], 1, "its folder isn't there");
    symlink("ring", folder.join("ring")).unwrap();
    fails(&folder, &["record", "in.y4m", "ring"], 1, "ring can't be written: ");
}

/// Neither the input nor the take of --like is written over, by whatever name and option.
#[test]
fn inputs() {
    let (folder, take, _) = whole("inputs", &KINDS[0], 2);
    let y4m = bytes(&folder, "in.y4m");
    fs::write(folder.join("good.h264"), &take).unwrap();
    for name in ["in.y4m", "take.h264", "good.h264"] {
        fs::hard_link(folder.join(name), folder.join(format!("hard-{name}"))).unwrap();
        symlink(name, folder.join(format!("soft-{name}"))).unwrap();
    }
    let refused = "an input and the output at once";
    for option in [None, Some("--force"), Some("--in-place")] {
        let with = |arguments: &[&str]| {
            let arguments: Vec<&str> = arguments.iter().copied().chain(option).collect();
            fails(&folder, &arguments, 1, refused);
        };
        for front in ["", "./", "hard-", "soft-"] {
            with(&["record", "in.y4m", &format!("{front}in.y4m")]);
            with(&["record", "soft-in.y4m", &format!("{front}in.y4m")]);
            with(&["extract", "take.h264", &format!("{front}take.h264")]);
            let like = ["extract", "take.h264", "--like", "good.h264"];
            with(&[&like[..], &[&format!("{front}good.h264")]].concat());
            let file = || File::open(folder.join("in.y4m")).unwrap();
            let to = format!("{front}in.y4m");
            let mut arguments = vec!["record", "-", &to];
            arguments.extend(option);
            for input in ["-", "/dev/stdin", "/dev/fd/0"] {
                arguments[1] = input;
                let mut command = command(&folder, &arguments);
                let ran = Ran::of(command.stdin(file()).output().unwrap());
                assert!(ran.status == 1 && ran.said.contains(refused), "{}", ran.said);
            }
        }
    }
    // Standard output is one of them.
    for (name, arguments) in [
        ("in.y4m", &["record", "in.y4m", "-"][..]),
        ("in.y4m", &["record", "hard-in.y4m", "/dev/stdout"]),
        ("take.h264", &["extract", "take.h264", "-", "--force"]),
        ("good.h264", &["extract", "take.h264", "/dev/fd/1", "--like", "soft-good.h264"]),
        ("take.h264", &["list", "take.h264"]),
        ("take.h264", &["check", "hard-take.h264"]),
        ("good.h264", &["check", "take.h264", "--like=good.h264"]),
    ] {
        let out = File::options().append(true).open(folder.join(name)).unwrap();
        let ran = Ran::of(command(&folder, arguments).stdout(out).output().unwrap());
        assert!(ran.status == 1 && ran.said.contains(refused), "{arguments:?}: {}", ran.said);
    }
    assert!(bytes(&folder, "in.y4m") == y4m);
    assert!(bytes(&folder, "take.h264") == take && bytes(&folder, "good.h264") == take);
    assert_eq!(names(&folder).len(), 9);
}

/// Standard output by each of its names is what was inherited: `>>` appends.
#[test]
fn standard_output() {
    let (folder, take, _) = whole("stdout", &KINDS[0], 2);
    for name in ["-", "/dev/stdout", "/dev/fd/1", "/proc/self/fd/1"] {
        let reelpony = env!("CARGO_BIN_EXE_reelpony");
        let script = format!(
            "echo old >appended; {reelpony} record in.y4m {name} >>appended && \
             {{ echo first; {reelpony} record in.y4m {name}; echo last; }} >written && \
             {reelpony} record in.y4m {name} | cat >piped"
        );
        let mut shell = Command::new("sh");
        let ran = Ran::of(shell.args(["-c", &script]).current_dir(&folder).output().unwrap());
        assert_eq!(ran.status, 0, "{name}: {}", ran.said);
        assert!(bytes(&folder, "appended") == [b"old\n", &take[..]].concat(), "{name}");
        assert!(bytes(&folder, "written") == [b"first\n", &take[..], b"last\n"].concat(), "{name}");
        assert!(bytes(&folder, "piped") == take, "{name}");
    }
    // A device is written as it stands, and a named pipe.
    assert_eq!(run(&folder, &["record", "in.y4m", "/dev/null"]).status, 0);
    let made = Command::new("mkfifo").arg(folder.join("fifo")).status().unwrap();
    assert!(made.success());
    let fifo = folder.join("fifo");
    let reading = thread::spawn(move || fs::read(fifo).unwrap());
    assert_eq!(run(&folder, &["record", "in.y4m", "fifo"]).status, 0);
    assert!(reading.join().unwrap() == take);
}

/// A file that comes to be while it is extracted stays.
#[test]
fn files_that_come_meanwhile() {
    let (folder, take, _) = whole("meanwhile", &KINDS[2], 5);
    let mut running = Running::begin(command(&folder, &["extract", "-", "out.y4m"]));
    running.feed(&take[..take.len() / 2]);
    until("no part is begun", || names(&folder).iter().any(|name| name.ends_with(".part")));
    fs::write(folder.join("out.y4m"), "another's").unwrap();
    running.feed(&take[take.len() / 2..]);
    running.pipe = None;
    let ran = running.end();
    assert_eq!(ran.status, 1, "{}", ran.said);
    assert!(ran.said.contains("out.y4m exists; --force replaces it"), "{}", ran.said);
    assert_eq!(bytes(&folder, "out.y4m"), b"another's");
    assert_eq!(names(&folder), ["in.y4m", "out.y4m", "take.h264"]);
}

/// Another file that has got the name of an empty recording stays, and a recording that can't get its
/// name is left under the one that it has.
#[test]
fn names_that_are_taken_meanwhile() {
    let kind = &KINDS[0];
    let (folder, take, ends) = whole("taken", kind, 3);
    let out = folder.join("out.h264");
    let mut running = Running::begin(command(&folder, &["record", "-", "out.h264"]));
    running.feed(kind.header().as_bytes());
    until("OUT is not begun", || out.exists());
    fs::write(folder.join("other"), "another's").unwrap();
    fs::rename(folder.join("other"), &out).unwrap();
    running.pipe = None;
    assert_eq!(running.end().status, 1);
    assert_eq!(bytes(&folder, "out.h264"), b"another's");

    let mut running = Running::begin(command(&folder, &["record", "-", "out.h264", "--force"]));
    running.feed(&kind.y4m(3));
    let part = || names(&folder).into_iter().find(|name| name.ends_with(".part"));
    until("no part is begun", || part().is_some_and(|part| length(&folder.join(part)) == ends[2]));
    fs::remove_file(&out).unwrap();
    fs::create_dir(&out).unwrap();
    running.pipe = None;
    let ran = running.end();
    assert_eq!(ran.status, 3, "{}", ran.said);
    let part = part().unwrap();
    assert!(ran.said.ends_with(&format!("; what was recorded is {part}\n")), "{}", ran.said);
    assert!(bytes(&folder, &part) == take);
}

#[test]
fn demo_folders() {
    let folder = folder("demo-folders");
    fs::create_dir_all(folder.join("mine")).unwrap();
    fs::write(folder.join("mine/mono8.y4m"), "mine").unwrap();
    fails(&folder, &["demo", "mine"], 1, "the folder mine is not empty");
    assert_eq!(bytes(&folder, "mine/mono8.y4m"), b"mine");
    assert_eq!(names(&folder.join("mine")), ["mono8.y4m"]);
    fs::create_dir(folder.join("empty")).unwrap();
    assert_eq!(run(&folder, &["demo", "empty"]).status, 0);
    assert_eq!(names(&folder.join("empty")).len(), 25);
    fails(&folder, &["demo", "empty"], 1, "the folder empty is not empty");
}

// ---- Parameter sets again.

#[test]
fn sets_every() {
    for kind in &KINDS {
        let (folder, take, ends) = whole(&format!("sets-{}", kind.y4m), kind, 7);
        let list = run(&folder, &["list", "take.h264"]);
        let first = list.text().lines().find(|line| line.ends_with("  picture 1")).unwrap();
        let first: usize = first.split_whitespace().next().unwrap().parse().unwrap();
        let sets = &take[..first - 4];
        let has_ffmpeg = has_ffmpeg();
        let decode =
            |name: &str| ffmpeg(&folder, &["-f", "h264", "-i", name, "-f", "rawvideo", "-"]);
        let decoded = if has_ffmpeg { decode("take.h264") } else { vec![] };
        for every in [1, 2, 3, 6, 7, 100] {
            let out = format!("every-{every}.h264");
            let option = format!("--sets-every={every}");
            let ran = run(&folder, &["record", "in.y4m", &out, &option]);
            assert_eq!(ran.status, 0, "{}", ran.said);
            let mut wanted = take[..ends[0]].to_vec();
            for number in 2..=7 {
                if (number - 1) % every == 0 {
                    wanted.extend(sets);
                }
                wanted.extend(&take[ends[number - 2]..ends[number - 1]]);
            }
            assert!(bytes(&folder, &out) == wanted, "{every}");
            assert!(ran.said.contains(&format!("; {} bytes", wanted.len())), "{}", ran.said);
            holds(&folder, &out, kind, 7);
            if has_ffmpeg && matches!(every, 1 | 3) {
                assert!(!decoded.is_empty() && decode(&out) == decoded, "{every}");
            }
        }
    }
}

// ---- The command line.

#[test]
fn usage() {
    let folder = folder("usage-words");
    for (arguments, part) in [
        (&[][..], "a command is needed"),
        (&["play"], "there is no command \"play\""),
        (&["\x1b[2J\n"], "there is no command \"\\x1b[2J\\x0a\""),
        (&["--play"], "there is no command \"--play\""),
        (&["help", "play"], "there is no command \"play\""),
        (&["help", "list", "check"], "help needs one command at most"),
        (&["--version", "1"], "--version stands alone"),
        (&["--help", "list"], "--help stands alone"),
        (&["record", "a"], "record needs two files, from and to"),
        (&["record", "a", "b", "c"], "record needs two files, from and to"),
        (&["record", "--", "a", "--force"], "a can't be read"),
        (&["extract", "a"], "extract needs two files, from and to"),
        (&["list"], "list needs one take"),
        (&["check", "a", "b"], "check needs one take"),
        (&["demo", "a", "b"], "demo needs one folder at most"),
        (&["list", "--all", "a"], "list has no option --all"),
        (&["list", "-x", "a"], "list has no option -x"),
        (&["list", "--rate=25:1", "a"], "list has no option --rate"),
        (&["list", "--\x1b[2J", "a"], "list has no option --\\x1b[2J"),
        (&["demo", "--force", "a"], "demo has no option --force"),
        (&["record", "a", "b", "--like", "c"], "record has no option --like"),
        (&["record", "a", "b", "--json"], "record has no option --json"),
        (&["extract", "a", "b", "--json"], "extract has no option --json"),
        (&["check", "a", "--part", "1"], "check has no option --part"),
        (&["extract", "a", "b", "--rate"], "--rate needs a rate"),
        (&["extract", "a", "b", "--rate", "25"], "--rate needs two whole numbers like 30000:1001"),
        (&["extract", "a", "b", "--rate="], "--rate needs two whole numbers"),
        (&["extract", "a", "b", "--rate=0:1"], "and \"0:1\" is not that"),
        (&["extract", "a", "b", "--rate=+1:1"], "and \"+1:1\" is not that"),
        (&["extract", "a", "b", "--rate=1:4294967296"], "is not that"),
        (&["extract", "a", "b", "--rate=1:1", "--rate=1:1"], "--rate is given twice"),
        (&["extract", "a", "b", "--part", "0"], "--part needs a whole number from 1 on"),
        (&["extract", "a", "b", "--part=x"], "and \"x\" is none"),
        (&["record", "a", "b", "--sets-every"], "--sets-every needs a number of pictures"),
        (&["record", "a", "b", "--sets-every=0"], "--sets-every needs a whole number from 1 on"),
        (&["record", "a", "b", "--sets-every", "-1"], "and \"-1\" is none"),
        (&["record", "a", "b", "--force=yes"], "--force takes no value"),
        (&["record", "a", "b", "--force", "--in-place"], "--force and --in-place are two ways"),
        (&["extract", "a", "b", "--in-place", "--force"], "--force and --in-place are two ways"),
        (&["check", "a", "--like"], "--like needs a take"),
        (&["check", "a", "--like", "b", "--size=2x2:mono"], "--like and --size say the same"),
        (&["check", "a", "--size"], "--size needs a size and a kind"),
        (&["list", "a", "--size", "640x480"], "--size 640x480: needs a size and a kind like"),
        (&["extract", "a", "b", "--size=0x2:mono"], "--size 0x2:mono: "),
        (&["check", "a", "--size=3x2:420"], "can have an odd width, and this is 3x2"),
        (&["check", "a", "--size=6x2:420p12"], "multiple of 4, and this is 6x2"),
        (&["check", "a", "--strict=1"], "--strict takes no value"),
        (&["check", "a", "--json="], "--json takes no value"),
    ] {
        let ran = run(&folder, arguments);
        let status = if part == "a can't be read" { 1 } else { 2 };
        assert_eq!(ran.status, status, "{arguments:?}: {}", ran.said);
        assert!(ran.said.contains(part), "{arguments:?}: {}", ran.said);
        assert_eq!(ran.said.lines().count(), 1, "{arguments:?}: {}", ran.said);
        assert!(ran.out.is_empty());
    }
    assert!(names(&folder).is_empty());
}

#[test]
fn help() {
    let folder = folder("help");
    let shown = |arguments: &[&str]| {
        let ran = run(&folder, arguments);
        assert_eq!((ran.status, &ran.said[..]), (0, ""), "{arguments:?}");
        ran.text().to_string()
    };
    assert_eq!(shown(&["--version"]), "reelpony 0.1.0\n");
    assert_eq!(shown(&["-V"]), "reelpony 0.1.0\n");
    let all = shown(&["help"]);
    assert_eq!(all, shown(&["--help"]));
    assert_eq!(all, shown(&["-h"]));
    for (verb, options) in [
        ("record", &["--force", "--in-place", "--sets-every N", "--quiet"][..]),
        ("list", &["--like", "--size WxH:KIND", "--strict", "--json"]),
        ("check", &["--like", "--size WxH:KIND", "--strict", "--json"]),
        (
            "extract",
            &["--like", "--size", "--strict", "--rate", "--part N", "--force", "--in-place"],
        ),
        ("demo", &["DIR"]),
    ] {
        assert!(all.contains(&format!("  reelpony {verb} ")), "{verb}");
        let help = shown(&["help", verb]);
        assert!(help.starts_with(&format!("reelpony {verb} ")), "{verb}");
        for option in options {
            assert!(help.contains(option), "{verb}: {option}");
        }
        for asking in [&[verb, "--help"][..], &[verb, "-h"], &[verb, "a", "b", "c", "--help"]] {
            assert_eq!(shown(asking), help, "{asking:?}");
        }
        assert!(help.lines().all(|line| line.chars().count() <= 110), "{verb}");
    }
    assert!(names(&folder).is_empty());
}

/// Options before and behind files, with either form of a value, and files that look like options.
#[test]
fn option_forms() {
    let (folder, take, _) = whole("forms", &KINDS[0], 2);
    for arguments in [
        &["extract", "--rate", "30:1", "take.h264", "out.y4m"][..],
        &["extract", "take.h264", "--rate=30:1", "out.y4m"],
        &["extract", "take.h264", "out.y4m", "--rate", "30:1"],
        &["extract", "--rate=30:1", "--", "take.h264", "out.y4m"],
        &["extract", "--rate=30:1", "take.h264", "--", "out.y4m"],
        &["extract", "--like=take.h264", "--rate=30:1", "take.h264", "out.y4m"],
        &["extract", "--size=17x5:mono", "--rate=30:1", "take.h264", "out.y4m"],
    ] {
        let ran = run(&folder, arguments);
        assert_eq!(ran.status, 0, "{arguments:?}: {}", ran.said);
        assert!(bytes(&folder, "out.y4m").starts_with(b"YUV4MPEG2 W17 H5 F30:1 "), "{arguments:?}");
        fs::remove_file(folder.join("out.y4m")).unwrap();
    }
    let ran = run(&folder, &["record", "in.y4m", "--", "--force"]);
    assert_eq!(ran.status, 0, "{}", ran.said);
    assert!(bytes(&folder, "--force") == take);
    fails(&folder, &["record", "in.y4m", "--", "--force"], 1, "--force exists; --force replaces");
    assert_eq!(run(&folder, &["check", "--", "--force"]).status, 0);
    // A value's own equals signs are its own.
    fs::write(folder.join("a=b"), &take).unwrap();
    assert_eq!(run(&folder, &["check", "take.h264", "--like=a=b"]).status, 0);
}

// ---- Names.

#[test]
fn names_of_any_bytes() {
    let (folder, take, _) = whole("any-names", &KINDS[0], 2);
    let long = "n".repeat(255);
    let wide = "日".repeat(85);
    let odd: Vec<Vec<u8>> = vec![
        b"a\nreelpony: take.h264: 99 pictures".to_vec(),
        b"\x1b[2J\x1b]0;title\x07".to_vec(),
        b"\xff\xfe\x80".to_vec(),
        b"tab\there \x7f\r".to_vec(),
        "\u{202e}462h.ekat".into(),
        "\u{9b}31m".into(),
        "schön 日本.h264".into(),
        long.clone().into_bytes(),
        wide.clone().into_bytes(),
    ];
    for name in &odd {
        let out = OsStr::from_bytes(name);
        let safe = |ran: &Ran, lines: usize| {
            for text in [&ran.said[..], ran.text()] {
                let hidden = |c: char| c != '\n' && (c.is_control() || c == '\u{202e}');
                assert!(!text.contains(hidden), "{text:?}");
            }
            assert_eq!(ran.said.lines().count(), lines, "{}", ran.said);
            assert!(ran.said.lines().all(|line| line.chars().count() < 600), "{}", ran.said);
        };
        let arguments = |words: &[&str]| -> Vec<OsString> {
            let word = |word: &&str| if *word == "OUT" { out.into() } else { (*word).into() };
            words.iter().map(word).collect()
        };
        let go = |words: &[&str], status: i32, lines: usize| {
            let ran = run(&folder, &arguments(words));
            assert_eq!(ran.status, status, "{words:?}: {}", ran.said);
            safe(&ran, lines);
        };
        go(&["check", "OUT"], 1, 1);
        go(&["record", "in.y4m", "OUT", "--quiet"], 0, 1);
        assert!(fs::read(folder.join(out)).unwrap() == take);
        go(&["record", "in.y4m", "OUT"], 1, 1);
        go(&["record", "in.y4m", "OUT", "--quiet", "--force"], 0, 2);
        go(&["record", "in.y4m", "OUT", "--quiet", "--in-place"], 0, 2);
        go(&["record", "OUT", "new"], 1, 1);
        go(&["check", "OUT"], 0, 0);
        go(&["list", "OUT", "--like", "OUT"], 0, 0);
        go(&["extract", "OUT", "OUT"], 1, 1);
        fs::remove_file(folder.join(out)).unwrap();
        go(&["extract", "take.h264", "OUT"], 0, 1);
        assert!(fs::read(folder.join(out)).unwrap().starts_with(b"YUV4MPEG2 "));
        go(&["record", "OUT", "new"], 0, 2);
        fs::remove_file(folder.join("new")).unwrap();
        go(&["demo", "OUT"], 1, 1);
        fs::remove_file(folder.join(out)).unwrap();
    }
    // A longer name than a file can have, and an empty one.
    let ran = run(&folder, &["record", "in.y4m", &"n".repeat(5000), "--quiet"]);
    assert_eq!(ran.status, 1);
    assert!(ran.said.contains("…") && ran.said.chars().count() < 400, "{}", ran.said);
    fails(&folder, &["check", ""], 1, "\"\" can't be read: ");
    fails(&folder, &["record", "in.y4m", "", "--quiet"], 1, "\"\" can't be written: ");
    assert_eq!(names(&folder), ["in.y4m", "take.h264"]);
}

// ---- What is no Y4M, and what a take can't keep.

#[test]
fn long_headers() {
    let folder = folder("long-headers");
    let begin = "YUV4MPEG2 W2 H2 Cmono XCOLORRANGE=FULL X";
    for (length, is_read) in [(200, true), (4096, true), (4097, false), (1 << 20, false)] {
        let header = format!("{begin}{}\nFRAME\n1234", "x".repeat(length - begin.len()));
        fs::write(folder.join("in.y4m"), header).unwrap();
        if is_read {
            let ran = run(&folder, &["record", "in.y4m", "out.h264"]);
            assert_eq!(ran.status, 0, "{length}: {}", ran.said);
            fs::remove_file(folder.join("out.h264")).unwrap();
            continue;
        }
        let words = "its first line is longer than the 4,096 bytes that are looked at";
        fails(&folder, &["record", "in.y4m", "out.h264"], 1, words);
    }
    // A field of any length and any bytes is shown safely, too.
    let kind = format!("YUV4MPEG2 W2 H2 C\x1b[2J{}\n", "x".repeat(3000));
    fs::write(folder.join("in.y4m"), kind).unwrap();
    let ran = run(&folder, &["record", "in.y4m", "out.h264"]);
    assert_eq!(ran.status, 1);
    assert!(ran.said.contains("of the kind \"\\x1b[2Jxxx"), "{}", ran.said);
    assert!(ran.said.len() < 500 && !ran.said.contains('\x1b'), "{}", ran.said);
    assert_eq!(names(&folder), ["in.y4m"]);
}

/// Files of other kinds as ffmpeg makes them; where it isn't there, by their first bytes.
#[test]
fn other_kinds() {
    let (folder, take, _) = whole("other-kinds", &KINDS[2], 2);
    let mut transport = vec![0xFF; 188 * 5];
    transport.iter_mut().step_by(188).for_each(|byte| *byte = 0x47);
    let mut kinds: Vec<(&str, Vec<u8>, &str)> = vec![
        ("take", take, "is a take or another H.264 byte stream, not a Y4M; extract reads it"),
        ("empty", vec![], "is empty, not a Y4M"),
        ("x.zip", b"PK\x03\x04....".to_vec(), "is a ZIP file, not a Y4M"),
        ("x.gz", b"\x1f\x8b\x08\0".to_vec(), "is a gzip file, not a Y4M"),
        ("x.mp4", b"\0\0\0\x1cftypmp42".to_vec(), "is an MP4 or MOV file, not a Y4M"),
        ("x.ts", transport, "is an MPEG transport stream, not a Y4M"),
        ("text", b"Good morning\n".to_vec(), "is not a Y4M: it doesn't begin with"),
    ];
    if has_ffmpeg() {
        for (name, words) in [
            ("y.mp4", "is an MP4 or MOV file"),
            ("y.mov", "is a MOV file (QuickTime)"),
            ("y.ts", "is an MPEG transport stream"),
            ("y.m2ts", "is an MPEG transport stream"),
            ("y.mkv", "is a Matroska or WebM file"),
            ("y.avi", "is an AVI file"),
            ("y.png", "is a PNG picture"),
            ("y.jpg", "is a JPEG picture"),
            ("y.tiff", "is a TIFF picture"),
            ("y.gif", "is a GIF picture"),
            ("y.mpg", "is an MPEG program stream"),
        ] {
            let make = ["-f", "lavfi", "-i", "testsrc2=size=64x48:rate=25", "-frames:v", "1"];
            ffmpeg(&folder, &[&make[..], &["-y", name]].concat());
            kinds.push((name, bytes(&folder, name), words));
        }
    } else {
        println!("other_kinds: without ffmpeg only first bytes made by hand");
    }
    for (name, bytes, words) in kinds {
        fs::write(folder.join(name), &bytes).unwrap();
        fails(&folder, &["record", name, "out"], 1, &format!("{name} {words}"));
        let ran = run_with(&folder, &["record", "-", "out"], &bytes);
        assert_eq!(ran.status, 1, "{name}");
        assert!(ran.said.contains(&format!("standard input {words}")), "{name}: {}", ran.said);
        assert!(!folder.join("out").exists());
    }
}

/// What a take can't keep is said when it happens, and --quiet leaves it out.
#[test]
fn notes() {
    let folder = folder("notes");
    let header = "YUV4MPEG2 W2 H2 F24000:1001 It A10:11 C420mpeg2";
    fs::write(folder.join("in.y4m"), format!("{header}\nFRAME\n123456")).unwrap();
    let ran = run(&folder, &["record", "in.y4m", "out.h264"]);
    assert_eq!(ran.status, 0, "{}", ran.said);
    let notes: Vec<&str> =
        ran.said.lines().filter_map(|line| line.strip_prefix("reelpony: note: in.y4m: ")).collect();
    assert_eq!(notes.len(), 5, "{}", ran.said);
    for (note, part) in
        notes.iter().zip(["--rate 24000:1001", "interlaced", "10:11", "full range", "420mpeg2"])
    {
        assert!(note.contains(part), "{note}");
    }
    let ran = run(&folder, &["record", "in.y4m", "quiet.h264", "--quiet"]);
    assert_eq!((ran.status, ran.said.lines().count()), (0, 1), "{}", ran.said);
    assert!(bytes(&folder, "quiet.h264") == bytes(&folder, "out.h264"));
    // What it says of a Y4M that extract wrote is only its rate.
    assert_eq!(run(&folder, &["extract", "out.h264", "out.y4m"]).status, 0);
    let ran = run(&folder, &["record", "out.y4m", "again.h264"]);
    assert_eq!(ran.said.lines().count(), 2, "{}", ran.said);
    assert!(bytes(&folder, "again.h264") == bytes(&folder, "out.h264"));
}
