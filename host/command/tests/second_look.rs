//! The second look at what the reader refuses: damaged borders and parameter sets, takes that are
//! joined, units that players put in, and how losses are told.

mod helpers;

use std::fs;
use std::path::{Path, PathBuf};

use helpers::{fails, folder, has_ffmpeg, names, recorded, run, run_with, Kind, Ran, KINDS};

/// A take in a folder: its bytes, and the place and length of each picture's unit.
struct Shoot {
    kind: &'static Kind,
    folder: PathBuf,
    take: Vec<u8>,
    pictures: Vec<(usize, usize)>,
}

impl Shoot {
    fn new(name: &str, kind: &'static Kind, count: u64) -> Shoot {
        let (folder, take, pictures) =
            recorded(&format!("second-{name}-{}", kind.y4m), kind, count);
        Shoot { kind, folder, take, pictures }
    }

    /// The take with some bytes replaced.
    fn with(&self, from: usize, to: usize, bytes: &[u8]) -> Vec<u8> {
        let mut take = self.take.clone();
        take.splice(from..to, bytes.iter().copied());
        take
    }

    /// What is extracted from bytes: the number of each picture, and whether it is marked.
    fn extract(&self, bytes: &[u8], options: &[&str]) -> (Vec<(u64, bool)>, Ran) {
        fs::write(self.folder.join("bad.h264"), bytes).unwrap();
        let _ = fs::remove_file(self.folder.join("out.y4m"));
        let ran = run(&self.folder, &[&["extract", "bad.h264", "out.y4m"], options].concat());
        let saved = fs::read(self.folder.join("out.y4m")).unwrap_or_default();
        (self.numbers(&saved), ran)
    }

    /// The pictures of a Y4M by their numbers in the take; 0 for one that is none of it, and alone
    /// where the size is another.
    fn numbers(&self, y4m: &[u8]) -> Vec<(u64, bool)> {
        let Kind { width, height, .. } = self.kind;
        let wanted = format!("YUV4MPEG2 W{width} H{height} ");
        if !y4m.is_empty() && !y4m.starts_with(wanted.as_bytes()) {
            return vec![(0, false)];
        }
        let written = self.kind.pictures(self.pictures.len() as u64);
        let written: Vec<&[u8]> =
            written.chunks(self.kind.each()).map(|frame| &frame[6..]).collect();
        frames(y4m, self.kind.each() - 6)
            .into_iter()
            .map(|(samples, marked)| {
                let number = written.iter().position(|other| *other == samples);
                (number.map_or(0, |number| number as u64 + 1), marked)
            })
            .collect()
    }

    /// Extracts from bytes: all pictures must be there, those given marked, and no other. Without
    /// second looks no picture is marked and none is another.
    fn all_but_marked(&self, name: &str, bytes: &[u8], marked: &[u64]) -> Ran {
        let (found, ran) = self.extract(bytes, &[]);
        let all = 1..=self.pictures.len() as u64;
        let wanted: Vec<(u64, bool)> = all.map(|n| (n, marked.contains(&n))).collect();
        assert_eq!(found, wanted, "{}, {name}: {}", self.kind.y4m, ran.said);
        assert_eq!(ran.status, 3, "{name}: {}", ran.said);
        assert!(ran.said.contains("reelpony: second look: picture"), "{name}: {}", ran.said);
        let (strict, ran) = self.extract(bytes, &["--strict"]);
        assert!(strict.iter().all(|(number, marked)| *number > 0 && !marked), "{name}");
        assert!(strict.len() < found.len() || marked.is_empty(), "{name}: {}", ran.said);
        assert!(!ran.said.contains("second look"), "{name}: {}", ran.said);
        ran
    }
}

/// The frames of a Y4M, and whether each is marked.
fn frames(y4m: &[u8], length: usize) -> Vec<(&[u8], bool)> {
    let mut rest = &y4m[y4m.iter().position(|byte| *byte == b'\n').map_or(0, |end| end + 1)..];
    let mut frames = Vec::new();
    while !rest.is_empty() {
        let end = rest.iter().position(|byte| *byte == b'\n').unwrap();
        let marked = match &rest[..end] {
            b"FRAME" => false,
            b"FRAME XREELPONY=SECOND-LOOK" => true,
            other => panic!("{:?}", String::from_utf8_lossy(other)),
        };
        frames.push((&rest[end + 1..end + 1 + length], marked));
        rest = &rest[end + 1 + length..];
    }
    frames
}

/// Whatever happens to a border, the picture before it and the one behind it are there, marked.
#[test]
fn borders() {
    for kind in &KINDS {
        let shoot = Shoot::new("borders", kind, 5);
        let (place, length) = shoot.pictures[2];
        let byte = |at: usize, byte: u8| shoot.with(at, at + 1, &[byte]);
        for (name, bytes, marked) in [
            ("the start code's last byte", byte(place - 1, 5), &[2, 3][..]),
            ("its second byte", byte(place - 3, 1), &[2, 3]),
            ("its first byte", byte(place - 4, 0x40), &[2]),
            ("no start code", shoot.with(place - 4, place, &[]), &[2, 3]),
            ("nor a header", shoot.with(place - 4, place + 1, &[]), &[2, 3]),
            ("no header", shoot.with(place, place + 1, &[]), &[3]),
            ("noise", shoot.with(place - 5, place + 1, &[7, 200, 3, 9, 8, 7]), &[2, 3]),
            ("zeros", shoot.with(place - 5, place + 1, &[0; 6]), &[2, 3]),
            ("a byte more", shoot.with(place - 4, place - 4, &[9]), &[2]),
            ("many bytes more", shoot.with(place - 4, place - 4, &[9; 999]), &[2]),
            ("a byte within", shoot.with(place - 2, place - 2, &[9]), &[2, 3]),
            ("a header", byte(place, 0x65), &[3]),
            ("a parameter set's header", byte(place, 0x67), &[3]),
            ("a header of information", byte(place, 6), &[3]),
            ("a slice header", byte(place + 2, 0x85), &[3]),
            ("a last byte", byte(place + length - 1, 0x81), &[3]),
            ("a last byte of zero", byte(place + length - 1, 0), &[3]),
            ("no last byte", shoot.with(place + length - 1, place + length, &[]), &[3]),
            ("bytes behind the last", [&shoot.take[..], &[9; 50]].concat(), &[5]),
        ] {
            shoot.all_but_marked(name, &bytes, marked);
        }
    }
}

/// A picture of another size is never made of the front of one.
#[test]
fn no_picture_of_another_size() {
    for kind in &KINDS {
        let shoot = Shoot::new("size", kind, 3);
        let bytes = &shoot.take[shoot.pictures[0].0 - 4..];
        for size in ["16x16:mono", "16x16:mono12", "16x16:420", "16x16:420p12", "400x400:mono"] {
            let (found, ran) = shoot.extract(bytes, &["--size", size]);
            let right = kind.y4m == "420p12" && size == "16x16:420p12";
            assert!(right || found.is_empty(), "{} as {size}: {}", kind.y4m, ran.said);
            assert!(right || ran.said.contains("of the size that --size gives"), "{}", ran.said);
        }
    }
}

/// A byte of either parameter set, or of what stands around it, and the pictures are there. All of
/// them are marked, since the set is assumed. Sizes between which nothing tells are asked for.
#[test]
fn parameter_sets() {
    for kind in &KINDS {
        let shoot = Shoot::new("sets", kind, 3);
        let first = shoot.pictures[0].0 - 4;
        let (mut assumed, mut asked) = (0, 0);
        for at in 0..first {
            for bit in [1, 2, 4, 8, 16, 32, 64, 128] {
                let bytes = shoot.with(at, at + 1, &[shoot.take[at] ^ bit]);
                let (found, ran) = shoot.extract(&bytes, &[]);
                let name = format!("{}, bit {bit} of byte {at}: {}", kind.y4m, ran.said);
                match ran.status {
                    // The first byte is no part of a start code, and cropping tells another size.
                    0 => assert!(at == 0 || found.is_empty() || found[0] != (1, false), "{name}"),
                    1 => {
                        asked += 1;
                        assert!(ran.said.contains("--size says which"), "{name}");
                    }
                    _ => {
                        let all = [(1, true), (2, true), (3, true)];
                        let stray = at < 4 && found == [(1, false), (2, false), (3, false)];
                        assert!(found == all || stray, "{name}");
                        assumed += u32::from(found == all);
                    }
                }
            }
        }
        assert!(assumed > 100 && asked < 10, "{}: {assumed}, {asked}", kind.y4m);
    }
}

/// Sets that stand later in the file serve what stands before them; from a pipe they can't.
#[test]
fn sets_later() {
    for kind in &KINDS {
        let shoot = Shoot::new("later", kind, 3);
        let bytes = [&shoot.take[shoot.pictures[0].0 + 9..], &shoot.take[..]].concat();
        let (found, ran) = shoot.extract(&bytes, &[]);
        let wanted = [(2, true), (3, true), (1, false), (2, false), (3, false)];
        assert_eq!(found, wanted, "{}: {}", kind.y4m, ran.said);
        assert!(ran.said.contains("that stands later in the file"), "{}", ran.said);
        let ran = run_with(&shoot.folder, &["extract", "-", "-"], &bytes);
        assert_eq!(shoot.numbers(&ran.out), wanted[2..], "{}", ran.said);
        // Recorded so on purpose.
        let every = ["record", "in.y4m", "every.h264", "--sets-every", "2"];
        assert_eq!(run(&shoot.folder, &every).status, 0);
        let every = fs::read(shoot.folder.join("every.h264")).unwrap();
        let (found, _) = shoot.extract(&every[shoot.pictures[0].0 - 4..], &[]);
        assert_eq!(found, [(1, true), (2, true), (3, false)]);
    }
}

/// The size is said by the user: nothing is marked then, and the lost front counts.
#[test]
fn given_sizes() {
    for kind in &KINDS {
        let shoot = Shoot::new("given", kind, 4);
        let name = if kind.y4m == "420jpeg" { "420" } else { kind.y4m };
        let size = format!("{}x{}:{name}", kind.width, kind.height);
        let bytes = &shoot.take[shoot.pictures[0].0 + 50..];
        let (found, ran) = shoot.extract(bytes, &["--size", &size]);
        assert_eq!(found, [(2, false), (3, false), (4, false)], "{}", ran.said);
        let list = run(&shoot.folder, &["list", "bad.h264", "--size", &size]);
        assert!(list.text().contains("  picture 2\n"), "{}", list.text());
        let other = KINDS.iter().find(|other| other.words != kind.words).unwrap();
        fs::write(shoot.folder.join("other.y4m"), other.y4m(1)).unwrap();
        assert_eq!(run(&shoot.folder, &["record", "other.y4m", "other.h264"]).status, 0);
        // A whole take says its size itself.
        let (found, ran) = shoot.extract(&shoot.take, &["--like", "other.h264"]);
        assert_eq!((found.len(), ran.status), (4, 0), "{}", ran.said);
        let said =
            format!("--like gives {}; at offset 4 the take says {}\n", other.words, kind.words);
        assert!(ran.said.contains(&said), "{}", ran.said);
        for verb in ["list", "check"] {
            let ran = run(&shoot.folder, &[verb, "take.h264", "--like", "other.h264"]);
            assert_eq!((ran.status, ran.said), (0, format!("reelpony: {said}")), "{verb}");
        }
        let (found, ran) = shoot.extract(bytes, &["--like", "other.h264"]);
        assert!(found.is_empty() && ran.status == 1, "{}", ran.said);
        assert!(ran.said.contains("of the size that --like gives"), "{}", ran.said);
    }
}

/// Takes of different sizes in one file are told, and each is extracted by itself.
#[test]
fn joined_takes() {
    let [one, two] = [&KINDS[2], &KINDS[0]].map(|kind| Shoot::new("joined", kind, 3));
    let bytes = [&one.take[..], &two.take].concat();
    let offset = one.take.len() + 4;
    let (found, ran) = one.extract(&bytes, &[]);
    assert_eq!((found.len(), ran.status), (3, 3), "{}", ran.said);
    let said = format!("another take begins at offset {offset}: {}\n", two.kind.words);
    assert!(ran.said.contains(&said), "{}", ran.said);
    let second = fs::read(one.folder.join("out-2.y4m")).unwrap();
    assert_eq!(two.numbers(&second), [(1, false), (2, false), (3, false)]);
    let check = run(&one.folder, &["check", "bad.h264"]);
    assert!(check.text().starts_with("joined: bad.h264 has takes of different sizes: 3 pictures"));
    assert_eq!(check.status, 3);
    // What is there is not written over, the second part either.
    fs::remove_file(one.folder.join("out.y4m")).unwrap();
    let ran = run(&one.folder, &["extract", "bad.h264", "out.y4m"]);
    assert!(ran.status == 1 && ran.said.contains("out-2.y4m exists"), "{}", ran.said);
    let _ = fs::remove_file(one.folder.join("out.y4m"));
    fs::remove_file(one.folder.join("out-2.y4m")).unwrap();
    let ran = run(&one.folder, &["extract", "bad.h264", "part.y4m", "--part", "2"]);
    assert_eq!(ran.status, 3, "{}", ran.said);
    assert_eq!(fs::read(one.folder.join("part.y4m")).unwrap(), second);
    assert!(!one.folder.join("part-2.y4m").exists());
    let ran = run(&one.folder, &["extract", "bad.h264", "none.y4m", "--part", "3"]);
    assert_eq!(ran.status, 1, "{}", ran.said);
    assert!(!names(&one.folder).iter().any(|name| name.starts_with("none")));
    let ran = run_with(&one.folder, &["extract", "-", "-"], &bytes);
    assert_eq!(one.numbers(&ran.out).len(), 3);
    assert!(ran.said.contains("1 take of other sizes left out"), "{}", ran.said);
    // The second with its first picture damaged.
    let mut damaged = bytes.clone();
    damaged[one.take.len() + two.pictures[0].0 + 20..][..40].fill(0);
    let (found, ran) = one.extract(&damaged, &["--force"]);
    assert_eq!(found.len(), 3, "{}", ran.said);
    let second = fs::read(one.folder.join("out-2.y4m")).unwrap();
    assert_eq!(two.numbers(&second), [(2, false), (3, false)], "{}", ran.said);
}

/// Sizes of as many macroblocks are told apart too: the reader alone would go on with the first.
#[test]
fn joined_takes_of_as_many_macroblocks() {
    let folder = folder("second-macroblocks");
    let y4m = |width: usize, height: usize| {
        let mut y4m = format!("YUV4MPEG2 W{width} H{height} Cmono XCOLORRANGE=FULL\n").into_bytes();
        for frame in 0..2 {
            y4m.extend(b"FRAME\n");
            y4m.extend((0..width * height).map(|at| (at % 251) as u8 ^ frame));
        }
        y4m
    };
    let sizes = [(48, 32), (32, 48), (47, 30)];
    let takes = sizes.map(|(width, height)| {
        fs::write(folder.join("in.y4m"), y4m(width, height)).unwrap();
        let record = ["record", "in.y4m", "take.h264", "--force"];
        assert_eq!(run(&folder, &record).status, 0);
        fs::read(folder.join("take.h264")).unwrap()
    });
    fs::write(folder.join("joined.h264"), takes.concat()).unwrap();
    let ran = run(&folder, &["extract", "joined.h264", "out.y4m"]);
    assert_eq!(ran.status, 3, "{}", ran.said);
    for (name, (width, height)) in ["out.y4m", "out-2.y4m", "out-3.y4m"].iter().zip(sizes) {
        let saved = fs::read(folder.join(name)).unwrap();
        let wanted = y4m(width, height);
        let [saved, wanted] = [&saved, &wanted].map(|y4m| {
            frames(y4m, width * height).into_iter().map(|(samples, _)| samples.to_vec())
        });
        assert!(saved.eq(wanted), "{name}: {}", ran.said);
    }
}

/// What is lost is said in pictures, and the saved ones keep their numbers.
#[test]
fn losses() {
    let shoot = Shoot::new("losses", &KINDS[2], 12);
    let mut bytes = shoot.take.clone();
    // Pictures 4 to 6 and 9 are overwritten, borders too.
    let (from, _) = shoot.pictures[3];
    let (to, length) = shoot.pictures[5];
    bytes[from..to + length].fill(0x5A);
    let (from, length) = shoot.pictures[8];
    bytes[from + 30..from + length - 30].fill(0);
    let (found, ran) = shoot.extract(&bytes, &[]);
    let numbers: Vec<u64> = found.iter().map(|(number, _)| *number).collect();
    assert_eq!(numbers, [1, 2, 3, 7, 8, 10, 11, 12], "{}", ran.said);
    assert!(ran.said.contains("lost: about 3 pictures, "), "{}", ran.said);
    assert!(ran.said.contains(", behind picture 3: "), "{}", ran.said);
    assert!(ran.said.contains(", behind picture 8: "), "{}", ran.said);
    assert!(ran.said.contains("; about 4 pictures lost; "), "{}", ran.said);
    let list = run(&shoot.folder, &["list", "bad.h264"]);
    for (number, there) in [(3, true), (4, false), (6, false), (7, true), (9, false), (12, true)] {
        assert_eq!(list.text().contains(&format!("  picture {number}\n")), there, "{number}");
    }
    let json = run(&shoot.folder, &["list", "--json", "bad.h264"]);
    assert!(json.text().contains("\"what\":\"picture\",\"number\":7}"), "{}", json.text());
    assert!(json
        .text()
        .contains("\"pictures\":8,\"second_look\":0,\"refused\":2,\"about_lost\":4,"));
    let json = run(&shoot.folder, &["check", "--json", "bad.h264"]);
    assert!(json.text().contains("\"behind\":3,\"pictures\":3,\"refusal\":"), "{}", json.text());
    assert!(json.text().contains("\"verdict\":\"damaged\""), "{}", json.text());
    assert_eq!(json.status, 3);
    is_json(json.text());
    is_json(run(&shoot.folder, &["list", "--json", "bad.h264"]).text());
}

/// Brackets and quotes are closed in their order, and nothing stands behind the last.
fn is_json(text: &str) {
    let (mut open, mut quoted, mut escaped) = (Vec::new(), false, false);
    let last = text.trim_end().len() - 1;
    for (at, letter) in text.trim_end().char_indices() {
        match letter {
            _ if escaped => escaped = false,
            '\\' if quoted => escaped = true,
            '"' => quoted = !quoted,
            _ if quoted => assert!(letter >= ' ', "{text}"),
            '{' | '[' => open.push(letter),
            '}' => assert_eq!(open.pop(), Some('{'), "{text}"),
            ']' => assert_eq!(open.pop(), Some('['), "{text}"),
            _ => {}
        }
        assert_eq!(open.is_empty(), at == last, "{text}");
    }
}

/// Many losses of one kind are not a line each.
#[test]
fn many_alike() {
    let shoot = Shoot::new("many", &KINDS[0], 400);
    let mut bytes = shoot.take.clone();
    for (place, _) in shoot.pictures.iter().step_by(2) {
        bytes[place + 30..place + 60].fill(0);
    }
    let (found, ran) = shoot.extract(&bytes, &["--strict"]);
    assert_eq!(found.len(), 200);
    let lines: Vec<&str> = ran.said.lines().collect();
    assert!(lines.len() < 30, "{}", ran.said);
    let more = lines.iter().filter(|line| line.contains(" more places: ")).count();
    assert!((1..4).contains(&more), "{}", ran.said);
    assert!(lines[lines.len() - 1].contains("; about 200 pictures lost; "), "{}", ran.said);
}

/// Units that players put in are named and not counted as lost.
#[test]
fn units_of_players() {
    let shoot = Shoot::new("players", &KINDS[3], 3);
    let units: [(&str, &[u8]); 5] = [
        ("access unit delimiter", &[9, 0xF0]),
        ("supplemental enhancement information", &[6, 5, 1, 2, 0x80]),
        ("filler data", &[12, 0xFF, 0xFF, 0x80]),
        ("end of sequence", &[10]),
        ("end of stream", &[11]),
    ];
    let (place, _) = shoot.pictures[1];
    for (name, unit) in units {
        let bytes = shoot.with(place - 4, place - 4, &[&[0, 0, 0, 1], unit].concat());
        let (found, ran) = shoot.extract(&bytes, &[]);
        assert_eq!((found.len(), ran.status), (3, 0), "{name}: {}", ran.said);
        assert!(ran.said.contains(&format!("1 unit of {name}, put in")), "{}", ran.said);
        let list = run(&shoot.folder, &["list", "bad.h264"]);
        assert!(list.text().contains(&format!("  {name}, put in by a player\n")), "{name}");
        assert_eq!(run(&shoot.folder, &["check", "bad.h264"]).status, 0, "{name}");
        assert_eq!(run(&shoot.folder, &["check", "--strict", "bad.h264"]).status, 3, "{name}");
    }
    // As ffmpeg puts them in.
    if has_ffmpeg() {
        let copy = ["-c", "copy", "-bsf:v", "h264_metadata=aud=insert", "-f", "h264", "aud.h264"];
        let arguments = [&["-f", "h264", "-i", "take.h264"], &copy[..]].concat();
        helpers::ffmpeg(&shoot.folder, &arguments);
        let check = run(&shoot.folder, &["check", "aud.h264"]);
        assert_eq!(check.status, 0, "{}{}", check.text(), check.said);
        assert!(check.said.contains("3 units of access unit delimiter"), "{}", check.said);
    }
}

/// A second look from a pipe, which can't be read again.
#[test]
fn pipes() {
    for kind in &KINDS {
        let shoot = Shoot::new("pipes", kind, 5);
        let (place, _) = shoot.pictures[2];
        for (bytes, marked) in [
            (shoot.with(place - 4, place, &[]), &[2, 3][..]),
            (shoot.with(place, place + 1, &[0x41]), &[3]),
            (
                shoot.with(shoot.pictures[0].0 - 5, shoot.pictures[0].0 - 4, &[0x81]),
                &[1, 2, 3, 4, 5],
            ),
        ] {
            let ran = run_with(&shoot.folder, &["extract", "-", "-"], &bytes);
            let wanted: Vec<(u64, bool)> = (1..=5).map(|n| (n, marked.contains(&n))).collect();
            assert_eq!(shoot.numbers(&ran.out), wanted, "{}: {}", kind.y4m, ran.said);
        }
    }
}

/// What is none is told by its name.
#[test]
fn other_files() {
    let shoot = Shoot::new("other", &KINDS[1], 2);
    let swapped: Vec<u8> = shoot.take.chunks_exact(2).flat_map(|two| [two[1], two[0]]).collect();
    fs::write(shoot.folder.join("swapped"), swapped).unwrap();
    fs::write(shoot.folder.join("film"), b"\0\0\0\x20ftypisom\0\0\x02\0isomiso2avc1mp41").unwrap();
    for (name, words) in [
        ("swapped", "swapped is a take in which the bytes of each pair are swapped"),
        ("film", "film is an MP4 or MOV file"),
        ("in.y4m", "in.y4m is a Y4M; record reads it"),
    ] {
        says(&shoot.folder, name, words);
    }
    fails(&shoot.folder, &["extract", "film", "out.y4m", "--size", "3x3:420"], 2, "--size");
}

/// `check` and `extract` find nothing in a file, and say why.
fn says(folder: &Path, name: &str, words: &str) {
    let check = run(folder, &["check", name]);
    assert_eq!(check.status, 1, "{}", check.text());
    assert!(check.text().starts_with(&format!("nothing: {words}")), "{}", check.text());
    let ran = run(folder, &["extract", name, "out.y4m"]);
    assert!(ran.status == 1 && ran.said.contains(&format!("reelpony: {words}")), "{}", ran.said);
    assert!(!folder.join("out.y4m").exists());
}
