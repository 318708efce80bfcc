//! The command as a person runs it, on real files: good ones, cut, damaged and empty ones, files
//! that are something else, and names that lead nowhere.

mod helpers;

use std::fs;
use std::io::Read;
use std::path::Path;
use std::process::Stdio;

use helpers::{
    command, fails, ffmpeg, folder, has_ffmpeg, names, recorded, run, run_with, Ran, KINDS,
};

#[test]
fn good_files() {
    for kind in &KINDS {
        let (folder, take, places) = recorded(&format!("good-{}", kind.y4m), kind, 5);
        let ran = run(&folder, &["extract", "take.h264", "out.y4m"]);
        assert_eq!(ran.status, 0, "{}", ran.said);
        let wanted = format!("reelpony: complete: out.y4m has 5 pictures of {}\n", kind.words);
        assert_eq!(ran.said, wanted);
        let saved = fs::read(folder.join("out.y4m")).unwrap();
        assert!(kind.is_saved(&saved, &kind.pictures(5)));

        let check = run(&folder, &["check", "take.h264"]);
        assert_eq!(check.status, 0);
        assert_eq!(check.text(), format!("whole: take.h264 has 5 pictures of {}\n", kind.words));

        let list = run(&folder, &["list", "take.h264"]);
        let lines: Vec<&str> = list.text().lines().collect();
        assert_eq!((list.status, lines.len()), (0, 9));
        assert!(lines[1].ends_with(&format!("  sequence parameter set: {}", kind.words)));
        assert!(lines[2].ends_with("  picture parameter set"));
        let (last, length) = places[4];
        assert_eq!(lines[7], format!("{last:>14} {length:>12}  picture 5"));
        assert_eq!(last + length, take.len());
        let bytes = take.len();
        let summary =
            format!("7 units and 0 refused in {bytes} bytes: 5 pictures of {}", kind.words);
        assert_eq!(lines[8], summary);
        assert_eq!(names(&folder), ["in.y4m", "out.y4m", "take.h264"]);
    }
}

#[test]
fn pipes() {
    let folder = folder("pipes");
    for kind in &KINDS {
        let take = run_with(&folder, &["record", "-", "-"], &kind.y4m(3));
        assert_eq!(take.status, 0, "{}", take.said);
        let saved = run_with(&folder, &["extract", "-", "-", "--rate", "25:1"], &take.out);
        assert_eq!(saved.status, 0, "{}", saved.said);
        assert!(kind.is_saved(&saved.out, &kind.pictures(3)));
        let check = run_with(&folder, &["check", "-"], &take.out);
        assert_eq!(check.status, 0);
        let wanted = format!("whole: standard input has 3 pictures of {}\n", kind.words);
        assert_eq!(check.text(), wanted);
        // Cut: what is saved comes out, and the status tells.
        let saved = run_with(&folder, &["extract", "-", "-"], &take.out[..take.out.len() - 9]);
        assert_eq!(saved.status, 3, "{}", saved.said);
        assert!(kind.is_saved(&saved.out, &kind.pictures(2)));
    }
    assert!(names(&folder).is_empty());
}

/// Whoever reads the output goes away after a few bytes: nothing is said.
#[test]
fn broken_pipes() {
    let (folder, ..) = recorded("broken-pipes", &KINDS[2], 3000);
    for arguments in [
        &["list", "take.h264"][..],
        &["extract", "take.h264", "-"],
        &["record", "in.y4m", "-", "--quiet"],
    ] {
        let mut command = command(&folder, arguments);
        let mut child = command.stdout(Stdio::piped()).stderr(Stdio::piped()).spawn().unwrap();
        let mut few = [0; 10];
        child.stdout.take().unwrap().read_exact(&mut few).unwrap();
        let ran = Ran::of(child.wait_with_output().unwrap());
        assert_eq!((ran.status, &ran.said[..]), (1, ""), "{arguments:?}");
    }
}

#[test]
fn cut_files() {
    for kind in &KINDS {
        let (folder, take, places) = recorded(&format!("cut-{}", kind.y4m), kind, 4);
        let pictures = kind.pictures(4);
        for (number, (place, length)) in places.iter().enumerate() {
            let cut = place + length / 2;
            fs::write(folder.join("cut.h264"), &take[..cut]).unwrap();
            let _ = fs::remove_file(folder.join("out.y4m"));
            let ran = run(&folder, &["extract", "cut.h264", "out.y4m"]);
            let check = run(&folder, &["check", "cut.h264"]);
            let list = run(&folder, &["list", "cut.h264"]);
            assert_eq!(list.status, 0);
            assert!(list.text().contains("  refused (17): the picture is cut short\n"));
            if number == 0 {
                assert_eq!((ran.status, check.status), (1, 1), "{}", ran.said);
                assert!(check.text().starts_with("nothing: cut.h264 has no picture"));
                assert!(!folder.join("out.y4m").exists());
                continue;
            }
            assert_eq!((ran.status, check.status), (3, 3), "{}", ran.said);
            let lost = format!(
                "reelpony: lost: about 1 picture, {} bytes at offset {place}, behind picture \
                 {number}: the picture is cut short\n",
                length / 2
            );
            // Zeros at the end of what is left belong to nothing.
            if take[cut - 1] != 0 {
                assert!(ran.said.starts_with(&lost), "{}", ran.said);
            }
            assert!(ran.said.contains("\nreelpony: partial: out.y4m has "), "{}", ran.said);
            assert!(check.text().starts_with("cut: cut.h264 has "), "{}", check.text());
            let saved = fs::read(folder.join("out.y4m")).unwrap();
            assert!(kind.is_saved(&saved, &pictures[..number * kind.each()]));
        }
        // Between two pictures a cut can't be told.
        fs::write(folder.join("cut.h264"), &take[..places[2].0 - 3]).unwrap();
        assert_eq!(run(&folder, &["check", "cut.h264"]).status, 0);
        // In the parameter sets nothing is left.
        for cut in [1, 4, 8, 20] {
            fs::write(folder.join("cut.h264"), &take[..cut]).unwrap();
            let check = run(&folder, &["check", "cut.h264"]);
            assert_eq!(check.status, 1, "{}", check.text());
        }
        assert_eq!(names(&folder), ["cut.h264", "in.y4m", "out.y4m", "take.h264"]);
    }
}

#[test]
fn damaged_files() {
    for kind in &KINDS {
        let (folder, take, places) = recorded(&format!("damaged-{}", kind.y4m), kind, 4);
        let pictures = kind.pictures(4);
        let each = kind.each();
        let (place, length) = places[1];
        let rest = [&pictures[..each], &pictures[2 * each..]].concat();
        let with = |from: usize, to: usize, bytes: &[u8]| {
            let mut take = take.clone();
            take.splice(from..to, bytes.iter().copied());
            take
        };
        for (name, damaged, saved) in [
            ("zeros", with(place + 20, place + 60, &[0; 40]), &rest),
            ("missing", with(place + 20, place + 60, &[]), &rest),
            ("a header", with(place, place + 1, &[0x65]), &rest),
            ("one byte more", with(place + length, place + length, &[9]), &rest),
            ("a bare start code", with(place, place, &[7, 0, 0, 1, 0, 0, 1]), &pictures),
            ("a front", with(0, 0, b"text"), &pictures),
        ] {
            fs::write(folder.join("bad.h264"), damaged).unwrap();
            let ran = run(&folder, &["extract", "bad.h264", "out.y4m", "--force", "--strict"]);
            assert_eq!(ran.status, 3, "{name}: {}", ran.said);
            assert!(ran.said.contains("reelpony: lost: "), "{name}: {}", ran.said);
            let found = fs::read(folder.join("out.y4m")).unwrap();
            assert!(kind.is_saved(&found, saved), "{name}");
            let check = run(&folder, &["check", "bad.h264", "--strict"]);
            assert_eq!(check.status, 3, "{name}: {}", check.text());
            assert!(check.text().starts_with("damaged: bad.h264 has "), "{name}: {}", check.text());
            let list = run(&folder, &["list", "--strict", "bad.h264"]);
            assert!(list.text().contains("  refused ("), "{name}");
        }
    }
}

/// The first bytes are lost, and with them the parameter sets: another take of the shoot has them.
#[test]
fn lost_parameter_sets() {
    for kind in &KINDS {
        let (folder, take, places) = recorded(&format!("like-{}", kind.y4m), kind, 3);
        let other = KINDS.iter().find(|other| other.words != kind.words).unwrap();
        fs::write(folder.join("other.y4m"), other.y4m(1)).unwrap();
        assert_eq!(run(&folder, &["record", "other.y4m", "other.h264"]).status, 0);
        let other = fs::read(folder.join("other.h264")).unwrap();
        let first = places[0].0 - 4;
        for (name, damaged, refused) in [
            ("cut off", take[first..].to_vec(), 0),
            ("overwritten", [&vec![9; first], &take[first..]].concat(), 1),
            ("zeros", [&vec![0; first], &take[first..]].concat(), 0),
            ("of another size", [&other[..30], &take[first..]].concat(), 1),
        ] {
            fs::write(folder.join("bad.h264"), damaged).unwrap();
            let check = run(&folder, &["check", "bad.h264"]);
            assert_eq!(check.status, 1, "{name}: {}", check.text());
            if name != "of another size" {
                assert!(check.text().contains("has 3 pictures, but not both"), "{}", check.text());
            }
            fails_to_extract(&folder);
            let like = ["extract", "--like", "take.h264", "bad.h264", "out.y4m"];
            let ran = run(&folder, &like);
            assert_eq!(ran.status, if refused == 0 { 0 } else { 3 }, "{name}: {}", ran.said);
            let saved = fs::read(folder.join("out.y4m")).unwrap();
            assert!(kind.is_saved(&saved, &kind.pictures(3)), "{name}");
            fs::remove_file(folder.join("out.y4m")).unwrap();
            let list = run(&folder, &["list", "bad.h264", "--like", "take.h264"]);
            assert!(list.text().contains(&format!(": 3 pictures of {}\n", kind.words)));
        }
        let like = ["check", "take.h264", "--like", "in.y4m"];
        fails(&folder, &like, 1, "in.y4m has no parameter sets to go by");
    }
}

/// Nothing is saved from the bad take, and no file is left.
fn fails_to_extract(folder: &Path) {
    let ran = run(folder, &["extract", "bad.h264", "out.y4m"]);
    assert_eq!(ran.status, 1, "{}", ran.said);
    assert!(!folder.join("out.y4m").exists());
}

#[test]
fn no_takes() {
    let folder = folder("no-takes");
    fs::write(folder.join("empty"), []).unwrap();
    fs::write(folder.join("zeros"), [0; 9]).unwrap();
    fs::write(folder.join("text"), "Lorem ipsum dolor sit amet.").unwrap();
    fs::write(folder.join("sets"), [0, 0, 1, 0x68, 0xCE, 0x38, 0x80]).unwrap();
    for (name, part) in [
        ("empty", "empty is empty"),
        ("zeros", "zeros has no picture, only zeros"),
        ("text", "text has no picture that can be saved; 1 place refused, first at offset 0: "),
        ("sets", "sets has parameter sets, but no picture"),
    ] {
        let ran = run(&folder, &["extract", name, "out.y4m"]);
        assert_eq!(ran.status, 1, "{name}");
        assert!(ran.said.contains(&format!("reelpony: {part}")), "{name}: {}", ran.said);
        let check = run(&folder, &["check", name]);
        assert_eq!(check.status, 1, "{name}");
        assert!(check.text().starts_with(&format!("nothing: {part}")), "{}", check.text());
        assert_eq!(run(&folder, &["list", name]).status, 0, "{name}");
    }
    assert_eq!(names(&folder), ["empty", "sets", "text", "zeros"]);
}

#[test]
fn bad_y4m() {
    let folder = folder("bad-y4m");
    fs::write(folder.join("out.h264"), "was here").unwrap();
    let picture = [1; 6];
    let with = |header: &str, rest: &[u8]| {
        [header.as_bytes(), b" XCOLORRANGE=FULL\nFRAME\n", rest].concat()
    };
    for (part, bytes) in [
        ("in.y4m is empty, not a Y4M", vec![]),
        ("in.y4m is a RIFF file, not a Y4M", b"RIFF....".to_vec()),
        ("in.y4m is not a Y4M: it doesn't begin with a line YUV4MPEG2", vec![b'Y'; 1 << 20]),
        ("in.y4m is not a Y4M: it doesn't begin with a line YUV4MPEG2", b"YUV4MPEG22 W2\n".into()),
        ("first line has no width and height", with("YUV4MPEG2 H2", &picture)),
        ("first line has no width and height", with("YUV4MPEG2 W-2 H2", &picture)),
        ("first line has no width and height", with("YUV4MPEG2 W99999999999 H2", &picture)),
        ("kind \"422\", which no take can have", with("YUV4MPEG2 W2 H2 C422", &picture)),
        ("kind \"420p10\", which no take can have", with("YUV4MPEG2 W2 H2 C420p10", &picture)),
        ("must be from 1 to 16,384, and this is 0x2", with("YUV4MPEG2 W0 H2", &picture)),
        ("must be from 1 to 16,384, and this is 2x16385", with("YUV4MPEG2 W2 H16385", &picture)),
        ("can have an odd width, and this is 3x2", with("YUV4MPEG2 W3 H2", &picture)),
        ("can have an odd width, and this is 1x2", with("YUV4MPEG2 W1 H2 Cmono12", &picture)),
        ("needs an even height, and this is 2x3", with("YUV4MPEG2 W2 H3", &picture)),
        ("multiple of 4, and this is 6x2", with("YUV4MPEG2 W6 H2 C420p12", &picture)),
        ("in.y4m has no picture", b"YUV4MPEG2 W2 H2 XCOLORRANGE=FULL\n".to_vec()),
        ("in.y4m has no picture", b"YUV4MPEG2 W2 H2 XCOLORRANGE=FULL".to_vec()),
        ("picture 1 is not whole", with("YUV4MPEG2 W2 H2", &picture[1..])),
        ("picture 1 is not whole", with("YUV4MPEG2 W16384 H16384", &picture)),
        ("picture 1 has 4096 in Y at column 1, row 0;", {
            with("YUV4MPEG2 W2 H1 Cmono12", &[255, 15, 0, 16])
        }),
    ] {
        fs::write(folder.join("in.y4m"), &bytes).unwrap();
        fails(&folder, &["record", "in.y4m", "new.h264", "--quiet"], 1, part);
        let force = run(&folder, &["record", "in.y4m", "out.h264", "--force"]);
        assert!(force.status == 1 && force.said.contains(part), "{}", force.said);
        assert_eq!(fs::read(folder.join("out.h264")).unwrap(), b"was here");
        assert_eq!(names(&folder), ["in.y4m", "out.h264"]);
    }
}

#[test]
fn names_that_lead_nowhere() {
    let (folder, take, _) = recorded("nowhere", &KINDS[0], 2);
    for arguments in [
        &["record", "missing", "out"][..],
        &["extract", "missing", "out"],
        &["list", "missing"],
        &["check", "missing"],
    ] {
        fails(&folder, arguments, 1, "missing can't be read: ");
    }
    fails(&folder, &["list", "."], 1, ". is a folder, not a file");
    fails(&folder, &["record", "in.y4m", "none/out"], 1, "its folder isn't there");
    fails(&folder, &["extract", "take.h264", "none/out"], 1, "its folder isn't there");
    fails(&folder, &["extract", "take.h264", "."], 1, "it is a folder");
    fails(&folder, &["extract", "take.h264", "take.h264"], 1, "an input and the output at once");
    assert_eq!(fs::read(folder.join("take.h264")).unwrap(), take);
    fails(&folder, &["demo", "take.h264"], 1, "the folder take.h264 can't be made");
    if Path::new("/dev/full").exists() {
        fails(
            &folder,
            &["record", "in.y4m", "/dev/full", "--quiet"],
            1,
            "/dev/full can't be written: ",
        );
    }
    assert_eq!(names(&folder), ["in.y4m", "take.h264"]);
}

#[test]
fn wrong_usage() {
    let folder = folder("usage");
    for arguments in [
        &[][..],
        &["play"],
        &["record", "a"],
        &["record", "a", "b", "c"],
        &["list"],
        &["check", "a", "b"],
        &["list", "--all", "a"],
        &["extract", "a", "b", "--rate"],
        &["extract", "a", "b", "--rate", "25"],
        &["extract", "a", "b", "--rate", "0:1"],
        &["record", "a", "b", "--rate", "25:1"],
        &["check", "a", "--like"],
        &["demo", "a", "b"],
    ] {
        fails(&folder, arguments, 2, "; see: reelpony help");
    }
    let help = run(&folder, &["help"]);
    assert!(help.status == 0 && help.text().contains("reelpony record IN.y4m OUT.h264"));
    assert!(names(&folder).is_empty());
}

#[test]
fn demo() {
    let folder = folder("demo");
    let ran = run(&folder, &["demo"]);
    assert_eq!(ran.status, 0, "{}", ran.said);
    let rows = ran.text().lines().filter(|line| line.contains("-damaged "));
    let rows: Vec<&str> = rows.collect();
    assert_eq!(rows.len(), 4, "{}", ran.text());
    assert!(rows.iter().all(|row| row.contains(" 7 of 8 ") && row.contains(" 7 of 7 ")));
    let shown = folder.join("reelpony-demo");
    assert!(fs::read(shown.join("contact-sheet.png")).unwrap().starts_with(b"\x89PNG\r\n"));
    let check = run(&shown, &["check", "colour8-damaged.h264"]);
    assert_eq!(check.status, 3);
    assert_eq!(names(&shown).len(), 25);
    if has_ffmpeg() {
        let picture = ffmpeg(&shown, &["-i", "contact-sheet.png", "-f", "null", "-"]);
        assert!(picture.is_empty());
    }
}

/// Y4M as ffmpeg makes it; the take as ffmpeg decodes it; the Y4M made here as ffmpeg reads it.
#[test]
fn beside_ffmpeg() {
    if !has_ffmpeg() {
        return;
    }
    let folder = folder("ffmpeg");
    let pictures = |y4m: &[u8]| {
        let end = y4m.iter().position(|byte| *byte == b'\n').unwrap() + 1;
        y4m[end..].to_vec()
    };
    for (format, size) in [
        ("gray", "35x21"),
        ("gray12le", "34x21"),
        ("yuv420p", "34x22"),
        ("yuv420p12le", "36x22"),
        ("yuv420p", "640x360"),
    ] {
        let source = format!("testsrc2=size={size}:rate=25");
        let y4m = ["-f", "yuv4mpegpipe", "-strict", "-1"];
        let make = ["-f", "lavfi", "-i", &source, "-frames:v", "6", "-pix_fmt", format];
        let made = ffmpeg(&folder, &[&make[..], &y4m, &["-"]].concat());
        fs::write(folder.join("in.y4m"), &made).unwrap();
        let _ = fs::remove_file(folder.join("take.h264"));
        let _ = fs::remove_file(folder.join("out.y4m"));
        assert_eq!(run(&folder, &["record", "in.y4m", "take.h264"]).status, 0, "{format}");

        // Full range has a name of its own with 8 bits; to another one it would be converted.
        let full = if format == "yuv420p" { "yuvj420p" } else { format };
        let read = ["-f", "h264", "-i", "take.h264", "-pix_fmt", full];
        let decoded = ffmpeg(&folder, &[&read[..], &y4m, &["-"]].concat());
        assert!(pictures(&decoded) == pictures(&made), "{format}, decoded by ffmpeg");

        assert_eq!(run(&folder, &["extract", "take.h264", "out.y4m"]).status, 0, "{format}");
        let out = fs::read(folder.join("out.y4m")).unwrap();
        assert!(pictures(&out) == pictures(&made), "{format}, extracted");
        let read = ["-i", "out.y4m"];
        let read = ffmpeg(&folder, &[&read[..], &y4m, &["-"]].concat());
        assert!(pictures(&read) == pictures(&made), "{format}, extracted and read by ffmpeg");
    }
}
