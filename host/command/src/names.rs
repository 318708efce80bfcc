//! How names are shown: whatever bytes a file's name or an argument has, what stands in a message
//! can't drive a terminal, begin a line or hide the rest of one.

use std::ffi::OsStr;
use std::fmt;
use std::os::unix::ffi::OsStrExt;
use std::path::Path;

/// A longer name is cut in its middle.
const LONGEST: usize = 200;

/// What a file is called in messages.
#[derive(Clone)]
pub struct Name(String);

impl fmt::Display for Name {
    fn fmt(&self, f: &mut fmt::Formatter) -> fmt::Result {
        f.write_str(&self.0)
    }
}

impl Name {
    /// A path's name; `standard` where the path means standard input or output.
    pub fn of(path: &Path, standard: &str) -> Name {
        match path.as_os_str().as_bytes() {
            b"-" => Name(standard.into()),
            b"" => Name("\"\"".into()),
            _ => Name(shown(path)),
        }
    }
}

/// Foreign words as they may stand in a message. Control characters, marks that turn or hide text,
/// and bytes that are no UTF-8 are shown as `\xNN` or `\u{..}`, a backslash as two.
pub fn shown(words: impl AsRef<OsStr>) -> String {
    let mut pieces: Vec<String> = Vec::new();
    for chunk in words.as_ref().as_bytes().utf8_chunks() {
        pieces.extend(chunk.valid().chars().map(piece));
        pieces.extend(chunk.invalid().iter().map(|byte| format!("\\x{byte:02x}")));
    }
    let lengths = || pieces.iter().map(|piece| piece.chars().count());
    if lengths().sum::<usize>() <= LONGEST {
        return pieces.concat();
    }
    // How many pieces of an end are shown: as many as have half of the room.
    let half = |lengths: &mut dyn Iterator<Item = usize>| {
        let ends = lengths.scan(0, |end, length| {
            *end += length;
            Some(*end)
        });
        ends.take_while(|end| *end <= LONGEST / 2).count()
    };
    let front = half(&mut lengths());
    let back = pieces.len() - half(&mut lengths().rev());
    format!("{}…{}", pieces[..front].concat(), pieces[back..].concat())
}

/// A character as it is shown.
fn piece(character: char) -> String {
    let number = u32::from(character);
    match character {
        '\\' => "\\\\".into(),
        _ if number < 0x80 && character.is_control() => format!("\\x{number:02x}"),
        _ if character.is_control() || is_mark(character) => format!("\\u{{{number:x}}}"),
        _ => character.into(),
    }
}

/// Characters that are not seen and change how others are: ends of lines and paragraphs, the
/// direction of writing, joins and tags.
fn is_mark(character: char) -> bool {
    matches!(character,
        '\u{ad}' | '\u{61c}' | '\u{180e}' | '\u{200b}'..='\u{200f}' | '\u{2028}'..='\u{202e}'
        | '\u{2060}'..='\u{206f}' | '\u{feff}' | '\u{fff9}'..='\u{fffb}'
        | '\u{e0000}'..='\u{e007f}')
}

#[cfg(test)]
mod tests {
    use super::*;

    #[test]
    fn bytes_of_all_kinds() {
        for (bytes, wanted) in [
            (&b"take.h264"[..], "take.h264"),
            ("schön 日本.y4m".as_bytes(), "schön 日本.y4m"),
            (b"a\nreelpony: b", "a\\x0areelpony: b"),
            (b"\x1b[2J\x07\x7f", "\\x1b[2J\\x07\\x7f"),
            (b"a\\x0a", "a\\\\x0a"),
            (b"\xff\xc3(\xe2\x82", "\\xff\\xc3(\\xe2\\x82"),
            ("a\u{9b}2J\u{202e}b\u{2028}".as_bytes(), "a\\u{9b}2J\\u{202e}b\\u{2028}"),
        ] {
            assert_eq!(shown(OsStr::from_bytes(bytes)), wanted);
        }
        assert_eq!(Name::of(Path::new("-"), "standard input").to_string(), "standard input");
        assert_eq!(Name::of(Path::new(""), "standard input").to_string(), "\"\"");
    }

    /// Up to 200 characters are shown as they are; of more, 100 of either end, no escape cut.
    #[test]
    fn long_names() {
        let long = format!("{}{}", "a".repeat(100), "b".repeat(100));
        assert_eq!(shown(&long), long);
        let cut = format!("{}…{}", "a".repeat(100), "b".repeat(100));
        assert_eq!(shown(format!("{}{}", "a".repeat(101), "b".repeat(4000))), cut);
        let escapes = shown(OsStr::from_bytes(&[255; 300]));
        assert_eq!(escapes, format!("{0}…{0}", "\\xff".repeat(25)));
        let escapes = shown(OsStr::from_bytes(&[&[b'a'; 3][..], &[255; 300]].concat()));
        assert_eq!(escapes, format!("aaa{}…{}", "\\xff".repeat(24), "\\xff".repeat(25)));
    }
}
