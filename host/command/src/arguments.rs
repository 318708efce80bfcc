//! The command line: a verb, its files and its options. `--name value` and `--name=value` are the
//! same, and behind `--` everything is a file.

use std::ffi::{OsStr, OsString};
use std::os::unix::ffi::OsStrExt;
use std::path::Path;

use reelpony::reader::Sps;

use crate::error::{Error, Result};
use crate::files::Replace;
use crate::names::shown;
use crate::y4m;

/// A verb, what its files are, and its options; each with what its value is, if it has one.
pub struct Verb {
    pub name: &'static str,
    files: &'static str,
    /// The least and the most files.
    count: (usize, usize),
    options: &'static [(&'static str, Option<&'static str>)],
    pub help: &'static str,
}

const LOOKING: [(&str, Option<&str>); 3] =
    [("--like", Some("a take")), ("--size", Some("a size and a kind")), ("--strict", None)];

pub const VERBS: [Verb; 5] = [
    Verb {
        name: "record",
        files: "two files, from and to",
        count: (2, 2),
        options: &[
            ("--force", None),
            ("--in-place", None),
            ("--sets-every", Some("a number of pictures")),
            ("--quiet", None),
        ],
        help: crate::help::RECORD,
    },
    Verb {
        name: "list",
        files: "one take",
        count: (1, 1),
        options: &[LOOKING[0], LOOKING[1], LOOKING[2], ("--json", None)],
        help: crate::help::LIST,
    },
    Verb {
        name: "check",
        files: "one take",
        count: (1, 1),
        options: &[LOOKING[0], LOOKING[1], LOOKING[2], ("--json", None)],
        help: crate::help::CHECK,
    },
    Verb {
        name: "extract",
        files: "two files, from and to",
        count: (2, 2),
        options: &[
            LOOKING[0],
            LOOKING[1],
            LOOKING[2],
            ("--rate", Some("a rate")),
            ("--part", Some("a number")),
            ("--force", None),
            ("--in-place", None),
        ],
        help: crate::help::EXTRACT,
    },
    Verb {
        name: "demo",
        files: "one folder at most",
        count: (0, 1),
        options: &[],
        help: crate::help::DEMO,
    },
];

/// What stands behind a verb.
pub struct Arguments<'a> {
    verb: &'static Verb,
    pub files: Vec<&'a Path>,
    /// The options that were given, with their values.
    options: Vec<(&'static str, &'a OsStr)>,
    /// Whether its help is asked for, which goes before everything else.
    pub help: bool,
}

/// The verb of a name.
pub fn verb(name: &OsStr) -> Result<&'static Verb> {
    let verb = VERBS.iter().find(|verb| name == verb.name);
    verb.ok_or_else(|| Error::Usage(format!("there is no command \"{}\"", shown(name))))
}

impl<'a> Arguments<'a> {
    /// Reads what stands behind a verb. What the values say is looked at when they are asked for.
    pub fn read(verb: &'static Verb, arguments: &'a [OsString]) -> Result<Arguments<'a>> {
        let mut read = Arguments { verb, files: Vec::new(), options: Vec::new(), help: false };
        let mut rest = arguments.iter();
        while let Some(argument) = rest.next() {
            let bytes = argument.as_bytes();
            if bytes == b"--" {
                read.files.extend(rest.by_ref().map(Path::new));
            } else if matches!(bytes, b"--help" | b"-h") {
                read.help = true;
                return Ok(read);
            } else if bytes.starts_with(b"-") && bytes != b"-" {
                read.option(argument, &mut rest)?;
            } else {
                read.files.push(Path::new(argument));
            }
        }
        let (least, most) = verb.count;
        if read.files.len() < least || read.files.len() > most {
            return Err(Error::Usage(format!("{} needs {}", verb.name, verb.files)));
        }
        Ok(read)
    }

    /// Reads an option and its value, which stands in the same argument or is the next one.
    fn option(
        &mut self,
        argument: &'a OsStr,
        rest: &mut impl Iterator<Item = &'a OsString>,
    ) -> Result<()> {
        let bytes = argument.as_bytes();
        let (name, joined) = match bytes.iter().position(|byte| *byte == b'=') {
            Some(at) => (&bytes[..at], Some(OsStr::from_bytes(&bytes[at + 1..]))),
            None => (bytes, None),
        };
        let known = self.verb.options.iter().find(|(known, _)| known.as_bytes() == name);
        let Some((name, needs)) = known else {
            let name = shown(OsStr::from_bytes(name));
            return Err(Error::Usage(format!("{} has no option {name}", self.verb.name)));
        };
        let value = match (needs, joined) {
            (None, None) => OsStr::new(""),
            (None, Some(_)) => return Err(Error::Usage(format!("{name} takes no value"))),
            (Some(_), Some(value)) => value,
            (Some(needs), None) => {
                let next = rest.next().map(OsString::as_os_str);
                next.ok_or_else(|| Error::Usage(format!("{name} needs {needs}")))?
            }
        };
        if needs.is_some() && self.value(name).is_some() {
            return Err(Error::Usage(format!("{name} is given twice")));
        }
        self.options.push((name, value));
        Ok(())
    }

    fn value(&self, name: &str) -> Option<&'a OsStr> {
        self.options.iter().find(|(given, _)| *given == name).map(|(_, value)| *value)
    }

    pub fn is_given(&self, name: &str) -> bool {
        self.value(name).is_some()
    }

    /// What happens to a result that is there.
    pub fn replace(&self) -> Result<Replace> {
        match (self.is_given("--force"), self.is_given("--in-place")) {
            (false, false) => Ok(Replace::Never),
            (true, false) => Ok(Replace::Force),
            (false, true) => Ok(Replace::InPlace),
            (true, true) => {
                Err(Error::Usage("--force and --in-place are two ways; give one of them".into()))
            }
        }
    }

    /// A number from 1 on.
    pub fn number(&self, name: &str) -> Result<Option<u64>> {
        let Some(value) = self.value(name) else { return Ok(None) };
        match value.to_str().and_then(number) {
            Some(number) => Ok(Some(number)),
            None => Err(Error::Usage(format!(
                "{name} needs a whole number from 1 on, and \"{}\" is none",
                shown(value)
            ))),
        }
    }

    /// Pictures a second, as a Y4M has them.
    pub fn rate(&self) -> Result<Option<&'a str>> {
        let Some(value) = self.value("--rate") else { return Ok(None) };
        let rate = value.to_str().filter(|text| is_rate(text));
        let wrong = || {
            let text = "--rate needs two whole numbers like 30000:1001, and";
            Error::Usage(format!("{text} \"{}\" is not that", shown(value)))
        };
        rate.map(Some).ok_or_else(wrong)
    }

    /// The take by whose parameter sets another one is read, and the size and kind that it has
    /// otherwise.
    pub fn like_or_size(&self) -> Result<(Option<&'a Path>, Option<Sps>)> {
        let like = self.value("--like").map(Path::new);
        let Some(value) = self.value("--size") else { return Ok((like, None)) };
        if like.is_some() {
            return Err(Error::Usage("--like and --size say the same; give one of them".into()));
        }
        let size = value.to_str().map_or_else(|| y4m::shape_of(""), y4m::shape_of);
        let wrong = |text| Error::Usage(format!("--size {}: {text}", shown(value)));
        Ok((None, Some(size.map_err(wrong)?)))
    }
}

/// A number from 1 on, in digits alone.
fn number(text: &str) -> Option<u64> {
    let digits = text.bytes().all(|byte| byte.is_ascii_digit());
    text.parse().ok().filter(|number| digits && *number > 0)
}

/// Two numbers from 1 on, with a colon between.
fn is_rate(text: &str) -> bool {
    let is_part = |text| number(text).is_some_and(|number| number <= u32::MAX.into());
    text.split_once(':').is_some_and(|(pictures, seconds)| is_part(pictures) && is_part(seconds))
}
