//! The oracle: a program that answers with what the crate less-avc does. Its README has the
//! protocol and the table that [`told`] follows.

use std::io::{self, BufRead, BufReader, Write};
use std::path::Path;
use std::process::{Child, ChildStdin, ChildStdout, Command, Stdio};

use crate::call::{Call, Plane};
use crate::plain::{self, Fault};

/// What the crate answered.
pub enum Answer {
    Bytes(Vec<u8>),
    /// Its error, as the refusal that means the same.
    Refused(u32),
    Panic,
    /// An answer that is none of these.
    Odd(String),
}

impl Answer {
    /// By the README's table: the error's name, and for one name its text.
    fn of(line: &str) -> Answer {
        let refusal = match line {
            _ if line.contains("UnsupportedImageSize") => 5,
            _ if line.contains("width must be divisible by 4") => 3,
            _ if line.contains("width must be divisible by 2") => 4,
            _ if line.contains("stride too small") => 7,
            _ if line.contains("number of rows too small") => 8,
            _ => 0,
        };
        match line.split_once(' ') {
            Some(("ok", hex)) => from_hex(hex).map_or(Answer::Odd(line.into()), Answer::Bytes),
            Some(("err", _)) if refusal != 0 => Answer::Refused(refusal),
            None if line == "panic" => Answer::Panic,
            _ => Answer::Odd(line.into()),
        }
    }

    /// The answer for a person, without its bytes.
    pub fn name(&self) -> String {
        match self {
            Answer::Bytes(bytes) => format!("{} bytes", bytes.len()),
            Answer::Refused(number) => format!("an error that means refusal {number}"),
            Answer::Panic => "a panic".into(),
            Answer::Odd(line) => format!("{line:?}"),
        }
    }
}

/// What the crate has to answer.
#[derive(Clone, Copy)]
pub enum Told {
    /// The call's bytes.
    Bytes,
    /// An error that means this refusal.
    Refused(u32),
    /// It has no test and goes on, to a panic or to bytes that mean nothing, where it is known which.
    Astray { panic: Option<bool> },
}

/// By the README: a start call tests 3 to 5, both calls test 7 and 8, nothing tests 1, 2 and 6, and
/// a partial last row passes for a row. The first fault that the crate sees gives its answer.
pub fn told(call: &Call, faults: &[Fault]) -> Told {
    let is_seen = |fault: &&Fault| match fault.number {
        3..=5 => !call.next,
        7 => true,
        8 => !fault.partial_row,
        _ => false,
    };
    if let Some(fault) = faults.iter().find(is_seen) {
        return Told::Refused(fault.number);
    }
    let [_, cb, cr] = &call.planes;
    let mixed_chroma = call.colour == 1 && cb.depth != cr.depth;
    let size_0 = call.width == 0 || call.height == 0;
    let partial_row = faults.iter().any(|fault| fault.number == 8);
    match faults.first() {
        None => Told::Bytes,
        Some(fault) if call.next && fault.number <= 6 => Told::Astray { panic: None },
        Some(_) => Told::Astray { panic: Some(size_0 || mixed_chroma || partial_row) },
    }
}

impl Told {
    /// The same for a person.
    pub fn name(&self) -> String {
        match self {
            Told::Bytes => "the plain writer's bytes".into(),
            Told::Refused(number) => format!("an error that means refusal {number}"),
            Told::Astray { panic: None } => "bytes or a panic".into(),
            Told::Astray { panic: Some(true) } => "a panic".into(),
            Told::Astray { panic: Some(false) } => "bytes".into(),
        }
    }

    /// Whether an answer is the one, `bytes` being those of an accepted call.
    pub fn fits(&self, answer: &Answer, bytes: &[u8]) -> bool {
        match (*self, answer) {
            (Told::Bytes, Answer::Bytes(found)) => found == bytes,
            (Told::Refused(number), Answer::Refused(found)) => *found == number,
            (Told::Astray { panic }, Answer::Bytes(_)) => panic != Some(true),
            (Told::Astray { panic }, Answer::Panic) => panic != Some(false),
            _ => false,
        }
    }
}

/// The running program.
pub struct Oracle {
    child: Child,
    requests: Option<ChildStdin>,
    answers: BufReader<ChildStdout>,
    /// The session that the crate is in, where it is one of ours.
    session: Option<[u32; 8]>,
}

impl Oracle {
    pub fn new(program: &Path) -> io::Result<Oracle> {
        let mut child =
            Command::new(program).stdin(Stdio::piped()).stdout(Stdio::piped()).spawn()?;
        let requests = child.stdin.take();
        let answers = BufReader::new(child.stdout.take().expect("a pipe was asked for"));
        Ok(Oracle { child, requests, answers, session: None })
    }

    /// Whether the crate can be asked: a kind that exists, sizes and planes within its 32-bit
    /// numbers, no division by a stride of 0 (which passes as a row's bytes where a plane's width
    /// is 0), and for a next call a session that an accepted call can leave.
    pub fn knows(call: &Call, faults: &[Fault]) -> bool {
        let in_range = |plane: &Plane| {
            let length = plane.bytes.len() as u64;
            length.saturating_add(plane.stride as u64) < 1 << 32
        };
        let divides = |plane: &Plane| plane.stride > 0 || call.width > 1;
        faults.iter().all(|fault| fault.number != 99)
            && call.width.max(call.height) <= 1 << 16
            && call.seen().iter().all(in_range)
            && call.seen().iter().all(divides)
            && (!call.next || plain::is_left(&call.session))
    }

    /// What the crate does with the call, in the call's session.
    pub fn answer(&mut self, call: &Call, faults: &[Fault]) -> io::Result<Answer> {
        if call.next && self.session != Some(call.session) {
            let answer = self.ask(&first_picture(&call.session).request())?;
            if !answer.starts_with("ok ") {
                return Err(io::Error::other(format!("no session {:?}: {answer}", call.session)));
            }
            self.session = Some(call.session);
        }
        let answer = Answer::of(&self.ask(&call.request())?);
        if !call.next && matches!(answer, Answer::Bytes(_)) {
            self.session = faults.is_empty().then(|| plain::session(call));
        }
        Ok(answer)
    }

    /// One request, one answer.
    fn ask(&mut self, request: &str) -> io::Result<String> {
        let requests = self.requests.as_mut().expect("open until dropped");
        requests.write_all(request.as_bytes())?;
        requests.write_all(b"\n")?;
        requests.flush()?;
        let mut line = String::new();
        if self.answers.read_line(&mut line)? == 0 {
            return Err(io::Error::other("the oracle ended without an answer"));
        }
        Ok(line.trim_end().into())
    }
}

/// Closes its input, which ends it.
impl Drop for Oracle {
    fn drop(&mut self) {
        self.requests = None;
        let _ = self.child.wait();
    }
}

/// A start call that leaves the session; its planes are tight.
fn first_picture(session: &[u32; 8]) -> Call {
    let [width, height, colour, depth, ..] = *session;
    let plane = |part: u32, side: u32| {
        let padded = |size: u32| (size / part).next_multiple_of(side) as usize;
        let stride = padded(width) * depth as usize / 8;
        let bytes = vec![1; stride * padded(height)];
        Plane { bytes, stride, depth }
    };
    Call {
        next: false,
        width,
        height,
        colour,
        planes: [plane(1, 16), plane(2, 8), plane(2, 8)],
        session: [0; 8],
    }
}

/// The bytes of pairs of hex digits; `-` is none.
fn from_hex(hex: &str) -> Option<Vec<u8>> {
    if hex == "-" {
        return Some(Vec::new());
    }
    let pairs = hex.as_bytes().chunks(2);
    let byte = |pair: &[u8]| {
        let [high, low] = *pair else { return None };
        let digit = |c: u8| char::from(c).to_digit(16);
        Some((digit(high)? << 4 | digit(low)?) as u8)
    };
    pairs.map(byte).collect()
}
