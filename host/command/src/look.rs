//! A take looked through with a second look at what the reader refuses.
//!
//! The proved reader decides every picture, here too: where it refuses bytes, it is shown other
//! stretches of them, or the same with one byte of a border put right, and what it takes then is
//! handed out with a mark that says what was assumed. Nothing that the reader takes at once is
//! looked at again, but for a size: where a file goes on with the parameter sets and pictures of
//! another size, those are another take's.

use std::collections::VecDeque;
use std::io;

use reelpony::reader::{PlanesMut, Sps};
use reelpony::window::{zeros, Found, What};
use reelpony::{Refusal, Window};

use crate::fit::{fit, foreign, framed, show, Fit, PICTURE, SLICE_HEADER};
use crate::sets::{self, Origin};
use crate::tap::Tap;
use crate::y4m;

/// Bytes before a picture, and at a file's front, in which lost parameter sets are sought.
const NEAR: u64 = 1 << 12;
/// Bytes of a stretch that are sought through at a time, at least; and a player's unit, at most.
const STEP: u64 = 1 << 20;
/// Bytes of a pipe that are kept, at most.
const LARGEST: usize = 1 << 30;
/// Refused pictures for which parameter sets are sought.
const TRIES: u32 = 20;
/// Units kept back until a picture tells whose they are.
const KEPT_BACK: usize = 16;

const ASSUMED_PPS: &str = "the picture parameter set is assumed";

/// A thing in a take.
#[derive(Clone, Debug, PartialEq, Eq)]
pub struct Thing {
    /// Where its bytes begin in the file.
    pub offset: u64,
    pub length: u64,
    pub seen: Seen,
}

#[derive(Clone, Debug, PartialEq, Eq)]
pub enum Seen {
    Sps(Sps),
    Pps,
    /// A picture. Where a second look found it, what was assumed.
    Picture(Option<String>),
    /// A unit that players put between pictures.
    Foreign(&'static str),
    /// Another take's parameter set, of another size or kind: from here on it is that take.
    Another(Sps),
    /// Parameter sets that are assumed from here on, and how, in words.
    Assumed(Sps, String),
    Refused(Refusal),
    /// Bytes beside a picture that a second look found in a stretch that was refused.
    Rest(Refusal),
}

/// A refused stretch of which not all was looked through.
struct Stretch {
    /// Where its bytes begin, behind the start code if it has one.
    from: u64,
    to: u64,
    /// How many there are without zeros at the end.
    length: u64,
    /// Whether a start code stands before it.
    unit: bool,
    refusal: Refusal,
    /// Behind the last picture found in it, and from where on the next is sought.
    rest: u64,
    at: u64,
}

/// A sequence parameter set unlike the one held.
struct Other {
    offset: u64,
    sps: Sps,
    /// Whether it differs from the one held in one byte alone.
    alike: bool,
}

pub struct Look {
    window: Window<Tap>,
    strict: bool,
    keeps_samples: bool,
    /// Whether the user named the size and kind.
    given: bool,
    /// How the sequence parameter set came to be, in words, and whether the picture parameter set was
    /// not read either.
    assumed_sps: Option<String>,
    assumed_pps: bool,
    /// Pictures that the reader took with these sets.
    taken: u64,
    tries: u32,
    /// The unit of the sequence parameter set that was read.
    sps_unit: Vec<u8>,
    other: Option<Other>,
    /// Why pictures are doubtful though the reader takes them.
    doubt: Option<String>,
    ready: VecDeque<Thing>,
    kept_back: VecDeque<Thing>,
    stretch: Option<Stretch>,
    /// Sets found in the file that fit no picture yet, and sizes that fit one equally well.
    candidates: Option<Vec<(Origin, Sps)>>,
    ambiguous: Vec<Sps>,
    /// The planes of a second look's picture, and whether the last picture is one.
    planes: [Vec<u8>; 3],
    from_planes: bool,
}

impl Look {
    /// Looks through a take; with `strict` no second time.
    pub fn new(tap: Tap, keeps_samples: bool, strict: bool) -> Look {
        let window = if keeps_samples { Window::with_samples(tap) } else { Window::new(tap) };
        Look {
            window,
            strict,
            keeps_samples,
            given: false,
            assumed_sps: None,
            assumed_pps: false,
            taken: 0,
            tries: 0,
            sps_unit: Vec::new(),
            other: None,
            doubt: None,
            ready: VecDeque::new(),
            kept_back: VecDeque::new(),
            stretch: None,
            candidates: None,
            ambiguous: Vec::new(),
            planes: Default::default(),
            from_planes: false,
        }
    }

    /// Goes by this size and kind from the take's begin on.
    pub fn hold(&mut self, sps: Sps) -> io::Result<()> {
        self.given = true;
        self.keep_enough(&sps);
        self.window.hold(sps)
    }

    pub fn sps(&self) -> Option<Sps> {
        self.window.sps()
    }

    /// Up to where everything was looked at.
    pub fn offset(&self) -> u64 {
        self.window.offset()
    }

    /// The last picture's planes.
    pub fn planes(&self) -> &[Vec<u8>; 3] {
        if self.from_planes {
            &self.planes
        } else {
            self.window.planes()
        }
    }

    /// Sizes one of which the take has, where they could not be told apart.
    pub fn ambiguous(&self) -> &[Sps] {
        &self.ambiguous
    }

    /// The first bytes of the file.
    pub fn front(&self) -> Vec<u8> {
        self.bytes(0, NEAR).ok().flatten().unwrap_or_default()
    }

    /// The next thing. None at the end.
    pub fn next(&mut self) -> io::Result<Option<Thing>> {
        loop {
            if let Some(thing) = self.ready.pop_front() {
                return Ok(Some(thing));
            }
            if let Some(stretch) = self.stretch.take() {
                self.look_on(stretch)?;
                continue;
            }
            self.from_planes = false;
            let Some(found) = self.window.next()? else {
                self.ready.append(&mut self.kept_back);
                match self.ready.is_empty() {
                    true => return Ok(None),
                    false => continue,
                }
            };
            self.sort(found)?;
        }
    }

    /// Decides what is told of something that was found, and in which order.
    fn sort(&mut self, found: Found) -> io::Result<()> {
        let Found { offset, length, what } = found;
        let thing = |seen| Thing { offset, length, seen };
        match what {
            What::Sps(sps) => {
                (self.doubt, self.assumed_sps) = (None, None);
                self.sps_unit = self.unit(offset, length)?;
                self.keep_enough(&sps);
                self.tell(thing(Seen::Sps(sps)));
            }
            What::Pps => {
                self.assumed_pps = false;
                self.tell(thing(Seen::Pps));
            }
            What::Picture if self.strict => self.tell(thing(Seen::Picture(None))),
            What::Picture => self.picture(offset, length)?,
            What::Refused(refusal) if self.strict => self.tell(thing(Seen::Refused(refusal))),
            What::Refused(refusal) => self.refused(thing(Seen::Refused(refusal)), refusal)?,
            // Nothing else is of a take.
            _ => {}
        }
        Ok(())
    }

    /// Tells a thing, or keeps it back with a set unlike the one held.
    fn tell(&mut self, thing: Thing) {
        match self.kept_back.is_empty() || self.kept_back.len() == KEPT_BACK {
            true => {
                self.ready.append(&mut self.kept_back);
                self.ready.push_back(thing);
            }
            false => self.kept_back.push_back(thing),
        }
    }

    /// Tells it behind all that was kept back.
    fn tell_all(&mut self, thing: Thing) {
        self.ready.append(&mut self.kept_back);
        self.ready.push_back(thing);
    }

    /// A picture that the reader took. Behind the set of another size it may be that take's.
    fn picture(&mut self, offset: u64, length: u64) -> io::Result<()> {
        self.taken += 1;
        if let Some(other) = self.other.take() {
            let unit = self.unit_of(&other.sps, offset, length)?;
            if self.show(&unit, other.sps)? {
                match other.alike {
                    // Rather a damaged set than another take's.
                    true => {
                        let words = y4m::words(&other.sps);
                        self.doubt = Some(format!("a set before it says {words}"));
                        self.from_planes = false;
                    }
                    false => {
                        self.go_over(other)?;
                        self.tell_all(Thing { offset, length, seen: Seen::Picture(None) });
                        return Ok(());
                    }
                }
            }
        }
        let mark = self.mark(None);
        self.tell_all(Thing { offset, length, seen: Seen::Picture(mark) });
        Ok(())
    }

    /// What is said of a picture beside what its own bytes need.
    fn mark(&self, own: Option<String>) -> Option<String> {
        let pps = self.assumed_pps.then(|| ASSUMED_PPS.into());
        let all = [own, self.assumed_sps.clone(), pps, self.doubt.clone()];
        let all: Vec<String> = all.into_iter().flatten().collect();
        (!all.is_empty()).then(|| all.join("; "))
    }

    /// Something that the reader refused.
    fn refused(&mut self, thing: Thing, refusal: Refusal) -> io::Result<()> {
        let Thing { offset, length, .. } = thing;
        let to = self.window.offset();
        match refusal {
            Refusal::Header if length <= STEP => {
                let unit = self.unit(offset, length)?;
                if let Some(name) = foreign(&unit) {
                    self.tell(Thing { offset, length, seen: Seen::Foreign(name) });
                    return Ok(());
                }
            }
            Refusal::OtherThanHeld => {
                let unit = self.unit(offset, length)?;
                if let Some(sps) = sets::told(&unit) {
                    let pairs = unit.iter().zip(&self.sps_unit);
                    let alike = unit.len() == self.sps_unit.len()
                        && pairs.filter(|(byte, other)| byte != other).count() <= 1;
                    self.ready.append(&mut self.kept_back);
                    self.other = Some(Other { offset, sps, alike });
                    self.kept_back.push_back(thing);
                    return Ok(());
                }
            }
            Refusal::NothingHeld if self.assume(offset, length)? => {
                let mark = self.mark(None);
                self.tell_all(Thing { offset, length, seen: Seen::Picture(mark) });
                return Ok(());
            }
            _ => {}
        }
        if let Some(other) = self.other.take() {
            let unit = self.unit_of(&other.sps, offset, length)?;
            if self.show(&unit, other.sps)? {
                self.go_over(other)?;
                self.tell_all(Thing { offset, length, seen: Seen::Picture(None) });
                return Ok(());
            }
            self.other = Some(other);
        }
        if self.window.sps().is_none() {
            self.tell(thing);
            return Ok(());
        }
        self.ready.append(&mut self.kept_back);
        let unit = refusal != Refusal::Stray;
        let (rest, at) = (offset, offset);
        self.stretch = Some(Stretch { from: offset, to, length, unit, refusal, rest, at });
        Ok(())
    }

    /// Goes on in a stretch: to the next picture in it, or to its end.
    fn look_on(&mut self, mut stretch: Stretch) -> io::Result<()> {
        let Some(sps) = self.window.sps() else { return Ok(()) };
        let longest = sps.room() as u64;
        let step = STEP.max(longest);
        while stretch.at < stretch.to {
            let end = stretch.to.min(stretch.at + step + longest);
            let Some(bytes) = self.bytes(stretch.at, end)? else { break };
            let all = end == stretch.to;
            let last = if all { bytes.len() } else { step as usize };
            if let Some((at, own, words)) = self.seek(&bytes, last, &stretch, sps)? {
                let offset = stretch.at + at as u64;
                self.rest_of(&stretch, offset)?;
                if !self.window.has_pps() {
                    self.hold_assumed(sps, None, offset)?;
                }
                let mark = self.mark(Some(words));
                let length = own as u64;
                self.ready.push_back(Thing { offset, length, seen: Seen::Picture(mark) });
                stretch.at = offset + length;
                stretch.rest = stretch.at;
                self.stretch = Some(stretch);
                return Ok(());
            }
            stretch.at += last as u64;
        }
        if stretch.unit && stretch.rest == stretch.from && self.taken == 0 {
            let (offset, length) = (stretch.from, stretch.length);
            if self.assume(offset, length)? {
                let mark = self.mark(None);
                self.ready.push_back(Thing { offset, length, seen: Seen::Picture(mark) });
                return Ok(());
            }
        }
        self.rest_of(&stretch, stretch.to)
    }

    /// The next picture in bytes of a stretch that begins before an index: where it begins, how many
    /// bytes are its own, and what was assumed, in words.
    fn seek(
        &mut self,
        bytes: &[u8],
        last: usize,
        stretch: &Stretch,
        sps: Sps,
    ) -> io::Result<Option<(usize, usize, String)>> {
        if let (true, true, Some((&header, payload))) =
            (stretch.unit, stretch.at == stretch.from, bytes.split_first())
        {
            if let Some(found) = self.fit(payload, sps, header == PICTURE)? {
                let words =
                    words(&found, (header != PICTURE).then_some("its header byte is wrong"));
                let behind = "bytes behind it are not its own".to_string();
                let words = if words.is_empty() { behind } else { words };
                return Ok(Some((0, 1 + found.length, words)));
            }
        }
        let mut from = 0;
        while let Some(at) = find(&bytes[from..], &SLICE_HEADER).map(|at| from + at) {
            if at >= last {
                break;
            }
            if let Some(found) = self.fit(&bytes[at..], sps, false)? {
                // Its header byte is its own, if it is there.
                let header = usize::from(bytes[..at].last() == Some(&PICTURE));
                let words = words(&found, Some("its start code is damaged"));
                return Ok(Some((at - header, header + found.length, words)));
            }
            from = at + 1;
        }
        Ok(None)
    }

    /// Tells what is left of a stretch before an offset, if it isn't all zero.
    fn rest_of(&mut self, stretch: &Stretch, to: u64) -> io::Result<()> {
        let from = stretch.rest;
        // Zeros at the end are few, or belong to nothing.
        let begin = from.max(to.saturating_sub(STEP));
        let end = match self.bytes(begin, to)? {
            Some(bytes) => begin + trimmed(&bytes) as u64,
            None => to,
        };
        // Of a stretch in which nothing was found all is told as the reader does.
        let nothing_found = from == stretch.from && to == stretch.to;
        if end > from || nothing_found {
            let seen = match nothing_found {
                true => Seen::Refused(stretch.refusal),
                false => Seen::Rest(stretch.refusal),
            };
            self.ready.push_back(Thing { offset: from, length: end - from, seen });
        }
        Ok(())
    }

    /// Looks for parameter sets with which a unit is a picture, and goes by them from here on.
    fn assume(&mut self, offset: u64, length: u64) -> io::Result<bool> {
        if let (Some(sps), false) = (self.window.sps(), self.window.has_pps()) {
            let unit = self.unit_of(&sps, offset, length)?;
            if self.show(&unit, sps)? {
                self.hold_assumed(sps, None, offset)?;
                return Ok(true);
            }
        }
        if self.given || self.tries == TRIES {
            return Ok(false);
        }
        self.tries += 1;
        if self.candidates.is_none() {
            let front = self.bytes(0, offset.min(NEAR))?.unwrap_or_default();
            let mut all = sets::in_bytes(&front);
            let near = self.bytes(offset.saturating_sub(NEAR), offset)?.unwrap_or_default();
            all.extend(sets::in_bytes(&near));
            all.extend(sets::later(self.window.source(), offset)?);
            all.sort_by_key(|(origin, _)| *origin);
            self.candidates = Some(all);
        }
        let largest = self.candidates.iter().flatten().max_by_key(|(_, sps)| sps.room());
        let Some((_, largest)) = largest.copied() else { return Ok(false) };
        let unit = self.unit_of(&largest, offset, length)?;
        let unit = &unit[..];
        let mut fitting: Vec<(Origin, Sps)> = Vec::new();
        for (origin, sps) in self.candidates.iter().flatten() {
            let known = fitting.iter().any(|(_, other)| other == sps);
            let surer = fitting.first().is_none_or(|(first, _)| origin == first);
            if !known && surer && show(&framed(unit), *sps, None) {
                fitting.push((*origin, *sps));
            }
        }
        match fitting[..] {
            [] => Ok(false),
            [(origin, sps)] => {
                let size = y4m::words(&sps);
                let words = format!("by the sequence parameter set {}, {size}", origin.words());
                self.hold_assumed(sps, Some(words), offset)?;
                self.show(unit, sps)
            }
            _ => {
                self.ambiguous = fitting.into_iter().map(|(_, sps)| sps).collect();
                Ok(false)
            }
        }
    }

    /// Goes by these parameter sets from here on, and tells so: by a sequence parameter set that was
    /// sought, or by the picture parameter set, which has but one form.
    fn hold_assumed(&mut self, sps: Sps, words: Option<String>, offset: u64) -> io::Result<()> {
        self.assumed_pps |= !self.window.has_pps();
        self.window.hold(sps)?;
        self.keep_enough(&sps);
        self.assumed_sps = words.or(self.assumed_sps.take());
        self.ambiguous.clear();
        let words = self.mark(None).unwrap_or_default();
        self.tell_all(Thing { offset, length: 0, seen: Seen::Assumed(sps, words) });
        Ok(())
    }

    /// Goes over to another take, whose parameter set was refused before.
    fn go_over(&mut self, other: Other) -> io::Result<()> {
        self.window.hold(other.sps)?;
        (self.assumed_sps, self.doubt, self.taken) = (None, None, 1);
        self.sps_unit.clear();
        let seen = Seen::Another(other.sps);
        match self.kept_back.front_mut().filter(|thing| thing.offset == other.offset) {
            Some(thing) => thing.seen = seen,
            None => self.kept_back.push_front(Thing { offset: other.offset, length: 0, seen }),
        }
        Ok(())
    }

    /// Whether a unit is a picture of this size and kind; it is read into the planes, where they are
    /// kept.
    fn show(&mut self, unit: &[u8], sps: Sps) -> io::Result<bool> {
        self.from_planes = show(&framed(unit), sps, self.ready_planes(sps)?);
        Ok(self.from_planes)
    }

    fn fit(&mut self, bytes: &[u8], sps: Sps, header_may_err: bool) -> io::Result<Option<Fit>> {
        let found = fit(bytes, sps, header_may_err, self.ready_planes(sps)?);
        self.from_planes = found.is_some();
        Ok(found)
    }

    /// Planes of a size and kind, where they are kept.
    fn ready_planes(&mut self, sps: Sps) -> io::Result<Option<PlanesMut<'_>>> {
        if !self.keeps_samples {
            return Ok(None);
        }
        for (plane, length) in self.planes.iter_mut().zip(sps.plane_lengths()) {
            if plane.len() != length {
                *plane = zeros(length)?;
            }
        }
        let [y, cb, cr] = &mut self.planes;
        Ok(Some(PlanesMut { y, cb, cr }))
    }

    /// Keeps as much of a pipe as two pictures can have, within reason.
    fn keep_enough(&mut self, sps: &Sps) {
        self.window.source_mut().keep((2 * sps.room() + NEAR as usize).min(LARGEST));
    }

    /// The bytes of a unit, if it is no longer than a picture of this size and kind can be.
    fn unit_of(&self, sps: &Sps, offset: u64, length: u64) -> io::Result<Vec<u8>> {
        match length <= sps.room() as u64 {
            true => self.unit(offset, length),
            false => Ok(Vec::new()),
        }
    }

    /// The bytes of a unit; none where they are no longer there.
    fn unit(&self, offset: u64, length: u64) -> io::Result<Vec<u8>> {
        Ok(self.bytes(offset, offset + length)?.unwrap_or_default())
    }

    fn bytes(&self, from: u64, to: u64) -> io::Result<Option<Vec<u8>>> {
        self.window.source().bytes(from, to)
    }
}

/// What is wrong with a picture that was found, in words.
fn words(found: &Fit, border: Option<&str>) -> String {
    let all: Vec<&str> = [border, found.wrong].into_iter().flatten().collect();
    all.join(", ")
}

/// Where some bytes stand first.
fn find(bytes: &[u8], wanted: &[u8]) -> Option<usize> {
    bytes.windows(wanted.len()).position(|part| part == wanted)
}

/// The length without zeros at the end.
fn trimmed(bytes: &[u8]) -> usize {
    bytes.iter().rposition(|&byte| byte != 0).map_or(0, |last| last + 1)
}
