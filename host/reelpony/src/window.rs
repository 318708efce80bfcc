//! Reading a take of any length through a window over its file.
//!
//! The library's reader wants one slice with the whole next unit in it. Here that slice is a part
//! of the file, and every answer is the one that a slice of the whole file would give there:
//!
//! - By its rules a call looks at the bytes from its place to the next start code. If they are not
//!   all zero, that is the answer (refusal 10). Otherwise it looks at the unit behind the start
//!   code, up to the start code after that. The slice's end does the same as a start code, and the
//!   zeros before either belong to no unit. So a slice that ends where that next start code begins
//!   gives the same answer as one that goes on, and no unit is judged before the start code behind
//!   it or the end of the file was seen.
//! - Zeros at the place are skipped whatever follows, so all but two of them may be dropped; two
//!   may be the begin of a start code. Only the offset of refusal 10 needs the place before them.
//! - A byte other than zero that no start code stands before decides for refusal 10. The bytes
//!   after it are only searched for the next start code, and dropped.
//! - A unit can be longer than any that is accepted, without a start code to the end of a large
//!   file. Of such a unit the first bytes are kept, more than an accepted unit can have
//!   (`longest_unit`), and the rest is looked through in pieces and dropped. If the rest is all
//!   zeros, the kept bytes are the unit. If not, refusal 12 is given exactly when one of its
//!   patterns stands in the kept bytes or in a piece: each piece begins with the last three bytes
//!   before it, a pattern has four at most, and three zeros count only with another byte behind
//!   them, in a piece as in a unit. Without a pattern the kept bytes end in two zeros at most, so
//!   they are still too long for a parameter set and for a picture, and the later refusals (13 to
//!   18) fall on them as on the whole unit.
//! - The calls differ in their place too: each is made by a reader at the front of the unread bytes,
//!   with the parameter sets that were met before them.

use std::io::{self, Read};
use std::iter::FusedIterator;
use std::mem;

use crate::reader::{Answer, PlanesMut, Reader, Sps};
use crate::{Lost, Picture, Refusal};

/// How many bytes are asked for at a time.
const CHUNK: usize = 1 << 18;

/// What a place of a take holds.
#[derive(Clone, Debug, PartialEq, Eq)]
pub struct Found {
    /// Where its bytes begin in the file, behind the start code; of refusal 10, the place.
    pub offset: u64,
    /// How many there are, without zeros at the end.
    pub length: u64,
    /// What they are.
    pub what: What,
}

/// What a [`Window`] answers about a place of a take.
#[derive(Clone, Copy, Debug, PartialEq, Eq)]
#[non_exhaustive]
pub enum What {
    /// A sequence parameter set; from now on it is held.
    Sps(Sps),
    /// A picture parameter set; from now on it is held.
    Pps,
    /// A picture; its samples are in the planes, if they are kept.
    Picture,
    /// Bytes that are none of these, and why.
    Refused(Refusal),
}

/// A take that is read piece by piece.
pub struct Window<R> {
    source: R,
    chunk: usize,
    at_end: bool,
    /// At place 0, with the parameter sets that were met.
    held: Reader,
    bytes: Vec<u8>,
    /// The index of the first unread byte.
    begin: usize,
    /// The file's offset of that byte.
    offset: u64,
    keeps_samples: bool,
    planes: [Vec<u8>; 3],
}

impl<R: Read> Window<R> {
    /// A take whose pictures are read into planes.
    pub fn with_samples(source: R) -> Window<R> {
        Window { keeps_samples: true, ..Window::new(source) }
    }

    /// A take whose pictures are only looked through.
    pub fn new(source: R) -> Window<R> {
        Window {
            source,
            chunk: CHUNK,
            at_end: false,
            held: Reader::new(),
            bytes: Vec::new(),
            begin: 0,
            offset: 0,
            keeps_samples: false,
            planes: Default::default(),
        }
    }

    /// Goes on as if this sequence parameter set and the picture parameter set had been read here. A
    /// size or kind that no take has counts as nothing held.
    pub fn hold(&mut self, sps: Sps) -> io::Result<()> {
        self.held = Reader::holding(sps);
        self.make_planes()
    }

    /// Goes on as if no parameter set had been read.
    pub fn forget(&mut self) {
        self.held = Reader::new();
    }

    /// What the bytes come from.
    pub fn source(&self) -> &R {
        &self.source
    }

    /// The same, to be changed.
    pub fn source_mut(&mut self) -> &mut R {
        &mut self.source
    }

    /// The sequence parameter set that is held.
    pub fn sps(&self) -> Option<Sps> {
        self.held.sps()
    }

    /// Whether a picture parameter set is held.
    pub fn has_pps(&self) -> bool {
        self.held.has_pps()
    }

    /// Y, Cb and Cr of the last picture, tight rows; monochrome has none in Cb and Cr.
    pub fn planes(&self) -> &[Vec<u8>; 3] {
        &self.planes
    }

    /// The file's offset up to which everything was answered.
    pub fn offset(&self) -> u64 {
        self.offset
    }

    /// The pictures from here on, each with samples of its own, and what is lost between them.
    ///
    /// ```
    /// # use reelpony::ycbcr_image::{DataPlane, Planes, YCbCrImage};
    /// # use reelpony::{BitDepth, H264Writer};
    /// # let samples = [0x10; 256];
    /// # let y = DataPlane { data: &samples, stride: 16, bit_depth: BitDepth::Depth8 };
    /// # let image = YCbCrImage { planes: Planes::Mono(y), width: 16, height: 16 };
    /// # let path = std::env::temp_dir().join(format!("reelpony-doc-{}.h264", std::process::id()));
    /// # let mut writer = H264Writer::new(std::fs::File::create(&path)?)?;
    /// # (writer.write(&image)?, writer.write(&image)?);
    /// # drop(writer);
    /// use std::fs::File;
    /// use reelpony::Window;
    ///
    /// # let mut saved = 0;
    /// // A take of two pictures, 16x16, all samples 10 hex.
    /// for found in Window::new(File::open(&path)?).salvage() {
    ///     match found? {
    ///         Ok(picture) => assert_eq!(picture.y, [0x10; 256]),
    ///         Err(lost) => eprintln!("{lost}"),
    ///     }
    /// #   saved += 1;
    /// }
    /// # std::fs::remove_file(&path)?;
    /// # assert_eq!(saved, 2);
    /// # Ok::<(), Box<dyn std::error::Error>>(())
    /// ```
    pub fn salvage(self) -> SalvageFrom<R> {
        SalvageFrom { window: Window { keeps_samples: true, ..self }, ended: false }
    }

    /// The next thing in the take. None at the end, and none again from then on. Behind an error, which
    /// is the source's or memory that can't be had, nothing more should be asked: bytes that were
    /// read may be lost then.
    // No iterator's: what it finds in the planes is lent until the next call.
    #[allow(clippy::should_implement_trait)]
    pub fn next(&mut self) -> io::Result<Option<Found>> {
        let place = self.offset;
        loop {
            let begin = self.begin;
            match first_other(&self.bytes[begin..]) {
                Some(zeros) if zeros >= 2 && self.bytes[begin + zeros] == 1 => {
                    return self.unit(begin + zeros + 1).map(Some);
                }
                Some(zeros) => return self.stray(place, begin + zeros).map(Some),
                None if self.at_end => {
                    self.drop_to(self.bytes.len());
                    return Ok(None);
                }
                None => {
                    self.drop_to(self.bytes.len().saturating_sub(2).max(begin));
                    self.read_more()?;
                }
            }
        }
    }

    /// Bytes that no start code stands before; the first that isn't zero has the index `first`.
    fn stray(&mut self, place: u64, first: usize) -> io::Result<Found> {
        let what = self.judged(first + 1)?;
        let mut end = self.offset;
        let mut from = first + 1;
        loop {
            let code = start_code(&self.bytes, from);
            let to = code.unwrap_or(self.bytes.len());
            match trimmed(&self.bytes[self.begin..to]) {
                0 => {}
                length => end = self.offset + length as u64,
            }
            if code.is_some() || self.at_end {
                self.drop_to(to);
                return Ok(Found { offset: place, length: end - place, what });
            }
            self.drop_to(to.saturating_sub(2).max(self.begin));
            self.read_more()?;
            from = self.begin;
        }
    }

    /// The unit that begins at an index, behind its start code.
    fn unit(&mut self, begin: usize) -> io::Result<Found> {
        let offset = self.offset + (begin - self.begin) as u64;
        let most = longest_unit(self.held.sps());
        let mut from = begin;
        let end = loop {
            if let Some(code) = start_code(&self.bytes, from) {
                break code;
            }
            let end = self.bytes.len();
            if self.at_end {
                break end;
            }
            if end - begin > most {
                return self.long_unit(begin, begin + most, offset);
            }
            from = begin.max(end.saturating_sub(2));
            self.read_more()?;
        };
        let length = trimmed(&self.bytes[begin..end]) as u64;
        let behind = offset + (end - begin) as u64;
        let what = self.judged(end)?;
        self.go_on(end, behind);
        Ok(Found { offset, length, what })
    }

    /// The same for a unit of which only the bytes up to an index are kept.
    fn long_unit(&mut self, begin: usize, kept: usize, offset: u64) -> io::Result<Found> {
        // A unit of another kind, so that a piece is refused with 12 or else with 13.
        const HEAD: [u8; 4] = [0, 0, 1, 9];
        let mut piece = HEAD.to_vec();
        piece.extend(&self.bytes[kept - 3..]);
        self.bytes.truncate(kept);
        let mut length = trimmed(&self.bytes[begin..]) as u64;
        let mut piece_offset = offset + (kept - 3 - begin) as u64;
        let mut escaped = true;
        let end = loop {
            let code = start_code(&piece, HEAD.len());
            let to = code.unwrap_or(piece.len());
            match trimmed(&piece[HEAD.len()..to]) {
                0 => {}
                more => length = piece_offset + more as u64 - offset,
            }
            escaped &= !matches!(
                Reader::new().read(&piece[..to], PlanesMut::none()),
                Answer::Refused { refusal: Refusal::Escaping, .. }
            );
            if code.is_some() || self.at_end {
                break to;
            }
            let last = piece.len() - 3;
            piece_offset += piece.drain(HEAD.len()..last).len() as u64;
            self.at_end = read_chunk(&mut self.source, &mut piece, self.chunk)? == 0;
        };
        let what = match escaped {
            true => self.judged(kept)?,
            false => What::Refused(Refusal::Escaping),
        };
        self.bytes.extend(&piece[end..]);
        self.go_on(kept, piece_offset + (end - HEAD.len()) as u64);
        Ok(Found { offset, length, what })
    }

    /// What the library says of the bytes up to an index, one of which isn't zero.
    fn judged(&mut self, end: usize) -> io::Result<What> {
        let mut reader = self.held;
        let [y, cb, cr] = &mut self.planes;
        let slice = &self.bytes[self.begin..end];
        let what = match reader.read(slice, PlanesMut { y, cb, cr }) {
            Answer::Sps { sps, .. } => What::Sps(sps),
            Answer::Pps { .. } => What::Pps,
            Answer::Picture { .. } => What::Picture,
            // The last thing that is tested: all else is right. There are no planes then.
            Answer::Refused { refusal: Refusal::Planes, .. } if !self.keeps_samples => {
                What::Picture
            }
            Answer::Refused { refusal, .. } => What::Refused(refusal),
            // Not where a byte isn't zero.
            Answer::End => What::Refused(Refusal::Stray),
        };
        if (reader.sps(), reader.has_pps()) != (self.held.sps(), self.held.has_pps()) {
            self.held = reader.at(0);
            self.make_planes()?;
        }
        Ok(what)
    }

    /// Planes for the pictures to come, where they are kept.
    fn make_planes(&mut self) -> io::Result<()> {
        if let (true, Some(sps)) = (self.keeps_samples, self.held.sps()) {
            for (plane, length) in self.planes.iter_mut().zip(sps.plane_lengths()) {
                if plane.len() != length {
                    *plane = zeros(length)?;
                }
            }
        }
        Ok(())
    }

    /// Drops the unread bytes before an index.
    fn drop_to(&mut self, from: usize) {
        self.go_on(from, self.offset + (from - self.begin) as u64);
    }

    /// Goes on with the bytes from an index on, where the file has the offset given. Bytes that were
    /// read are taken away when they are no fewer than the unread ones, so that few are moved for
    /// each.
    fn go_on(&mut self, from: usize, offset: u64) {
        (self.begin, self.offset) = (from, offset);
        if from >= self.bytes.len() - from {
            self.bytes.drain(..from);
            self.begin = 0;
        }
    }

    fn read_more(&mut self) -> io::Result<()> {
        self.at_end = read_chunk(&mut self.source, &mut self.bytes, self.chunk)? == 0;
        Ok(())
    }
}

/// What [`Salvage`](crate::Salvage) is for a slice, from any [`Read`]: each item is a picture, or what
/// was lost, or else the error that [`Window::next`] gave, behind which nothing comes. An offset or
/// length that no `usize` holds is the largest one.
pub struct SalvageFrom<R> {
    window: Window<R>,
    ended: bool,
}

impl<R: Read> SalvageFrom<R> {
    /// Goes on to the next picture or loss. None at the end.
    fn find(&mut self) -> io::Result<Option<Result<Picture, Lost>>> {
        loop {
            // The last picture took them along.
            self.window.make_planes()?;
            let Some(Found { offset, length, what }) = self.window.next()? else {
                return Ok(None);
            };
            let [offset, length] =
                [offset, length].map(|number| usize::try_from(number).unwrap_or(usize::MAX));
            match (what, self.window.sps()) {
                (What::Picture, Some(sps)) => {
                    let [y, cb, cr] = mem::take(&mut self.window.planes);
                    return Ok(Some(Ok(Picture { sps, y, cb, cr, offset, length })));
                }
                (What::Refused(refusal), _) => {
                    return Ok(Some(Err(Lost { refusal, offset, length })));
                }
                _ => {}
            }
        }
    }
}

impl<R: Read> Iterator for SalvageFrom<R> {
    type Item = io::Result<Result<Picture, Lost>>;

    fn next(&mut self) -> Option<io::Result<Result<Picture, Lost>>> {
        if self.ended {
            return None;
        }
        let found = self.find();
        self.ended = !matches!(found, Ok(Some(_)));
        found.transpose()
    }
}

impl<R: Read> FusedIterator for SalvageFrom<R> {}

/// More bytes than a unit can have that is accepted while this parameter set is held: what a call
/// that writes such a picture can need, parameter sets too, and some to spare.
fn longest_unit(sps: Option<Sps>) -> usize {
    sps.map_or(0, |sps| sps.room()) + 256
}

/// Bytes that are looked at together, with no branch for each: the compiler takes vectors then.
const STEP: usize = 64;

/// Where the first start code begins at an index or behind it.
fn start_code(bytes: &[u8], from: usize) -> Option<usize> {
    let is_code = |three: &[u8]| three[0] | three[1] | (three[2] ^ 1) == 0;
    let mut at = from;
    while let Some(part) = bytes.get(at..at + STEP + 2) {
        let found = (0..STEP).fold(false, |found, i| found | is_code(&part[i..i + 3]));
        if found {
            break;
        }
        at += STEP;
    }
    Some(at + bytes.get(at..)?.windows(3).position(is_code)?)
}

/// Where the first byte is that isn't zero.
fn first_other(bytes: &[u8]) -> Option<usize> {
    let zeros = bytes.chunks_exact(STEP).take_while(|part| all_zero(part)).count() * STEP;
    Some(zeros + bytes[zeros..].iter().position(|&byte| byte != 0)?)
}

/// The length without zeros at the end.
fn trimmed(bytes: &[u8]) -> usize {
    let zeros = bytes.rchunks_exact(STEP).take_while(|part| all_zero(part)).count() * STEP;
    let rest = &bytes[..bytes.len() - zeros];
    rest.iter().rposition(|&byte| byte != 0).map_or(0, |last| last + 1)
}

fn all_zero(bytes: &[u8]) -> bool {
    bytes.iter().fold(0, |all, byte| all | byte) == 0
}

/// Adds what one read gives; 0 bytes at the end.
fn read_chunk(source: &mut impl Read, bytes: &mut Vec<u8>, chunk: usize) -> io::Result<usize> {
    let old = bytes.len();
    bytes.try_reserve_exact(chunk).map_err(|_| io::ErrorKind::OutOfMemory)?;
    bytes.resize(old + chunk, 0);
    let read = loop {
        match source.read(&mut bytes[old..]) {
            Err(error) if error.kind() == io::ErrorKind::Interrupted => {}
            read => break read,
        }
    };
    bytes.truncate(old + *read.as_ref().unwrap_or(&0));
    read
}

/// So many zeros. Memory that can't be had is an error and not the program's end.
pub fn zeros(length: usize) -> io::Result<Vec<u8>> {
    Vec::<u8>::new().try_reserve_exact(length).map_err(|_| io::ErrorKind::OutOfMemory)?;
    Ok(vec![0; length])
}

#[cfg(test)]
mod tests {
    use super::*;
    use crate::ycbcr_image::{DataPlane, Planes, YCbCrImage};
    use crate::BitDepth::{Depth12, Depth8};
    use crate::Salvage;
    use common::Noise;

    /// What is found, and a picture's samples.
    type Reading = Vec<(Found, Option<[Vec<u8>; 3]>)>;

    /// Some pictures of a take, small ones and rich in zeros.
    fn take(noise: &mut Noise) -> Vec<u8> {
        let (width, height) = noise.pick(&[(16, 16), (4, 2), (20, 18), (36, 4)]);
        let (colour, bit_depth) = (noise.once_in(2), noise.pick(&[Depth8, Depth12]));
        let mut bytes = Vec::new();
        let mut session = None;
        for _ in 0..1 + noise.below(4) {
            let range = noise.pick(&[1, 2, 5, 256]);
            let samples: Vec<u8> = (0..48 * 32 * 3 / 2).map(|_| noise.below(range) as u8).collect();
            let plane = DataPlane { data: &samples, stride: 48 * 3 / 2, bit_depth };
            let planes =
                if colour { Planes::YCbCr((plane, plane, plane)) } else { Planes::Mono(plane) };
            let image = YCbCrImage { planes, width, height };
            let mut out = vec![0; 20_000];
            let length = match &mut session {
                Some(session) => crate::next(session, &image, &mut out).unwrap(),
                None => {
                    let (length, started) = crate::start(&image, &mut out).unwrap();
                    session = Some(started);
                    length
                }
            };
            bytes.extend(&out[..length]);
        }
        bytes
    }

    /// Bytes of no meaning, or rich in start codes and what is not escaped.
    fn rubble(noise: &mut Noise, most: u64) -> Vec<u8> {
        let range = noise.pick(&[1, 2, 4, 5, 256]);
        let zeros = noise.pick(&[1, 3, 100]);
        let once = |noise: &mut Noise| if noise.once_in(zeros) { 0 } else { noise.below(range) };
        (0..noise.below(most)).map(|_| once(noise) as u8).collect()
    }

    /// A file: takes, cut, damaged, joined, with other bytes between.
    fn file(noise: &mut Noise) -> Vec<u8> {
        let mut file = Vec::new();
        for _ in 0..1 + noise.below(3) {
            file.extend(take(noise));
            if noise.once_in(3) {
                let most = noise.pick(&[6, 50, 3000]);
                file.extend(rubble(noise, most));
            }
            if noise.once_in(4) {
                // A unit, now and then longer than any that is accepted.
                file.extend([0, 0, 1, noise.pick(&[0x25, 0x25, 0x67, 0x68, 9])]);
                let length = noise.pick(&[3, 300, 5000]);
                file.extend(vec![noise.pick(&[0, 3, 7]); length]);
                let most = noise.pick(&[6, 50]);
                file.extend(rubble(noise, most));
            }
        }
        for _ in 0..noise.below(4) {
            let begin = noise.below(file.len() as u64) as usize;
            let most = noise.pick(&[2, 10, 400]);
            let replacement = rubble(noise, most);
            let end = match noise.below(3) {
                // As long as before.
                0 => begin + replacement.len(),
                1 => begin,
                _ => begin + noise.below(600) as usize,
            };
            let end = end.min(file.len());
            file.splice(begin..end, replacement);
        }
        if noise.once_in(2) {
            file.truncate(noise.below(file.len() as u64 + 1) as usize);
        }
        if noise.once_in(8) {
            let most = noise.pick(&[6, 900]);
            file.splice(0..0, rubble(noise, most));
        }
        if noise.once_in(8) {
            file.splice(0..0, vec![0; noise.below(900) as usize]);
        }
        file
    }

    /// The whole file in one slice.
    fn whole(file: &[u8]) -> Reading {
        let mut reader = Reader::new();
        let mut reading = Vec::new();
        loop {
            let [mut y, mut cb, mut cr] = reader
                .sps()
                .map_or([0; 3], |sps| sps.plane_lengths())
                .map(|length| vec![0; length]);
            let planes = PlanesMut { y: &mut y, cb: &mut cb, cr: &mut cr };
            let (offset, what) = match reader.read(file, planes) {
                Answer::End => return reading,
                Answer::Sps { offset, sps } => (offset, What::Sps(sps)),
                Answer::Pps { offset } => (offset, What::Pps),
                Answer::Picture { offset } => (offset, What::Picture),
                Answer::Refused { refusal, offset } => (offset, What::Refused(refusal)),
            };
            let bytes = &file[offset..reader.place()];
            let length =
                bytes.iter().rposition(|&byte| byte != 0).map_or(0, |last| last as u64 + 1);
            let samples = (what == What::Picture).then_some([y, cb, cr]);
            reading.push((Found { offset: offset as u64, length, what }, samples));
        }
    }

    /// Gives a few bytes at a time, and is interrupted.
    struct Stutter<'a> {
        rest: &'a [u8],
        noise: Noise,
    }

    impl Read for Stutter<'_> {
        fn read(&mut self, out: &mut [u8]) -> io::Result<usize> {
            if self.noise.once_in(5) {
                return Err(io::ErrorKind::Interrupted.into());
            }
            let most = 1 + self.noise.below(out.len() as u64) as usize;
            self.rest.read(&mut out[..most])
        }
    }

    fn windowed(source: impl Read, chunk: usize, keeps_samples: bool) -> Reading {
        let mut window = Window { chunk, keeps_samples, ..Window::new(source) };
        let mut reading = Vec::new();
        while let Some(found) = window.next().unwrap() {
            let picture = found.what == What::Picture && keeps_samples;
            reading.push((found, picture.then(|| window.planes.clone())));
        }
        assert_eq!(window.next().unwrap(), None);
        reading
    }

    /// Windows of any size answer what one slice answers.
    #[test]
    fn as_one_slice() {
        let mut met = [0; 19];
        let mut pictures = 0;
        let mut long = 0;
        for case in 0..6000 {
            let mut noise = Noise::new(7, case);
            let file = file(&mut noise);
            let reading = whole(&file);
            for (found, _) in &reading {
                match found.what {
                    What::Picture => pictures += 1,
                    What::Refused(refusal) => met[refusal.number() as usize] += 1,
                    _ => {}
                }
                long += u32::from(found.length > 3000);
            }
            let chunk = noise.pick(&[1, 2, 3, 4, 5, 7, 16, 64, 257, 1000, CHUNK]);
            assert_eq!(windowed(&file[..], chunk, true), reading, "case {case}, chunk {chunk}");
            let source = Stutter { rest: &file, noise: Noise::new(8, case) };
            let looked: Vec<Found> =
                windowed(source, 1 + chunk, false).into_iter().map(|(found, _)| found).collect();
            let all: Vec<Found> = reading.into_iter().map(|(found, _)| found).collect();
            assert_eq!(looked, all, "case {case}, chunk {}", 1 + chunk);
            if case % 3 == 0 {
                let source = Stutter { rest: &file, noise: Noise::new(9, case) };
                let salvage = Window { chunk, ..Window::new(source) }.salvage();
                let saved: Vec<_> = salvage.map(|found| found.unwrap()).collect();
                assert!(saved.into_iter().eq(Salvage::new(&file)), "case {case}, chunk {chunk}");
            }
        }
        assert!(met[10..=18].iter().all(|&times| times > 20), "refusals met: {met:?}");
        assert!(pictures > 1000 && long > 100, "{pictures} pictures, {long} long units");
    }

    /// Every cut of one take, with the smallest windows.
    #[test]
    fn every_cut() {
        let take = take(&mut Noise::new(9, 2));
        for cut in 0..=take.len().min(1500) {
            let reading = whole(&take[..cut]);
            for chunk in [1, 2, 3, 64] {
                assert_eq!(windowed(&take[..cut], chunk, true), reading, "{cut}, {chunk}");
            }
        }
    }

    /// Long stretches of anything are passed without being held.
    #[test]
    fn memory_stays() {
        const LONG: u64 = 50_000_000;
        let take = take(&mut Noise::new(9, 1));
        let many = |byte| io::repeat(byte).take(LONG);
        for (name, refusal, between) in [
            ("zeros", None, vec![]),
            ("stray bytes", Some(Refusal::PictureForm), vec![7]),
            ("a unit of no kind", Some(Refusal::Header), vec![0, 0, 1, 9]),
            ("a picture", Some(Refusal::PictureForm), vec![0, 0, 1, 0x25]),
            ("a parameter set", Some(Refusal::ParameterSet), vec![0, 0, 1, 0x68]),
        ] {
            let byte = if between.is_empty() { 0 } else { 7 };
            let source = take.chain(&between[..]).chain(many(byte)).chain(&take[..]);
            let mut window = Window::with_samples(source);
            let mut refusals = Vec::new();
            while let Some(found) = window.next().unwrap() {
                if let What::Refused(refusal) = found.what {
                    refusals.push(refusal);
                }
            }
            assert_eq!(refusals, Vec::from_iter(refusal), "{name}");
            assert_eq!(window.offset(), 2 * take.len() as u64 + between.len() as u64 + LONG);
            assert!(window.bytes.capacity() < 4 * CHUNK, "{name}: {}", window.bytes.capacity());
        }
        let mut window = Window::new(many(7).chain(&take[..]));
        let stray = What::Refused(Refusal::Stray);
        let found = window.next().unwrap();
        assert_eq!(found, Some(Found { offset: 0, length: LONG, what: stray }));
        assert!(window.bytes.capacity() < 4 * CHUNK);
        assert!(matches!(window.next(), Ok(Some(Found { what: What::Sps(_), .. }))));
    }

    /// A size that no take has makes no unit a long one, and no number too large.
    #[test]
    fn lengths_of_no_take() {
        let sides = [0, 1, 2, 16, 17, 16_384, 16_385, 1 << 31, u32::MAX];
        let sizes = sides.into_iter().flat_map(|width| sides.map(|height| (width, height)));
        for (width, height) in sizes {
            for (colour, bit_depth) in [(false, Depth8), (true, Depth12)] {
                let sps = Sps { width, height, colour, bit_depth };
                let possible = [width, height].iter().all(|side| (1..=16_384).contains(side))
                    && (!colour || width % 4 == 0 && height % 2 == 0);
                let longest = longest_unit(Some(sps));
                let visible: usize = sps.plane_lengths().iter().sum();
                assert_eq!(longest > 256, possible, "{sps:?}");
                assert_eq!(visible > 0, possible, "{sps:?}");
                assert!(longest > visible && longest < 1 << 30, "{sps:?}");
            }
        }
        assert_eq!(longest_unit(None), 256);
    }

    #[test]
    fn start_codes() {
        for length in 0..300 {
            let mut bytes = vec![0; length];
            assert_eq!(start_code(&bytes, 0), None);
            for at in 2..length {
                bytes[at] = 1;
                for from in [0, at - 2, at - 1, at, length, length + 1] {
                    let wanted = (from + 2 <= at).then_some(at - 2);
                    assert_eq!(start_code(&bytes, from), wanted, "{length}, {at}, {from}");
                }
                bytes[at] = 0;
            }
        }
    }
}
