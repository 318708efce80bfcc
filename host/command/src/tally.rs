//! What was met in a take, picture by picture: their numbers in the take's order, and how many are
//! missing between them, as far as lengths tell.

use reelpony::reader::Sps;
use reelpony::Refusal;

use crate::fit::plain_length;
use crate::look::{Seen, Thing};
use crate::progress::counted;
use crate::y4m;

/// What was lost between two pictures of a take.
#[derive(Clone, Debug, PartialEq, Eq)]
pub struct Loss {
    /// Where its first bytes are.
    pub offset: u64,
    pub bytes: u64,
    /// How many things were refused.
    pub places: u64,
    /// Why, of the first.
    pub refusal: Refusal,
    /// The number of the picture before; 0 for none.
    pub behind: u64,
    /// How many pictures that may have been, where that can be said.
    pub pictures: Option<u64>,
    /// Bytes that may have been pictures, and units that were.
    telling: u64,
    units: u64,
}

impl Loss {
    /// `about 2 pictures, 9000 bytes`.
    pub fn about(&self) -> String {
        let bytes = counted(self.bytes, "byte");
        match self.pictures {
            Some(0) | None => bytes,
            Some(number) => format!("about {}, {bytes}", counted(number, "picture")),
        }
    }

    /// `behind picture 107`.
    pub fn place(&self) -> String {
        match self.behind {
            0 => "before the first picture".into(),
            number => format!("behind picture {number}"),
        }
    }
}

/// One take of a file, as far as it was read.
#[derive(Clone, Default)]
pub struct Part {
    /// Where it begins.
    pub offset: u64,
    pub shape: Option<Sps>,
    /// Pictures saved, and how many of them by a second look.
    pub pictures: u64,
    pub second: u64,
    /// The last picture's number.
    pub number: u64,
    /// Bytes of the saved pictures with their start codes.
    bytes: u64,
}

impl Part {
    /// `3 pictures of 640x480, colour, 8 bits`.
    pub fn words(&self) -> String {
        let pictures = counted(self.pictures, "picture");
        let second = match self.second {
            0 => String::new(),
            number => format!(", {number} of them by a second look"),
        };
        match self.shape {
            Some(shape) => format!("{pictures} of {}{second}", y4m::words(&shape)),
            None => format!("{pictures}{second}"),
        }
    }

    /// How long a picture is with its start code, by those that were saved, or by its size alone.
    fn typical(&self) -> Option<u64> {
        match self.pictures {
            0 => self.shape.as_ref().map(plain_length),
            pictures => Some(self.bytes / pictures),
        }
    }
}

/// What was met up to now.
#[derive(Default)]
pub struct Tally {
    /// The takes that are over, and the one that is being read.
    pub ended: Vec<Part>,
    pub part: Part,
    /// Parameter sets and pictures.
    pub units: u64,
    pub refused: u64,
    /// Pictures without parameter sets.
    pub nothing_held: u64,
    pub lost: u64,
    /// The first thing that was refused, and why.
    pub first: Option<(u64, Refusal)>,
    /// The first loss.
    pub first_loss: Option<Loss>,
    /// Units that players put in, by name.
    pub foreign: Vec<(&'static str, u64)>,
    /// Whether parameter sets are assumed.
    pub assumed: bool,
    /// Whether what was met last was refused.
    ends_refused: bool,
    open: Option<Loss>,
}

impl Tally {
    pub fn new(shape: Option<Sps>) -> Tally {
        Tally { part: Part { shape, ..Part::default() }, ..Tally::default() }
    }

    /// Adds a thing. Answers what was lost before it, where that is over now.
    pub fn add(&mut self, thing: &Thing) -> Option<Loss> {
        self.ends_refused = matches!(thing.seen, Seen::Refused(_) | Seen::Rest(_));
        let mut over = None;
        match &thing.seen {
            Seen::Sps(sps) => {
                self.units += 1;
                self.part.shape.get_or_insert(*sps);
                // What stands before a take's begin is none of its pictures.
                if let (0, Some(loss)) = (self.part.pictures, &mut self.open) {
                    loss.telling = 0;
                }
            }
            Seen::Pps => self.units += 1,
            Seen::Assumed(sps, _) => {
                self.assumed = true;
                self.part.shape = Some(*sps);
            }
            Seen::Picture(mark) => {
                over = self.close();
                self.units += 1;
                self.part.pictures += 1;
                self.part.number += 1;
                self.part.second += u64::from(mark.is_some());
                self.part.bytes += thing.length + 4;
            }
            Seen::Foreign(name) => match self.foreign.iter_mut().find(|(old, _)| old == name) {
                Some((_, number)) => *number += 1,
                None => self.foreign.push((name, 1)),
            },
            Seen::Another(sps) => {
                over = self.close();
                self.units += 1;
                let part = Part { offset: thing.offset, shape: Some(*sps), ..Part::default() };
                let old = std::mem::replace(&mut self.part, part);
                // Without a picture it was only a size that the user named.
                self.ended.extend((old.pictures > 0).then_some(old));
            }
            Seen::Refused(refusal) => {
                use Refusal::{NothingHeld, PictureForm, PictureShort};
                let picture = matches!(refusal, NothingHeld | PictureForm | PictureShort);
                self.refuse(thing, *refusal, picture);
            }
            Seen::Rest(refusal) => self.refuse(thing, *refusal, false),
        }
        over
    }

    /// The size that is gone by now, where it was not known before.
    pub fn is_of(&mut self, sps: Option<Sps>) {
        self.part.shape = self.part.shape.or(sps);
    }

    /// Adds to what is being lost; `picture` where it was a picture for certain.
    fn refuse(&mut self, thing: &Thing, refusal: Refusal, picture: bool) {
        let Thing { offset, length, .. } = *thing;
        self.refused += 1;
        self.nothing_held += u64::from(refusal == Refusal::NothingHeld);
        self.first.get_or_insert((offset, refusal));
        let loss = self.open.get_or_insert(Loss {
            offset,
            bytes: 0,
            places: 0,
            refusal,
            behind: self.part.number,
            pictures: None,
            telling: 0,
            units: 0,
        });
        loss.bytes += length;
        loss.places += 1;
        loss.telling += length;
        loss.units += u64::from(picture);
    }

    /// Closes what was lost last, and counts the pictures that it may have been.
    pub fn close(&mut self) -> Option<Loss> {
        let mut loss = self.open.take()?;
        loss.pictures = self.part.typical().map(|typical| {
            let whole = (loss.telling + typical / 2) / typical.max(1);
            whole.max(loss.units)
        });
        self.part.number += loss.pictures.unwrap_or(0);
        self.lost += loss.pictures.unwrap_or(0);
        self.first_loss.get_or_insert_with(|| loss.clone());
        Some(loss)
    }

    /// Pictures saved in all takes.
    pub fn pictures(&self) -> u64 {
        self.parts().map(|part| part.pictures).sum()
    }

    pub fn second(&self) -> u64 {
        self.parts().map(|part| part.second).sum()
    }

    pub fn parts(&self) -> impl Iterator<Item = &Part> {
        self.ended.iter().chain([&self.part])
    }

    /// `3 pictures of 640x480, colour, 8 bits`, of each take.
    pub fn words(&self) -> String {
        let behind = |part: &Part| format!("{} from offset {} on", part.words(), part.offset);
        let mut parts = self.parts().filter(|part| part.pictures > 0);
        let first = parts.next().unwrap_or(&self.part).words();
        parts.fold(first, |words, part| format!("{words}, then {}", behind(part)))
    }

    /// Whether it is what a cut leaves: one refusal, at the end, of a unit that isn't whole.
    pub fn is_cut(&self) -> bool {
        use Refusal::{Empty, ParameterSet, PictureShort};
        let cut = matches!(self.first, Some((_, Empty | ParameterSet | PictureShort)));
        cut && self.refused == 1 && self.ends_refused && self.second() == 0 && !self.assumed
    }

    /// Whether all of it is one whole take's.
    pub fn is_whole(&self) -> bool {
        self.refused == 0 && self.second() == 0 && self.ended.is_empty() && !self.assumed
    }
}
