//! Why a call was refused.

use std::fmt;

/// A refusal. It left what was lent as it was: the output and the session, the planes, the buffer.
///
/// Each has the number that the C header lists, and a sentence:
///
/// ```
/// let refusal = reelpony::Refusal::PictureShort;
/// assert_eq!(refusal.number(), 17);
/// assert_eq!(refusal.to_string(), "the picture is cut short");
/// ```
#[derive(Clone, Copy, Debug, PartialEq, Eq)]
#[non_exhaustive]
pub enum Refusal {
    /// 1: the width or the height is 0 or over 16,384.
    Size,
    /// 2: colour whose three depths differ.
    Depths,
    /// 3: colour of 12 bits whose width is no multiple of 4.
    Colour12Width,
    /// 4: an odd width, other than in monochrome of 8 bits.
    OddWidth,
    /// 5: colour with an odd height.
    OddHeight,
    /// 6: a next picture that is unlike the take's first.
    OtherThanSession,
    /// 7: a plane's stride is shorter than its padded row.
    Stride,
    /// 8: a plane has fewer whole rows than its padded height.
    Rows,
    /// 9: the output is too short.
    Output {
        /// The exact length that the call's bytes have.
        needed: usize,
    },
    /// 10: bytes other than zeros that no start code stands before.
    Stray,
    /// 11: a start code with no unit behind it.
    Empty,
    /// 12: three bytes that escaping leaves nowhere.
    Escaping,
    /// 13: a unit that is neither a parameter set nor a picture.
    Header,
    /// 14: a parameter set that the writer writes for no size and kind.
    ParameterSet,
    /// 15: a sequence parameter set other than the one that is held.
    OtherThanHeld,
    /// 16: a picture before both parameter sets.
    NothingHeld,
    /// 17: a picture that is cut short.
    PictureShort,
    /// 18: a picture that is too long, or whose bytes around the samples are others.
    PictureForm,
    /// 19: a plane is too short for the picture; the same call with longer ones reads it.
    Planes,
    /// 20: a number that has no code.
    NoCode,
    /// 21: no room for the code or the bytes.
    NoRoom,
    /// 22: no whole code stands at the place, or one with over 31 zeros in front.
    NotACode,
    /// 99: a colour or a depth that doesn't exist; only [`crate::ffi`] can pass one.
    Format,
    /// A number that the header doesn't list: another library was linked.
    Unknown(u32),
}

impl Refusal {
    /// The refusal of a number other than 0, 9 with the length that was answered.
    pub(crate) fn of(number: u32, length: u64) -> Refusal {
        match number {
            1 => Refusal::Size,
            2 => Refusal::Depths,
            3 => Refusal::Colour12Width,
            4 => Refusal::OddWidth,
            5 => Refusal::OddHeight,
            6 => Refusal::OtherThanSession,
            7 => Refusal::Stride,
            8 => Refusal::Rows,
            9 => Refusal::Output { needed: length as usize },
            10 => Refusal::Stray,
            11 => Refusal::Empty,
            12 => Refusal::Escaping,
            13 => Refusal::Header,
            14 => Refusal::ParameterSet,
            15 => Refusal::OtherThanHeld,
            16 => Refusal::NothingHeld,
            17 => Refusal::PictureShort,
            18 => Refusal::PictureForm,
            19 => Refusal::Planes,
            20 => Refusal::NoCode,
            21 => Refusal::NoRoom,
            22 => Refusal::NotACode,
            99 => Refusal::Format,
            number => Refusal::Unknown(number),
        }
    }

    /// The number that the exports answer.
    pub fn number(&self) -> u32 {
        match *self {
            Refusal::Size => 1,
            Refusal::Depths => 2,
            Refusal::Colour12Width => 3,
            Refusal::OddWidth => 4,
            Refusal::OddHeight => 5,
            Refusal::OtherThanSession => 6,
            Refusal::Stride => 7,
            Refusal::Rows => 8,
            Refusal::Output { .. } => 9,
            Refusal::Stray => 10,
            Refusal::Empty => 11,
            Refusal::Escaping => 12,
            Refusal::Header => 13,
            Refusal::ParameterSet => 14,
            Refusal::OtherThanHeld => 15,
            Refusal::NothingHeld => 16,
            Refusal::PictureShort => 17,
            Refusal::PictureForm => 18,
            Refusal::Planes => 19,
            Refusal::NoCode => 20,
            Refusal::NoRoom => 21,
            Refusal::NotACode => 22,
            Refusal::Format => 99,
            Refusal::Unknown(number) => number,
        }
    }

    /// The length that the output needs, where that is what was wrong.
    pub fn needed(&self) -> Option<usize> {
        match *self {
            Refusal::Output { needed } => Some(needed),
            _ => None,
        }
    }
}

/// A sentence for a person.
impl fmt::Display for Refusal {
    fn fmt(&self, f: &mut fmt::Formatter) -> fmt::Result {
        let sentence = match self {
            Refusal::Size => "the width and the height must be from 1 to 16,384",
            Refusal::Depths => "the three planes must have the same depth",
            Refusal::Colour12Width => "colour of 12 bits needs a width that is a multiple of 4",
            Refusal::OddWidth => "only monochrome of 8 bits can have an odd width",
            Refusal::OddHeight => "colour needs an even height",
            Refusal::OtherThanSession => {
                "the picture's width, height, colour or depth is not that of the take"
            }
            Refusal::Stride => "a plane's stride is shorter than its row, padded to macroblocks",
            Refusal::Rows => "a plane has fewer whole rows than its height, padded to macroblocks",
            Refusal::Output { needed } => {
                return write!(f, "the output is too short: {needed} bytes are needed")
            }
            Refusal::Stray => "the bytes belong to no unit, since no start code stands before them",
            Refusal::Empty => "there is nothing behind the start code",
            Refusal::Escaping => "two zeros are followed by what escaping never leaves there",
            Refusal::Header => "the unit is neither a parameter set nor a picture",
            Refusal::ParameterSet => "the parameter set is not one that the writer writes",
            Refusal::OtherThanHeld => {
                "the sequence parameter set is not the one that the take began with"
            }
            Refusal::NothingHeld => "a picture came before both parameter sets",
            Refusal::PictureShort => "the picture is cut short",
            Refusal::PictureForm => "the picture is too long or not of the writer's form",
            Refusal::Planes => "a plane is shorter than the picture's visible rows",
            Refusal::NoCode => "the number has no code",
            Refusal::NoRoom => "the buffer is too short",
            Refusal::NotACode => "there is no whole code at the place",
            Refusal::Format => "the colour must be 0 or 1 and the depth 8 or 12",
            Refusal::Unknown(number) => {
                return write!(f, "the library refused with the unknown number {number}")
            }
        };
        f.write_str(sentence)
    }
}

impl std::error::Error for Refusal {}

#[cfg(test)]
mod tests {
    use std::collections::BTreeSet;

    use super::*;

    /// The numbers that the header lists, a line each, are those that have a name, and each has a
    /// sentence of its own.
    #[test]
    fn numbers_are_the_headers() {
        let number = |line: &str| {
            let (number, text) = line.strip_prefix(" *")?.trim_start().split_once("   ")?;
            number.parse().ok().filter(|_| !text.trim().is_empty())
        };
        let header = include_str!("../../../include/reelpony.h");
        let listed: BTreeSet<u32> = header.lines().filter_map(number).collect();
        assert_eq!(listed, (1..=22).chain([99]).collect());
        let named = |number: &u32| !matches!(Refusal::of(*number, 0), Refusal::Unknown(_));
        assert_eq!(listed, (1..1000).filter(named).collect());
        let sentences = listed.iter().map(|&number| Refusal::of(number, 0).to_string());
        assert_eq!(sentences.collect::<BTreeSet<_>>().len(), listed.len());
    }

    /// The number and the text that C has for each refusal's name, in the header's words.
    fn header_texts() -> Vec<(String, u32, String)> {
        let header = include_str!("../../../include/reelpony.h");
        let number = |line: &str| {
            let (name, number) =
                line.trim().strip_prefix("REELPONY_REFUSED_")?.split_once(" = ")?;
            Some((name.to_string(), number.trim_end_matches(',').parse::<u32>().unwrap()))
        };
        let text = |name: &str| {
            let (_, line) =
                header.split_once(&format!("case REELPONY_REFUSED_{name}: return \""))?;
            Some(line.split_once("\";\n")?.0.to_string())
        };
        let numbers = header.lines().filter_map(number);
        numbers.map(|(name, n)| (name.clone(), n, text(&name).expect(&name))).collect()
    }

    /// C's names are those of the values here, and its texts are their sentences. That of 9 has no
    /// length in C.
    #[test]
    fn texts_are_the_headers() {
        let texts = header_texts();
        assert_eq!(texts.len(), 23);
        for (name, number, text) in texts {
            let refusal = Refusal::of(number, 286);
            let value = format!("{refusal:?}").split(' ').next().unwrap().to_string();
            let spelt = value.chars().enumerate().flat_map(|(i, c)| {
                let gap = (i > 0 && c.is_uppercase()).then_some('_');
                gap.into_iter().chain([c.to_ascii_uppercase()])
            });
            assert_eq!(name, spelt.collect::<String>(), "the name of {number}");
            let sentence = refusal.to_string();
            let sentence = sentence.strip_suffix(": 286 bytes are needed").unwrap_or(&sentence);
            assert_eq!(text, sentence, "the text of {number}");
        }
    }

    /// Every number of the header comes back from the refusal that it makes, 9 with its length.
    #[test]
    fn numbers_come_back() {
        for number in (1..=22).chain([99, 50]) {
            let refusal = Refusal::of(number, 286);
            assert_eq!(refusal.number(), number);
            assert_eq!(refusal.needed(), (number == 9).then_some(286));
            assert_eq!(matches!(refusal, Refusal::Unknown(_)), number == 50);
            assert!(!refusal.to_string().is_empty());
        }
    }
}
