//! What less-avc calls an error: the writer's refusals under the crate's names.

use std::{error, fmt, io};

use crate::Refusal;

/// Why [`LessEncoder`](crate::LessEncoder) or [`H264Writer`](crate::H264Writer) didn't write a
/// picture, with the variants and texts of less-avc's. [`Error::refusal`] tells which [`Refusal`] it
/// was. As there, a match can name every variant.
#[derive(Debug)]
pub enum Error {
    /// The picture's sizes, depths or planes are none that can be written.
    DataShapeProblem {
        /// What is wrong with them.
        msg: &'static str,
    },
    /// Never given here; it stands for callers that match on it.
    UnsupportedFormat {},
    /// Colour with an odd height.
    UnsupportedImageSize {},
    /// A picture for an [`H264Writer`](crate::H264Writer) whose sink failed before. Or a refusal that
    /// no picture gives: another library was linked.
    InconsistentState {},
    /// The sink of an [`H264Writer`](crate::H264Writer) failed. Callers turn their own into it with
    /// `?`.
    IoError {
        /// What went wrong.
        source: io::Error,
    },
}

/// The refusals that are shape problems, each with its text: the crate's, where it has one.
const SHAPES: [(Refusal, &str); 7] = [
    (Refusal::Size, "width and height must be from 1 to 16384"),
    (Refusal::Depths, "the planes must have the same bit depth"),
    (Refusal::Colour12Width, "for bit depth 12 color, width must be divisible by 4"),
    (Refusal::OddWidth, "width must be divisible by 2 (except mono8)"),
    (
        Refusal::OtherThanSession,
        "width, height, color or bit depth is not that of the first picture",
    ),
    (Refusal::Stride, "stride too small"),
    (Refusal::Rows, "number of rows too small"),
];

impl Error {
    /// The refusal that it was, unless it came from elsewhere.
    pub fn refusal(&self) -> Option<Refusal> {
        match self {
            Error::DataShapeProblem { msg } => {
                let shape = SHAPES.iter().find(|(_, text)| text == msg);
                shape.map(|(refusal, _)| *refusal)
            }
            Error::UnsupportedImageSize {} => Some(Refusal::OddHeight),
            _ => None,
        }
    }
}

impl From<Refusal> for Error {
    fn from(refusal: Refusal) -> Error {
        match SHAPES.iter().find(|(shape, _)| *shape == refusal) {
            Some((_, msg)) => Error::DataShapeProblem { msg },
            None if refusal == Refusal::OddHeight => Error::UnsupportedImageSize {},
            None => Error::InconsistentState {},
        }
    }
}

impl From<io::Error> for Error {
    fn from(source: io::Error) -> Error {
        Error::IoError { source }
    }
}

impl error::Error for Error {
    fn source(&self) -> Option<&(dyn error::Error + 'static)> {
        match self {
            Error::IoError { source } => Some(source),
            _ => None,
        }
    }
}

/// The crate's texts.
impl fmt::Display for Error {
    fn fmt(&self, f: &mut fmt::Formatter) -> fmt::Result {
        match self {
            Error::DataShapeProblem { msg } => {
                write!(f, "Image data shape is problematic: {msg}")
            }
            Error::UnsupportedFormat {} => f.write_str("unsupported format"),
            Error::UnsupportedImageSize {} => {
                f.write_str("unsupported image size: even width and height required")
            }
            Error::InconsistentState {} => f.write_str("internal error: inconsistent state"),
            Error::IoError { source } => write!(f, "IO error: {source}"),
        }
    }
}

#[cfg(test)]
mod tests {
    use super::*;

    /// Every refusal of the writer comes back from the error that it makes; 9 can't be met, since
    /// the encoder lends itself enough room.
    #[test]
    fn refusals_come_back() {
        for number in 1..=8 {
            let refusal = Refusal::of(number, 0);
            assert_eq!(Error::from(refusal).refusal(), Some(refusal));
        }
        for number in (9..=22).chain([50, 99]) {
            let error = Error::from(Refusal::of(number, 7));
            assert!(matches!(error, Error::InconsistentState {}));
            assert_eq!(error.refusal(), None);
        }
        assert_eq!(Error::DataShapeProblem { msg: "a caller's" }.refusal(), None);
    }
}
