//! One call of the writer, with its own bytes.

use reelpony::ffi;

/// A plane as it is lent.
pub struct Plane {
    pub bytes: Vec<u8>,
    pub stride: usize,
    pub depth: u32,
}

/// A start or next call, less its output.
pub struct Call {
    pub next: bool,
    pub width: u32,
    pub height: u32,
    pub colour: u32,
    /// Y, Cb, Cr.
    pub planes: [Plane; 3],
    /// What the session holds when the call is made.
    pub session: [u32; 8],
}

impl Call {
    /// The planes that the call's kind looks at.
    pub fn seen(&self) -> &[Plane] {
        &self.planes[..if self.colour == 0 { 1 } else { 3 }]
    }

    /// The name of its kind; mixed depths and numbers that are no kind have one each.
    pub fn kind(&self) -> &'static str {
        let depth = self.planes[0].depth;
        let same = self.seen().iter().all(|plane| plane.depth == depth);
        let exist = |plane: &Plane| plane.depth == 8 || plane.depth == 12;
        match (self.colour, depth) {
            _ if self.colour > 1 || !self.seen().iter().all(exist) => "no kind",
            _ if !same => "mixed",
            (0, 8) => "mono 8",
            (0, _) => "mono 12",
            (_, 8) => "colour 8",
            (_, _) => "colour 12",
        }
    }

    /// The picture in the library's own words.
    pub fn picture(&self) -> ffi::Picture<'_> {
        ffi::Picture {
            width: self.width,
            height: self.height,
            colour: self.colour,
            planes: self.planes.each_ref().map(|plane| ffi::Plane {
                bytes: &plane.bytes,
                stride: plane.stride,
                depth: plane.depth,
            }),
        }
    }

    /// The call as a request of the oracle's protocol. Kinds that it doesn't know are written the
    /// same way, so that the line shows every number.
    pub fn request(&self) -> String {
        let [y, cb, cr] = &self.planes;
        let call = if self.next { "next" } else { "start" };
        let size = format!("{} {} {}", self.width, self.height, y.stride);
        if self.colour == 0 {
            return format!("{call} mono{} {size} 0 {} - -", y.depth, to_hex(&y.bytes));
        }
        let colour = match self.colour {
            1 => "colour".to_string(),
            number => format!("colour({number})"),
        };
        let depths = format!("{}.{}.{}", y.depth, cb.depth, cr.depth);
        let strides = format!("{},{}", cb.stride, cr.stride);
        let [y, cb, cr] = [y, cb, cr].map(|plane| to_hex(&plane.bytes));
        format!("{call} {colour}{depths} {size} {strides} {y} {cb} {cr}")
    }
}

/// Pairs of hex digits; `-` is no bytes.
fn to_hex(bytes: &[u8]) -> String {
    if bytes.is_empty() {
        return "-".into();
    }
    let digit = |half: u8| char::from(b"0123456789abcdef"[usize::from(half)]);
    let pairs = bytes.iter().flat_map(|byte| [byte >> 4, byte & 15]);
    pairs.map(digit).collect()
}
