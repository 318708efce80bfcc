//! One call of the library's reader beside the plain one's.

use std::ops::Range;

use reelpony::ffi;

use crate::plain::{self, Words};

/// All that a call is given.
#[derive(Clone)]
pub struct Call<'a> {
    pub take: &'a [u8],
    /// The length of each lent plane.
    pub lengths: [usize; 3],
    pub reader: Words,
    /// What the planes hold before the call, and how they are aligned.
    pub salt: u8,
}

/// All that a call answers and leaves.
pub struct Left {
    pub answer: Words,
    pub reader: Words,
    pub planes: [Vec<u8>; 3],
}

/// A plane with bytes on both sides that no call may touch.
struct Lent {
    whole: Vec<u8>,
    margin: usize,
}

impl Lent {
    fn new(length: usize, salt: u8) -> Lent {
        let margin = 32 + usize::from(salt % 16);
        let whole = (0..margin + length + margin).map(|i| old(i, salt)).collect();
        Lent { whole, margin }
    }

    fn inside(&self) -> Range<usize> {
        self.margin..self.whole.len() - self.margin
    }

    fn margins_stay(&self, salt: u8) -> bool {
        let outside = (0..self.margin).chain(self.inside().end..self.whole.len());
        outside.into_iter().all(|i| self.whole[i] == old(i, salt))
    }
}

/// What a plane's memory holds before a call. Neighbours differ, and so do salts.
fn old(i: usize, salt: u8) -> u8 {
    (i as u8).wrapping_mul(151) ^ (i >> 8) as u8 ^ salt
}

impl Call<'_> {
    /// Makes the call with both readers. Answers what both left, or how they differ.
    pub fn compare(&self) -> Result<Left, String> {
        let mut lent = self.lengths.map(|length| Lent::new(length, self.salt));
        let mut planes = lent.each_ref().map(|plane| plane.whole[plane.inside()].to_vec());
        let mut reader = self.reader;
        let answer = plain::read(self.take, &mut planes, &mut reader);

        let mut found_reader = self.reader;
        let lent_planes = lent.each_mut().map(|plane| {
            let inside = plane.inside();
            &mut plane.whole[inside]
        });
        let found = ffi::read(self.take, lent_planes, &mut found_reader);

        if found.words != answer {
            return Err(format!("the library answers {:?}, not {answer:?}", found.words));
        }
        if u64::from(found.number) != answer[6] {
            return Err(format!("answer {answer:?}, but the result is {}", found.number));
        }
        if found_reader != reader {
            return Err(format!(
                "answer {answer:?}: the library leaves the state {found_reader:?}, not {reader:?}"
            ));
        }
        for (name, (lent, plane)) in ["Y", "Cb", "Cr"].into_iter().zip(lent.iter().zip(&planes)) {
            let found = &lent.whole[lent.inside()];
            if let Some(at) = (0..plane.len()).find(|&i| found[i] != plane[i]) {
                return Err(format!(
                    "answer {answer:?}: byte {at} of {name} is {:02x}, not {:02x}",
                    found[at], plane[at]
                ));
            }
            if !lent.margins_stay(self.salt) {
                return Err(format!("answer {answer:?}: bytes outside of {name} were changed"));
            }
        }
        Ok(Left { answer, reader, planes })
    }

    /// What the planes hold before the call.
    pub fn old_planes(&self) -> [Vec<u8>; 3] {
        self.lengths.map(|length| {
            let lent = Lent::new(length, self.salt);
            lent.whole[lent.inside()].to_vec()
        })
    }
}

/// A call that the readers differ in, with everything left out that isn't needed for it.
pub struct Smallest {
    take: Vec<u8>,
    lengths: [usize; 3],
    reader: Words,
    salt: u8,
    what: String,
}

impl Smallest {
    /// From one that they differ in: leaves out stretches of the take, long ones first and single
    /// bytes last, then the planes, and sets numbers of the state to 0, as long as they still differ.
    pub fn of(call: &Call, what: String) -> Smallest {
        let Call { take, lengths, reader, salt } = *call;
        let mut small = Smallest { take: take.to_vec(), lengths, reader, salt, what };
        let mut piece = small.take.len();
        // Bytes that may still be read for this, so that a large take doesn't take for ever.
        let mut budget: usize = 1 << 26;
        while piece > 0 {
            let mut at = 0;
            while at < small.take.len() && budget > small.take.len() {
                budget -= small.take.len();
                let end = (at + piece).min(small.take.len());
                let mut less = small.take.clone();
                less.drain(at..end);
                let mut reader = small.reader;
                // The place goes along with the bytes behind the stretch.
                reader[0] -= reader[0].min(end as u64).saturating_sub(at as u64);
                if !small.still_differs(less, small.lengths, reader) {
                    at += piece;
                }
            }
            piece /= 2;
        }
        for plane in 0..3 {
            let mut lengths = small.lengths;
            lengths[plane] = 0;
            small.still_differs(small.take.clone(), lengths, small.reader);
        }
        for word in 0..8 {
            let mut reader = small.reader;
            reader[word] = 0;
            small.still_differs(small.take.clone(), small.lengths, reader);
        }
        small
    }

    /// Keeps what is given if the readers differ in it too.
    fn still_differs(&mut self, take: Vec<u8>, lengths: [usize; 3], reader: Words) -> bool {
        let Err(what) = (Call { take: &take, lengths, reader, salt: self.salt }).compare() else {
            return false;
        };
        *self = Smallest { take, lengths, reader, salt: self.salt, what };
        true
    }

    /// For a person.
    pub fn text(&self) -> String {
        const ENOUGH: usize = 400;
        let Smallest { take, lengths, reader, what, .. } = self;
        let pairs = take.iter().take(ENOUGH).map(|byte| format!("{byte:02x}"));
        let pairs: Vec<String> = pairs.collect();
        let more = if take.len() > ENOUGH { " .." } else { "" };
        format!(
            "{what}\nthe smallest found: a take of {} bytes: {}{more}\nstate {reader:?}, planes of \
             {lengths:?} bytes",
            take.len(),
            pairs.join(" ")
        )
    }
}
