//! Exp-Golomb codes, written and read at a bit place of a lent buffer. A byte's most significant
//! bit is its first.

use crate::ffi::{self, CodeAnswer};
use crate::Refusal;

/// Writes the unsigned code of a number up to 2^32 - 2. Answers the place behind it; no other bit
/// changes.
pub fn write_ue(buffer: &mut [u8], place: u64, x: u32) -> Result<u64, Refusal> {
    accepted(ffi::write_ue(buffer, place, x)).map(|((), behind)| behind)
}

/// Writes the signed code of a number other than -2^31.
pub fn write_se(buffer: &mut [u8], place: u64, x: i32) -> Result<u64, Refusal> {
    accepted(ffi::write_se(buffer, place, x)).map(|((), behind)| behind)
}

/// The number whose unsigned code stands at the place, and the place behind it.
pub fn read_ue(payload: &[u8], place: u64) -> Result<(u32, u64), Refusal> {
    accepted(ffi::read_ue(payload, place, 0))
}

/// The same for the signed code.
pub fn read_se(payload: &[u8], place: u64) -> Result<(i32, u64), Refusal> {
    accepted(ffi::read_se(payload, place, 0))
}

/// What an answer other than a refusal has.
fn accepted<T>(answer: CodeAnswer<T>) -> Result<(T, u64), Refusal> {
    match answer.number {
        0 => Ok((answer.x, answer.behind)),
        number => Err(Refusal::of(number, 0)),
    }
}
