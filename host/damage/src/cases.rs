//! Calls with the answer that paper 01 gives, written down by hand: the smallest input for each
//! refusal, and the corners that are easily got wrong.

use crate::plain::{Words, END, PICTURE, PPS, REFUSED, SPS};

/// A call and what it has to answer and leave. Planes are changed by a picture alone.
pub struct Case {
    pub name: &'static str,
    pub take: Vec<u8>,
    pub reader: Words,
    pub lengths: [usize; 3],
    pub answer: Words,
    pub left: Words,
}

/// Of monochrome 8, 16x16, as the paper has it.
const SPS_16: &[u8] = &[0x67, 0x64, 0, 0x0A, 0xF3, 0xDC, 0x9B, 1];
/// Of 17x16.
const SPS_17: &[u8] = &[0x67, 0x64, 0, 0x0A, 0xF3, 0xCB, 0x61, 0x0E, 0x6C, 4];
const PPS_UNIT: &[u8] = &[0x68, 0xCE, 0x38, 0x80];

/// The shortest start code.
const CODE: &[u8] = &[0, 0, 1];

/// Nothing held.
const FRESH: Words = [0; 8];
/// Both sets held, for monochrome 8, 16x16.
const HELD: Words = [0, 1, 16, 16, 0, 8, 1, 0];
/// Planes for such a picture.
const ENOUGH: [usize; 3] = [256, 0, 0];

/// A picture's unit whose samples are all `value`, with nothing to escape.
fn picture(value: u8) -> Vec<u8> {
    let mut unit = vec![0x25, 0x88, 0x84, 0x28, 0x68];
    unit.extend([value; 256]);
    unit.push(0x80);
    unit
}

/// The state at another place.
fn at(place: u64, mut reader: Words) -> Words {
    reader[0] = place;
    reader
}

/// The answer of a refusal.
fn refused(number: u64, offset: u64) -> Words {
    [REFUSED, offset, 0, 0, 0, 0, number, 0]
}

/// The answer of something that has no numbers but its offset.
fn found(what: u64, offset: u64) -> Words {
    [what, offset, 0, 0, 0, 0, 0, 0]
}

/// The answer of the 16x16 SPS.
fn sps_16(offset: u64) -> Words {
    [SPS, offset, 16, 16, 0, 8, 0, 0]
}

/// All cases.
pub fn cases() -> Vec<Case> {
    let mut cases = Vec::new();
    let mut add = |name, pieces: &[&[u8]], reader, lengths, answer, left| {
        let take = pieces.concat();
        cases.push(Case { name, take, reader, lengths, answer, left });
    };
    let end = found(END, 0);
    let bright = picture(0x10);
    let none = [0; 3];

    add("no bytes", &[], FRESH, none, end, FRESH);
    add("zeros only", &[&[0; 5]], FRESH, none, end, FRESH);
    add("zeros only, behind the first", &[&[0; 5]], at(2, HELD), ENOUGH, end, at(2, HELD));
    add("at the end", &[CODE], at(3, FRESH), none, end, at(3, FRESH));
    add("beyond the end", &[CODE], at(4, FRESH), none, end, at(4, FRESH));
    add("far beyond", &[CODE], at(u64::MAX, HELD), none, end, at(u64::MAX, HELD));
    add("the last zero alone", &[CODE, &[9, 0]], at(4, FRESH), none, end, at(4, FRESH));

    add("10: one byte", &[&[7]], FRESH, none, refused(10, 0), at(1, FRESH));
    add("10: a 1 without zeros", &[&[1]], FRESH, none, refused(10, 0), at(1, FRESH));
    add("10: zeros around", &[&[0, 0, 7, 0, 0, 0]], FRESH, none, refused(10, 0), at(6, FRESH));
    add("10: to a start code", &[&[7], CODE], FRESH, none, refused(10, 0), at(1, FRESH));
    add("10: to its zeros too", &[&[7, 0], CODE], FRESH, none, refused(10, 0), at(2, FRESH));
    add("10: from a code's middle", &[CODE], at(1, FRESH), none, refused(10, 1), at(3, FRESH));
    add("10: from its last byte", &[CODE], at(2, HELD), ENOUGH, refused(10, 2), at(3, HELD));

    add("11: a bare start code", &[CODE], FRESH, none, refused(11, 3), at(3, FRESH));
    add("11: zeros around it", &[&[0], CODE, &[0; 4]], FRESH, none, refused(11, 4), at(8, FRESH));
    add("11: two start codes", &[CODE, CODE], FRESH, none, refused(11, 3), at(3, FRESH));
    add(
        "11: four bytes each",
        &[&[0], CODE, &[0], CODE],
        FRESH,
        none,
        refused(11, 4),
        at(5, FRESH),
    );

    add("12: 00 00 02", &[CODE, &[0, 0, 2]], FRESH, none, refused(12, 3), at(6, FRESH));
    add("12: 00 00 00", &[CODE, &[0, 0, 0, 9]], FRESH, none, refused(12, 3), at(7, FRESH));
    add("12: 00 00 03 04", &[CODE, &[0, 0, 3, 4]], FRESH, none, refused(12, 3), at(7, FRESH));
    add("12: before 13", &[CODE, &[9, 0, 0, 2]], FRESH, none, refused(12, 3), at(7, FRESH));
    add(
        "12: behind an inserted 03",
        &[CODE, &[0x25, 0, 0, 3, 0, 0, 3, 4]],
        HELD,
        ENOUGH,
        refused(12, 3),
        at(11, HELD),
    );
    add(
        "12: before 14 and 16",
        &[CODE, &[0x67, 0, 0, 2], CODE],
        FRESH,
        none,
        refused(12, 3),
        at(7, FRESH),
    );

    add("13: another header", &[CODE, &[9]], FRESH, none, refused(13, 3), at(4, FRESH));
    add("13: 65, no picture here", &[CODE, &[0x65]], HELD, ENOUGH, refused(13, 3), at(4, HELD));
    add("13: 00 00 03 03", &[CODE, &[0, 0, 3, 3]], FRESH, none, refused(13, 3), at(7, FRESH));
    add("13: 00 00 03 at the end", &[CODE, &[0, 0, 3]], FRESH, none, refused(13, 3), at(6, FRESH));

    add("14: an SPS's header alone", &[CODE, &[0x67]], FRESH, none, refused(14, 3), at(4, FRESH));
    add("14: a PPS's", &[CODE, &[0x68]], FRESH, none, refused(14, 3), at(4, FRESH));
    add("14: PPS, a byte short", &[CODE, &PPS_UNIT[..3]], HELD, none, refused(14, 3), at(6, HELD));
    add("14: an SPS and a byte", &[CODE, SPS_16, &[1]], FRESH, none, refused(14, 3), at(12, FRESH));
    add(
        "14: a PPS and two zeros, as 00 00 03",
        &[CODE, PPS_UNIT, &[0, 0, 3]],
        FRESH,
        none,
        refused(14, 3),
        at(10, FRESH),
    );
    add(
        "14: an SPS and two zeros, as 00 00 03",
        &[CODE, SPS_16, &[0, 0, 3]],
        HELD,
        none,
        refused(14, 3),
        at(14, HELD),
    );
    add("14: before 15", &[CODE, &SPS_17[..9]], HELD, none, refused(14, 3), at(12, HELD));
    add(
        "14: monochrome 12, 15x16",
        &[CODE, &[0x67, 0xF4, 0, 0x0A, 0xCA, 0x53, 0xDD, 0xAE, 0x6C, 4]],
        FRESH,
        none,
        refused(14, 3),
        at(13, FRESH),
    );
    add(
        "SPS of monochrome 12, 14x16",
        &[CODE, &[0x67, 0xF4, 0, 0x0A, 0xCA, 0x53, 0xDD, 0xBE, 0x6C, 4]],
        FRESH,
        none,
        [SPS, 3, 14, 16, 0, 12, 0, 0],
        [13, 1, 14, 16, 0, 12, 0, 0],
    );
    add(
        "14: monochrome 8, 16,400x16",
        &[CODE, &[0x67, 0x64, 0, 0x0A, 0xF3, 0xC0, 4, 1, 0xC9, 0xB0, 0x10]],
        FRESH,
        none,
        refused(14, 3),
        at(14, FRESH),
    );
    add(
        "SPS of monochrome 8, 16,384x16,384",
        &[CODE, &[0x67, 0x64, 0, 0x0A, 0xF3, 0xC0, 4, 0, 0, 0x20, 4, 0x9B, 1]],
        FRESH,
        none,
        [SPS, 3, 16_384, 16_384, 0, 8, 0, 0],
        [16, 1, 16_384, 16_384, 0, 8, 0, 0],
    );

    add("SPS", &[CODE, SPS_16], FRESH, none, sps_16(3), [11, 1, 16, 16, 0, 8, 0, 0]);
    add(
        "SPS, cropped",
        &[CODE, SPS_17, &[0; 3]],
        FRESH,
        none,
        [SPS, 3, 17, 16, 0, 8, 0, 0],
        [16, 1, 17, 16, 0, 8, 0, 0],
    );
    add("SPS again", &[CODE, SPS_16, CODE], HELD, none, sps_16(3), at(11, HELD));
    add(
        "SPS behind a PPS",
        &[CODE, SPS_16],
        [0, 0, 5, 5, 5, 5, 1, 77],
        none,
        sps_16(3),
        [11, 1, 16, 16, 0, 8, 1, 77],
    );
    add(
        "SPS where an impossible one is held",
        &[CODE, SPS_16],
        [0, 1, 16_385, 16, 0, 8, 1, 0],
        none,
        sps_16(3),
        [11, 1, 16, 16, 0, 8, 0, 0],
    );
    add(
        "SPS where the PPS's flag is 2",
        &[CODE, SPS_16],
        [0, 1, 17, 16, 0, 8, 2, 0],
        none,
        sps_16(3),
        [11, 1, 16, 16, 0, 8, 0, 0],
    );

    add("15", &[CODE, SPS_17], HELD, none, refused(15, 3), at(13, HELD));
    let other_kind = [0, 1, 16, 16, 0, 12, 0, 3];
    add(
        "15: the depth alone",
        &[CODE, SPS_16],
        other_kind,
        none,
        refused(15, 3),
        at(11, other_kind),
    );

    add("PPS", &[CODE, PPS_UNIT], FRESH, none, found(PPS, 3), [7, 0, 0, 0, 0, 0, 1, 0]);
    add("PPS again", &[CODE, PPS_UNIT], HELD, none, found(PPS, 3), at(7, HELD));
    add(
        "PPS before an SPS, over numbers of no meaning",
        &[CODE, PPS_UNIT],
        [0, 0, 16, 99, 2, 7, 0, 5],
        none,
        found(PPS, 3),
        [7, 0, 0, 0, 0, 0, 1, 5],
    );
    add(
        "PPS where an impossible SPS is held",
        &[CODE, PPS_UNIT],
        [0, 1, 16, 0, 0, 8, 0, 5],
        none,
        found(PPS, 3),
        [7, 0, 0, 0, 0, 0, 1, 5],
    );
    add(
        "PPS where the SPS's flag is 2",
        &[CODE, PPS_UNIT],
        [0, 2, 16, 16, 0, 8, 1, 5],
        none,
        found(PPS, 3),
        [7, 0, 0, 0, 0, 0, 1, 5],
    );

    add("16: nothing held", &[CODE, &[0x25]], FRESH, none, refused(16, 3), at(4, FRESH));
    let no_pps = [0, 1, 16, 16, 0, 8, 0, 0];
    add("16: no PPS", &[CODE, &bright], no_pps, ENOUGH, refused(16, 3), at(265, no_pps));
    let no_sps = [0, 0, 16, 16, 0, 8, 1, 0];
    add("16: no SPS", &[CODE, &bright], no_sps, ENOUGH, refused(16, 3), at(265, no_sps));
    for (name, reader) in [
        ("16: an SPS's flag of 2", [0, 2, 16, 16, 0, 8, 1, 0]),
        ("16: a PPS's flag of 2", [0, 1, 16, 16, 0, 8, 2, 0]),
        ("16: a width of 2^32 + 16", [0, 1, (1 << 32) + 16, 16, 0, 8, 1, 0]),
        ("16: a height of 0", [0, 1, 16, 0, 0, 8, 1, 0]),
        ("16: a colour of 2", [0, 1, 16, 16, 2, 8, 1, 0]),
        ("16: a depth of 10", [0, 1, 16, 16, 0, 10, 1, 0]),
        ("16: a width that its kind can't have", [0, 1, 15, 16, 0, 12, 1, 0]),
        ("16: a height that its kind can't have", [0, 1, 16, 15, 1, 8, 1, 0]),
    ] {
        add(name, &[CODE, &bright], reader, [1000; 3], refused(16, 3), at(265, reader));
    }

    add("17: a header alone", &[CODE, &[0x25]], HELD, none, refused(17, 3), at(4, HELD));
    add("17: a byte short", &[CODE, &bright[..261]], HELD, ENOUGH, refused(17, 3), at(264, HELD));
    add("17: before 18", &[CODE, &[0x25, 0x89]], HELD, ENOUGH, refused(17, 3), at(5, HELD));
    add(
        "17: two bytes short, the last two zeros as 00 00 03",
        &[CODE, &bright[..258], &[0, 0, 3]],
        HELD,
        ENOUGH,
        refused(17, 3),
        at(264, HELD),
    );
    add(
        "17: a byte short, the last two zeros as 00 00 03",
        &[CODE, &bright[..259], &[0, 0, 3]],
        HELD,
        ENOUGH,
        refused(17, 3),
        at(265, HELD),
    );
    add(
        "17: short by trailing zeros",
        &[CODE, &bright[..258], &[0; 4]],
        HELD,
        ENOUGH,
        refused(17, 3),
        at(265, HELD),
    );

    add("18: longer", &[CODE, &bright, &[0x80]], HELD, ENOUGH, refused(18, 3), at(266, HELD));
    add(
        "18: longer by two zeros, as 00 00 03",
        &[CODE, &bright, &[0, 0, 3]],
        HELD,
        ENOUGH,
        refused(18, 3),
        at(268, HELD),
    );
    add(
        "18: the last byte, in two zeros as 00 00 03",
        &[CODE, &bright[..260], &[0, 0, 3]],
        HELD,
        ENOUGH,
        refused(18, 3),
        at(266, HELD),
    );
    for place in 1..5 {
        let mut other = bright.clone();
        other[place] ^= 1;
        add("18: the slice header", &[CODE, &other], HELD, none, refused(18, 3), at(265, HELD));
    }
    let mut other = bright.clone();
    other[261] = 0x81;
    add("18: the last byte", &[CODE, &other], HELD, ENOUGH, refused(18, 3), at(265, HELD));
    let wide = [0, 1, 32, 16, 0, 8, 1, 0];
    for (name, head, answer) in [
        ("two macroblocks", [0x0D, 0], found(PICTURE, 3)),
        ("18: a macroblock's type", [0x0C, 0], refused(18, 3)),
        ("18: a macroblock's alignment", [0x0D, 1], refused(18, 3)),
    ] {
        let (front, last) = bright.split_at(261);
        let pieces = [CODE, front, &head, &[0x10; 256], last];
        add(name, &pieces, wide, [512, 0, 0], answer, at(523, wide));
    }

    add("19", &[CODE, &bright], HELD, [255, 999, 999], refused(19, 3), HELD);
    add("19: keeps the zeros in front", &[&[0], CODE, &bright], HELD, none, refused(19, 4), HELD);
    add("picture", &[CODE, &bright], HELD, ENOUGH, found(PICTURE, 3), at(265, HELD));
    add(
        "picture, larger planes",
        &[CODE, &bright],
        HELD,
        [300; 3],
        found(PICTURE, 3),
        at(265, HELD),
    );
    add(
        "picture, zeros around, a start code behind",
        &[&[0; 3], CODE, &bright, &[0; 7], CODE],
        HELD,
        ENOUGH,
        found(PICTURE, 6),
        at(275, HELD),
    );
    let small = [0, 1, 1, 1, 0, 8, 1, u64::MAX];
    add(
        "picture of one sample",
        &[CODE, &bright],
        small,
        [1, 0, 0],
        found(PICTURE, 3),
        at(265, small),
    );
    cases
}
