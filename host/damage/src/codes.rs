//! The small calls beside plain ones: escaping, unescaping, and both Exp-Golomb codes.

use common::Noise;
use reelpony::ffi::{self, Answer, CodeAnswer};

use crate::draw;
use crate::plain::{self, Bits};

/// Both ways of escaping, then both codes, each written and read.
pub fn compare(noise: &mut Noise) -> Result<(), String> {
    let payload = draw::rubble(noise);
    let has_code = plain::start_code(&payload, 0).is_some();
    let unescapes = plain::is_escaped(&payload) && !has_code;
    let escaped = plain::escape(&payload);
    let unescaped = if unescapes { Ok(plain::unescape(&payload)) } else { Err(12) };
    bytes(noise, "escape", ffi::escape, &payload, Ok(escaped.clone()))?;
    bytes(noise, "unescape", ffi::unescape, &payload, unescaped)?;
    bytes(noise, "unescape", ffi::unescape, &escaped, Ok(payload))?;
    write(noise)?;
    read(noise)
}

/// A call that writes bytes, with more room than it needs, or no byte to spare, or too few.
fn bytes(
    noise: &mut Noise,
    name: &str,
    call: fn(&[u8], &mut [u8]) -> Answer,
    payload: &[u8],
    wanted: Result<Vec<u8>, u32>,
) -> Result<(), String> {
    let needed = wanted.as_ref().map_or(0, Vec::len);
    let room = match noise.below(3) {
        0 => needed,
        1 => needed + 5,
        _ => noise.below(needed as u64 + 1) as usize,
    };
    let wanted = wanted.and_then(|bytes| if room < needed { Err(21) } else { Ok(bytes) });
    let mut out = vec![0xEE; room];
    let mut left = out.clone();
    let answer = match &wanted {
        Ok(bytes) => {
            left[..needed].copy_from_slice(bytes);
            Answer { number: 0, length: needed as u64 }
        }
        Err(number) => Answer { number: *number, length: 0 },
    };
    let found = call(payload, &mut out);
    if (found, &out) != (answer, &left) {
        return Err(format!(
            "{name} of {payload:02x?} into {room} bytes: {found:?} and {out:02x?}, not {answer:?} \
             and {left:02x?}"
        ));
    }
    Ok(())
}

/// A number of any size, the ends of the domains among them.
fn number(noise: &mut Noise) -> u32 {
    let any = noise.below(1 << 32) as u32;
    let few = any >> noise.below(32);
    noise.pick(&[few, few, few, 0, 1, u32::MAX, u32::MAX - 1, 1 << 31, (1 << 31) - 1, any])
}

/// The unsigned number whose code is the signed code of x.
fn unsigned(x: i32) -> u64 {
    let x = i64::from(x);
    (if x > 0 { 2 * x - 1 } else { -2 * x }) as u64
}

/// Bits of a buffer, with some at hand: a place in it, now and then behind or far beyond its end.
fn buffer(noise: &mut Noise) -> (Vec<u8>, u64) {
    let zeros = noise.once_in(2);
    let byte =
        |noise: &mut Noise| if zeros { noise.pick(&[0, 0, 0, 1, 64]) } else { noise.below(256) };
    let buffer: Vec<u8> = (0..noise.below(14)).map(|_| byte(noise) as u8).collect();
    let place = match noise.below(8) {
        0 => noise.pick(&[buffer.len() as u64 * 8, 1 << 32, 1 << 63, u64::MAX]),
        _ => noise.below(buffer.len() as u64 * 8 + 2),
    };
    (buffer, place)
}

/// A code written: its own bits and no others, or 20, or 21.
fn write(noise: &mut Noise) -> Result<(), String> {
    let (old, place) = buffer(noise);
    let x = number(noise);
    let calls = [
        ("write_ue", ffi::write_ue as fn(&mut [u8], u64, u32) -> CodeAnswer<()>, u64::from(x)),
        ("write_se", |buffer, place, x| ffi::write_se(buffer, place, x as i32), unsigned(x as i32)),
    ];
    for (name, call, code_of) in calls {
        let mut code = Bits::default();
        code.put_code(code_of);
        let mut bits = Bits::of(&old);
        let behind = u128::from(place) + code.bits.len() as u128;
        let number = match () {
            _ if code_of > (1 << 32) - 2 => 20,
            _ if behind > bits.bits.len() as u128 => 21,
            _ => 0,
        };
        let mut answer = CodeAnswer { number, x: (), behind: place };
        if number == 0 {
            bits.bits[place as usize..behind as usize].copy_from_slice(&code.bits);
            answer.behind = behind as u64;
        }
        let mut found = old.clone();
        let given = call(&mut found, place, x);
        if (given, &found) != (answer, &bits.packed()) {
            return Err(format!(
                "{name} of {x} at {place} of {old:02x?}: {given:?} and {found:02x?}, not {answer:?} \
                 and {:02x?}",
                bits.packed()
            ));
        }
    }
    Ok(())
}

/// A code read, or 22.
fn read(noise: &mut Noise) -> Result<(), String> {
    let (payload, place) = buffer(noise);
    let before = number(noise);
    let answer = |read: Option<(u32, u64)>| match read {
        Some((x, behind)) => CodeAnswer { number: 0, x, behind },
        None => CodeAnswer { number: 22, x: before, behind: place },
    };
    let code = Bits::at(&payload, place).and_then(|mut bits| {
        let x = bits.code()?;
        Some((x, bits.place() as u64))
    });
    let wanted = answer(code.map(|(x, behind)| (x as u32, behind)));
    let found = ffi::read_ue(&payload, place, before);
    if found != wanted {
        return Err(format!("read_ue at {place} of {payload:02x?}: {found:?}, not {wanted:?}"));
    }
    let signed = |x: u64| if x % 2 == 1 { x.div_ceil(2) as i64 } else { -(x as i64 / 2) };
    let wanted = answer(code.map(|(x, behind)| (signed(x) as u32, behind)));
    let found = ffi::read_se(&payload, place, before as i32);
    let found = CodeAnswer { number: found.number, x: found.x as u32, behind: found.behind };
    if found != wanted {
        return Err(format!("read_se at {place} of {payload:02x?}: {found:?}, not {wanted:?}"));
    }
    Ok(())
}
