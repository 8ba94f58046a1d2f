//! The binary32 conversions on bit patterns, with integers alone, written from REQUIREMENTS, "Captures in binary32".
#![allow(dead_code)] // each test program uses a part

use softdemap::Place;

use crate::exhaustive::{Refusal, MAX_SAMPLE};

pub const MAX_SCALE: u8 = 20;
pub const MAX_SOFT_SCALE: u8 = 14;

/// The number with these bits times 2^scale as a whole number, halves to even, or the number of its refusal, 12 or 13.
fn coordinate(scale: u8, bits: u32) -> Result<i32, u8> {
    let (negative, exponent, fraction) = (bits >> 31 == 1, bits >> 23 & 255, bits & 0x7F_FFFF);
    if exponent == 255 {
        return Err(12);
    }
    // The size is `significand` times 2^power.
    let significand = u64::from(if exponent == 0 { fraction } else { fraction | 0x80_0000 });
    let power = exponent.max(1) as i32 - 150 + i32::from(scale);
    let size = match power {
        40.. => significand.min(1) << 40,
        0..=39 => significand << power,
        -40..=-1 => {
            let (unit, half) = (1u64 << -power, 1u64 << (-power - 1));
            let (whole, rest) = (significand / unit, significand % unit);
            let up = rest > half || (rest == half && whole % 2 == 1);
            whole + u64::from(up)
        }
        _ => 0,
    };
    if size > MAX_SAMPLE as u64 {
        return Err(13);
    }
    Ok(if negative { -(size as i32) } else { size as i32 })
}

/// One sample, of one number or of two; the answer has as many.
pub fn sample(scale: u8, numbers: &[u32]) -> Result<Vec<i32>, Refusal> {
    if scale > MAX_SCALE {
        return Err((14, None));
    }
    numbers.iter().map(|&bits| coordinate(scale, bits).map_err(|number| (number, None))).collect()
}

/// A capture, in phase and in quadrature, where the second is empty unless samples have a `quadrature` part; `lent` has the two lent
/// lengths.
pub fn capture(quadrature: bool, scale: u8, numbers: &[u32], lent: [usize; 2]) -> Result<(Vec<i32>, Vec<i32>), Refusal> {
    if scale > MAX_SCALE {
        return Err((14, None));
    }
    let width = if quadrature { 2 } else { 1 };
    if numbers.len() % width != 0 {
        return Err((16, None));
    }
    let n = numbers.len() / width;
    if lent[0] < n || (quadrature && lent[1] < n) {
        return Err((15, None));
    }
    let (mut yi, mut yq) = (Vec::new(), Vec::new());
    for (s, pair) in numbers.chunks(width).enumerate() {
        let whole = sample(scale, pair).map_err(|(number, _)| (number, Some(Place::Sample(s))))?;
        yi.push(whole[0]);
        yq.extend(whole.get(1));
    }
    Ok((yi, yq))
}

/// The bits of a soft value times 2^(-scale).
pub fn soft(scale: u8, value: i16) -> Result<u32, Refusal> {
    if scale > MAX_SOFT_SCALE {
        return Err((14, None));
    }
    let size = u32::from(value.unsigned_abs());
    if size == 0 {
        return Ok(0);
    }
    let top = 31 - size.leading_zeros(); // the place of the leading 1
    let exponent = 127 + top - u32::from(scale);
    let fraction = size << (23 - top) & 0x7F_FFFF;
    Ok(u32::from(value < 0) << 31 | exponent << 23 | fraction)
}

/// Soft values; `lent` is the lent length.
pub fn softs(scale: u8, values: &[i16], lent: usize) -> Result<Vec<u32>, Refusal> {
    if scale > MAX_SOFT_SCALE {
        return Err((14, None));
    }
    if lent < values.len() {
        return Err((15, None));
    }
    values.iter().map(|&value| soft(scale, value)).collect()
}
