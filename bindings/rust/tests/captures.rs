//! The binary32 calls against a conversion that works on bit patterns with integers alone.

mod exhaustive;
mod integer_only;
mod support;

use exhaustive::{Scheme, KINDS};
use integer_only::{capture, sample, soft, softs, MAX_SCALE, MAX_SOFT_SCALE};
use softdemap::{quadrature_i32, sample_i32, samples_i32, soft_f32, softs_f32, Quadrature};
use support::draws::Draws;
use support::guarded::Guarded;
use support::{in_numbers, Counts, Shown};

// ---- random numbers ----

/// Bits of particular numbers: zeros, infinities, NaNs of all sorts, the ends of subnormal and normal numbers, and 1.
const PARTICULAR: [u32; 12] = [
    0,
    0x7F80_0000,
    0x7F80_0001,
    0x7FC0_0000,
    0x7FFF_FFFF,
    0x7FBF_FFFF,
    1,
    0x007F_FFFF,
    0x0080_0000,
    0x7F7F_FFFF,
    0x3F80_0000,
    0x3F00_0000,
];

/// The bits of `odd` halves over 2^scale, exact where `odd` is below 2^24.
fn halves(odd: u32, scale: u8) -> u32 {
    let power = 127 - 1 - u32::from(scale);
    (odd as f32 * f32::from_bits(power << 23)).to_bits()
}

/// The bits of a number: a particular one, any, subnormal, a half or a whole number at this scale or beside one, or near the end of the
/// range; of either sign.
fn draw_number(draws: &mut Draws, scale: u8) -> u32 {
    let scale = scale.min(MAX_SCALE);
    let most = 2 * 1_048_576;
    let size = match draws.below(10) {
        0 => draws.one_of(&PARTICULAR),
        1 => draws.next() as u32 & 0x7FFF_FFFF,
        2 => draws.next() as u32 & 0x007F_FFFF,
        3 => halves(2 * draws.below(16) as u32 + 1, scale),
        4 => halves(draws.below(most) as u32 | 1, scale),
        5 => halves(most as u32 + draws.below(9) as u32 - 4, scale) + draws.below(9) as u32 - 4,
        6 => halves(draws.below(most) as u32 + 1, scale) + draws.below(3) as u32 - 1,
        _ => {
            let exponent = draws.between(127 - 25 - i64::from(scale), 127 + 22 - i64::from(scale)) as u32;
            exponent << 23 | (draws.next() as u32 & 0x7F_FFFF)
        }
    };
    size | (draws.below(2) as u32) << 31
}

/// A scale in its range, seldom outside.
fn draw_scale(draws: &mut Draws, most: u8) -> u8 {
    let any = draws.below(256) as u8;
    let inside = draws.below(usize::from(most) + 1) as u8;
    match draws.below(30) {
        0 => draws.one_of(&[most + 1, 255, 128, any]),
        1 => draws.one_of(&[0, most]),
        _ => inside,
    }
}

fn in_floats(numbers: &[u32]) -> Vec<f32> {
    numbers.iter().map(|&bits| f32::from_bits(bits)).collect()
}

// ---- one sample ----

fn try_sample(scale: u8, bits: u32, counts: &mut Counts) {
    let call = (scale, format!("f32::from_bits({:#010X})", bits));
    let _shown = Shown("sample_i32", &call);
    let want = sample(scale, &[bits]);
    let got = in_numbers(sample_i32(scale, f32::from_bits(bits)));
    assert_eq!(got.map(|y| vec![y]), want, "the answer (left) differs from that by integers (right)");
    counts.add(&want);
}

fn try_quadrature(scale: u8, pair: [u32; 2], counts: &mut Counts) {
    let call = (scale, format!("f32::from_bits({:#010X}), f32::from_bits({:#010X})", pair[0], pair[1]));
    let _shown = Shown("quadrature_i32", &call);
    let want = sample(scale, &pair);
    let numbers = Quadrature { in_phase: f32::from_bits(pair[0]), quadrature: f32::from_bits(pair[1]) };
    let got = in_numbers(quadrature_i32(scale, numbers));
    assert_eq!(got.map(|(yi, yq)| vec![yi, yq]), want, "the answer (left) differs from that by integers (right)");
    counts.add(&want);
}

#[test]
fn single_samples() {
    let (mut draws, mut counts) = (Draws::new(73), Counts::default());
    for _ in 0..300_000 {
        let scale = draw_scale(&mut draws, MAX_SCALE);
        let bits = draw_number(&mut draws, scale);
        try_sample(scale, bits, &mut counts);
    }
    counts.check("single samples", &[12, 13, 14], 1000);
}

#[test]
fn particular_numbers_at_every_scale() {
    let mut counts = Counts::default();
    for scale in 0..=255 {
        for sign in [0, 1 << 31] {
            PARTICULAR.iter().for_each(|bits| try_sample(scale, bits | sign, &mut counts));
            (0..255).for_each(|exponent| try_sample(scale, exponent << 23 | sign, &mut counts));
        }
    }
    counts.check("particular numbers", &[12, 13, 14], 100);
}

#[test]
fn numbers_of_document_01() {
    assert_eq!(sample_i32(0, 2.5), Ok(2));
    assert_eq!(sample_i32(0, 1_048_576.5), Ok(1_048_576));
    assert_eq!(in_numbers(sample_i32(0, 1_048_576.5 + 0.25)), Err((13, None)));
}

#[test]
fn quadrature_samples() {
    let (mut draws, mut counts) = (Draws::new(79), Counts::default());
    for _ in 0..200_000 {
        let scale = draw_scale(&mut draws, MAX_SCALE);
        let pair = [draw_number(&mut draws, scale), draw_number(&mut draws, scale)];
        try_quadrature(scale, pair, &mut counts);
    }
    counts.check("quadrature samples", &[12, 13, 14], 1000);
}

// ---- captures ----

/// The arguments of a capture call, its numbers as bits; the outputs are given by their lengths.
#[derive(Debug)]
struct CaptureCall {
    scheme: Scheme,
    scale: u8,
    numbers: Vec<u32>,
    lent: [usize; 2],
}

fn try_capture(draws: &mut Draws, call: &CaptureCall, counts: &mut Counts) {
    let _shown = Shown("samples_i32, numbers by their bits,", call);
    let want = capture(call.scheme.kind().quadrature, call.scale, &call.numbers, call.lent);
    let mut numbers = Guarded::input(draws, &in_floats(&call.numbers));
    let mut yi = Guarded::output(draws, call.lent[0]);
    let mut yq = Guarded::output(draws, call.lent[1]);
    if let Ok((in_phase, quadrature)) = &want {
        yi.should_begin(in_phase);
        yq.should_begin(quadrature);
    }
    let got = samples_i32(call.scheme.named(), call.scale, numbers.lent(), yi.lent(), yq.lent());
    let count = want.as_ref().map(|(in_phase, _)| in_phase.len()).map_err(|refusal| *refusal);
    assert_eq!(in_numbers(got), count, "the answer (left) differs from that by integers (right)");
    yi.check("yi");
    yq.check("yq");
    numbers.check("capture, an input,");
    counts.add(&want);
}

/// Numbers that are all in range, with one or two of any sort among them half of the time.
fn draw_capture(draws: &mut Draws, scale: u8, len: usize) -> Vec<u32> {
    let inside = |draws: &mut Draws| loop {
        let bits = draw_number(draws, scale);
        if scale > MAX_SCALE || sample(scale, &[bits]).is_ok() {
            return bits;
        }
    };
    let mut numbers: Vec<u32> = (0..len).map(|_| inside(draws)).collect();
    if len > 0 && draws.once_in(2) {
        for _ in 0..draws.between(1, 2) {
            let at = draws.below(len);
            numbers[at] = draw_number(draws, scale);
        }
    }
    numbers
}

/// A capture of any kind, with any bit counts.
fn draw_capture_call(draws: &mut Draws) -> CaptureCall {
    let scheme = Scheme { kind: draws.below(KINDS.len()) as u8, bits: [draws.below(256) as u8, draws.below(256) as u8] };
    let scale = draw_scale(draws, MAX_SCALE);
    let long = if draws.once_in(100) { 700 } else { 20 };
    let n = draws.below(long);
    let odd = usize::from(draws.once_in(20));
    let numbers = draw_capture(draws, scale, if scheme.kind().quadrature { 2 * n + odd } else { n });
    let mut lent = [draws.enough(n), draws.enough(n)];
    if draws.once_in(12) {
        lent[draws.below(2)] = if draws.once_in(3) { 0 } else { n.saturating_sub(1) };
    }
    CaptureCall { scheme, scale, numbers, lent }
}

#[test]
fn captures() {
    let (mut draws, mut counts) = (Draws::new(83), Counts::default());
    for _ in 0..100_000 {
        let call = draw_capture_call(&mut draws);
        try_capture(&mut draws, &call, &mut counts);
    }
    counts.check("captures", &[12, 13, 14, 15, 16], 1000);
}

/// A NaN at every place of captures of many lengths: its sample is named.
#[test]
fn a_bad_number_at_every_place() {
    let (mut draws, mut counts) = (Draws::new(89), Counts::default());
    for kind in 0..KINDS.len() as u8 {
        let scheme = Scheme { kind, bits: [1, 1] };
        for len in (2..70).step_by(2) {
            for at in 0..len {
                let mut numbers = vec![0x3F80_0000; len];
                numbers[at] = draws.one_of(&[0x7FC0_0000, 0xFF80_0000, 0x4F00_0000]);
                try_capture(&mut draws, &CaptureCall { scheme, scale: 3, numbers, lent: [len, len] }, &mut counts);
            }
        }
    }
    assert_eq!((counts.accepted, counts.refused.keys().copied().collect::<Vec<_>>()), (0, vec![12, 13]), "other answers than 12 and 13");
}

// ---- soft values ----

#[test]
fn every_soft_value_at_every_scale() {
    let mut counts = Counts::default();
    for scale in (0..=MAX_SOFT_SCALE + 2).chain([127, 128, 255]) {
        for value in i16::MIN..=i16::MAX {
            let call = (scale, value);
            let _shown = Shown("soft_f32", &call);
            let want = soft(scale, value);
            assert_eq!(in_numbers(soft_f32(scale, value)).map(f32::to_bits), want, "bits (left) differ from those by integers (right)");
            counts.add(&want);
        }
    }
    counts.check("single soft values", &[14], 1000);
}

#[test]
fn soft_values() {
    let (mut draws, mut counts) = (Draws::new(97), Counts::default());
    for _ in 0..50_000 {
        let scale = draw_scale(&mut draws, MAX_SOFT_SCALE);
        let long = if draws.once_in(100) { 700 } else { 30 };
        let values: Vec<i16> = (0..draws.below(long)).map(|_| draws.next() as i16 >> draws.below(16)).collect();
        let short = draws.one_of(&[0, values.len().saturating_sub(1)]);
        let lent = if draws.once_in(8) { short } else { draws.enough(values.len()) };
        let call = (scale, &values, lent);
        let _shown = Shown("softs_f32", &call);
        let want = softs(scale, &values, lent);
        let mut input = Guarded::input(&mut draws, &values);
        let mut output = Guarded::output(&mut draws, lent);
        if let Ok(bits) = &want {
            output.should_begin(&in_floats(bits));
        }
        let got = in_numbers(softs_f32(scale, input.lent(), output.lent()));
        assert_eq!(got, want.as_ref().map(|bits| bits.len()).map_err(|refusal| *refusal));
        output.check("x");
        input.check("soft, an input,");
        counts.add(&want);
    }
    counts.check("soft values", &[14, 15], 500);
}
