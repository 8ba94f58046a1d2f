//! Random frames without fault, and faults for them.

use super::draws::Draws;
use crate::exhaustive::{sizes, Header, Scheme, KINDS, MAX_GAIN, MAX_SAMPLE};

/// The arguments of a frame call; the outputs are given by their lengths.
#[derive(Clone, Debug)]
pub struct FrameCall {
    pub header: Header,
    pub gains: Vec<u16>,
    /// empty where symbols have none of their own
    pub weights: Vec<u16>,
    pub yi: Vec<i32>,
    pub yq: Vec<i32>,
    /// of the hard bits, soft values, probe indices and probe costs
    pub lent: [usize; 4],
}

/// The 49 modulations.
pub fn schemes() -> Vec<Scheme> {
    let mut list = Vec::new();
    for (number, kind) in KINDS.iter().enumerate() {
        for i in kind.bits_i.clone() {
            list.extend((kind.bits_q)(i).map(|q| Scheme { kind: number as u8, bits: [i, q] }));
        }
    }
    list
}

pub fn draw_gain(draws: &mut Draws) -> u16 {
    match draws.below(6) {
        0 => draws.one_of(&[0, 1, 2, 4094, MAX_GAIN]),
        1 => 1 << draws.below(12),
        2 => draws.below(17) as u16,
        _ => draws.below(4096) as u16,
    }
}

fn held(y: i64) -> i32 {
    y.clamp(-i64::from(MAX_SAMPLE), i64::from(MAX_SAMPLE)) as i32
}

/// A sample on an axis with m bits: at or beside a level or the middle between two, small, a power of two, an end of the range, or any.
fn draw_axis(draws: &mut Draws, gain: u16, m: u8) -> i32 {
    let (gain, most) = (i64::from(gain), i64::from(MAX_SAMPLE));
    let top = (1 << m) - 1;
    let level = 2 * draws.between(0, top) - top;
    let sign = draws.one_of(&[-1, 1]);
    held(match draws.below(9) {
        0 => gain * level,
        1 => gain * (level + 1),
        2 => gain * (level + 1) + sign,
        3 => gain * level + draws.between(-gain - 1, gain + 1),
        4 => draws.between(-20, 20),
        5 => sign << draws.below(21),
        6 => sign * (most - draws.between(0, 2)),
        7 => draws.between(-9 * gain, 9 * gain),
        _ => draws.between(-most, most),
    })
}

/// Directions in which PSK has equal costs or nearly so: axes, diagonals, points, and edges between points.
const DIRECTIONS: [(i64, i64); 9] = [
    (1, 0),
    (1, 1),
    (15137 + 6270, 15137 + 6270),
    (16069 + 13623, 3196 + 9102),
    (5906, 2446),
    (100_000, 41_418),
    (13623, 9102),
    (16069, 3196),
    (15137, 6270),
];

/// A sample of PSK: a direction times a length, sometimes off by one, or powers of two, ends of the range, or any; turned and mirrored.
fn draw_phase(draws: &mut Draws) -> (i32, i32) {
    let most = i64::from(MAX_SAMPLE);
    let (mut u, mut v) = match draws.below(8) {
        0 => (1 << draws.below(21), 1 << draws.below(21)),
        1 => (draws.one_of(&[0, 1, most - 1, most]), draws.one_of(&[0, 1, most - 1, most])),
        2 => (draws.between(0, most), draws.between(0, most)),
        _ => {
            let (u, v) = draws.one_of(&DIRECTIONS);
            let length = draws.between(0, most / u);
            (u * length, v * length)
        }
    };
    if draws.once_in(3) {
        u += draws.between(-1, 1);
        v += draws.between(-1, 1);
    }
    if draws.once_in(2) {
        std::mem::swap(&mut u, &mut v);
    }
    (held(draws.one_of(&[-1, 1]) * u), held(draws.one_of(&[-1, 1]) * v))
}

/// A payload of few symbols, now and then of up to 256, with any padding.
pub fn draw_payload(draws: &mut Draws, scheme: Scheme) -> u16 {
    let b = scheme.bits_per_symbol();
    let symbols = match draws.below(80) {
        0 => 256,
        1 => draws.between(1, 256) as usize,
        _ => draws.between(1, 4) as usize,
    };
    (symbols * b - draws.below(b)) as u16
}

fn draw_weight(draws: &mut Draws) -> u16 {
    match draws.below(3) {
        0 => draws.one_of(&[1, 4095]),
        1 => 1 << draws.below(12),
        _ => draws.between(1, 4095) as u16,
    }
}

fn draw_header(draws: &mut Draws, scheme: Scheme, payload: u16) -> Header {
    let weight = draw_weight(draws);
    let shift = match draws.below(4) {
        0 => draws.one_of(&[0, 40]),
        1 => draws.below(8) as u8,
        _ => draws.below(41) as u8,
    };
    let limit = match draws.below(3) {
        0 => draws.one_of(&[1, 32767]),
        1 => draws.between(1, 200) as u16,
        _ => draws.between(1, 32767) as u16,
    };
    Header { scheme, weighted: false, payload, weight, shift, limit }
}

/// Gives each symbol of a frame without fault a weight of its own.
pub fn draw_weights(draws: &mut Draws, call: &mut FrameCall) {
    call.header.weighted = true;
    call.header.weight = 0;
    call.weights = call.gains.iter().map(|_| draw_weight(draws)).collect();
}

/// A frame without fault, plain or, as often, with a weight for each symbol.
pub fn draw_any_frame(draws: &mut Draws, scheme: Scheme, payload: u16) -> FrameCall {
    let mut call = draw_frame(draws, scheme, payload);
    if draws.once_in(2) {
        draw_weights(draws, &mut call);
    }
    call
}

/// A plain frame without fault.
pub fn draw_frame(draws: &mut Draws, scheme: Scheme, payload: u16) -> FrameCall {
    let header = draw_header(draws, scheme, payload);
    let sizes = sizes(&header).expect("a header without fault has sizes");
    let bits = usize::from(payload);
    let lent = [draws.enough(bits), draws.enough(bits), draws.enough(sizes.probes), draws.enough(sizes.probes)];
    let mut call = FrameCall { header, gains: Vec::new(), weights: Vec::new(), yi: Vec::new(), yq: Vec::new(), lent };
    for _ in 0..sizes.symbols {
        let gain = draw_gain(draws);
        call.gains.push(gain);
        let (yi, yq) = if scheme.kind().scaled {
            (draw_axis(draws, gain, scheme.bits[0]), draw_axis(draws, gain, scheme.bits[1]))
        } else {
            draw_phase(draws)
        };
        call.yi.push(yi);
        call.yq.push(yq);
    }
    call.yq.truncate(sizes.quadrature);
    call
}

/// What may be damaged in a frame; most new values break a limit, the others stand at its inner end.
#[derive(Clone, Copy, Debug, PartialEq)]
pub enum Fault {
    Kind,
    WeightedKind,
    QuadratureBits,
    Bits,
    Payload,
    Weight,
    Shift,
    Limit,
    Gain,
    OwnWeight,
    Sample,
    InputLength,
    OutputLength,
}

/// The faults of a header that lines can have and the package's headers cannot.
pub const WRITTEN_FAULTS: [Fault; 3] = [Fault::Kind, Fault::WeightedKind, Fault::QuadratureBits];
/// The faults of a header.
pub const HEADER_FAULTS: [Fault; 5] = [Fault::Bits, Fault::Payload, Fault::Weight, Fault::Shift, Fault::Limit];
/// The faults of symbols.
pub const SYMBOL_FAULTS: [Fault; 3] = [Fault::Gain, Fault::OwnWeight, Fault::Sample];
/// The faults of lengths.
pub const LENGTH_FAULTS: [Fault; 2] = [Fault::InputLength, Fault::OutputLength];

fn draw_bad_kind(draws: &mut Draws) -> u8 {
    let above = KINDS.len() as u8;
    draws.one_of(&[above, above + 1, 126, 127])
}

fn draw_bad_bits(draws: &mut Draws) -> u8 {
    let any = draws.below(256) as u8;
    draws.one_of(&[0, 1, 3, 4, 5, 6, 7, 8, 255, any])
}

/// Damages a bit count that the package's value has; where it has one, the other is that which goes with it.
pub fn damage_bits(draws: &mut Draws, scheme: &mut Scheme) {
    match KINDS.get(usize::from(scheme.kind)) {
        Some(kind) if !kind.names_both() => {
            let bits_i = draw_bad_bits(draws);
            scheme.bits = [bits_i, *kind.nameable(bits_i).start()];
        }
        _ => scheme.bits[draws.below(2)] = draw_bad_bits(draws),
    }
}

/// A payload of none, of 256 symbols, of one bit or one symbol more, or of any number of bits.
fn draw_bad_payload(draws: &mut Draws, scheme: Scheme) -> u16 {
    let full = 256 * (u16::from(scheme.bits[0].min(7)) + u16::from(scheme.bits[1].min(7)));
    let any = draws.below(65536) as u16;
    draws.one_of(&[0, full, full + 1, full + full / 256, 65535, any])
}

fn damage_sample(draws: &mut Draws, call: &mut FrameCall) {
    let y = if draws.once_in(2) || call.yq.is_empty() { &mut call.yi } else { &mut call.yq };
    if !y.is_empty() {
        let (at, sign) = (draws.below(y.len()), draws.one_of(&[-1, 1]));
        y[at] = draws.one_of(&[sign * MAX_SAMPLE, sign * (MAX_SAMPLE + 1), sign << 21, sign << 30, i32::MIN, i32::MAX]);
    }
}

fn damage_gain(draws: &mut Draws, call: &mut FrameCall) {
    if !call.gains.is_empty() {
        let at = draws.below(call.gains.len());
        let any = draws.between(4096, 65535) as u16;
        call.gains[at] = draws.one_of(&[MAX_GAIN, MAX_GAIN + 1, 8192, 32768, 65535, any]);
    }
}

fn damage_weight(draws: &mut Draws, call: &mut FrameCall) {
    if !call.weights.is_empty() {
        let at = draws.below(call.weights.len());
        call.weights[at] = draws.one_of(&[0, 1, 4095, 4096, 4097, 32768, 65535]);
    }
}

/// Another length: 0, one less, one more, or 256 more; new entries are 0.
fn damage_length<T: Clone + Default>(draws: &mut Draws, list: &mut Vec<T>) {
    let len = list.len();
    let new = draws.one_of(&[0, len.saturating_sub(1), len + 1, len + 1, len + 256]);
    list.resize(new, T::default());
}

fn damage_input_length(draws: &mut Draws, call: &mut FrameCall) {
    match draws.below(if call.header.weighted { 4 } else { 3 }) {
        0 => damage_length(draws, &mut call.gains),
        1 => damage_length(draws, &mut call.yi),
        2 => damage_length(draws, &mut call.yq),
        _ => damage_length(draws, &mut call.weights),
    }
}

/// One of the four outputs one too short, or empty.
fn damage_output_length(draws: &mut Draws, call: &mut FrameCall) {
    let bits = usize::from(call.header.payload);
    let probes = sizes(&call.header).map_or(0, |sizes| sizes.probes);
    let which = draws.below(4);
    let need = [bits, bits, probes, probes][which];
    call.lent[which] = if draws.once_in(3) { 0 } else { need.saturating_sub(1) };
}

pub fn damage(draws: &mut Draws, call: &mut FrameCall, fault: Fault) {
    let header = &mut call.header;
    match fault {
        Fault::Kind => header.scheme.kind = draw_bad_kind(draws),
        Fault::WeightedKind => header.weighted = !header.weighted,
        Fault::QuadratureBits => header.scheme.bits[1] = draw_bad_bits(draws),
        Fault::Bits => damage_bits(draws, &mut header.scheme),
        Fault::Payload => header.payload = draw_bad_payload(draws, header.scheme),
        Fault::Weight => header.weight = draws.one_of(&[0, 1, 4095, 4096, 4097, 32768, 65535]),
        Fault::Shift => header.shift = draws.one_of(&[0, 40, 41, 42, 64, 128, 255]),
        Fault::Limit => header.limit = draws.one_of(&[0, 1, 32767, 32768, 65535]),
        Fault::Gain => damage_gain(draws, call),
        Fault::OwnWeight => damage_weight(draws, call),
        Fault::Sample => damage_sample(draws, call),
        Fault::InputLength => damage_input_length(draws, call),
        Fault::OutputLength => damage_output_length(draws, call),
    }
}
