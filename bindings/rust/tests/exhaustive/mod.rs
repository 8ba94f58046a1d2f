//! A demapper, a mapper and a reader of lines that search every point, written from the definitions of the requirements and slow on purpose.
//!
//! [`KINDS`] says what each kind of modulation is, and the searches ask for no kind. The index of a rival is the one formula that is not a
//! search, because among points of equal cost the requirements choose by it; the search sees that no point with the other bit costs less.
#![allow(dead_code)] // each test program uses a part

use std::ops::RangeInclusive;

use softdemap::{Modulation, Place, Reading, Sizes};

pub const MAX_SAMPLE: i32 = 1_048_576;
pub const MAX_GAIN: u16 = 4095;

/// A refusal: its number, and the symbol or the sample that it names.
pub type Refusal = (u8, Option<Place>);

/// What was met on the way, so that a test can see that its frames reach the rare cases.
#[derive(Clone, Copy, Debug, Default)]
pub struct Seen {
    pub ties: u64,
    pub halves: u64,
    pub held: u64,
}

// ---- kinds ----

/// What a kind of modulation is; its number is its place in [`KINDS`].
pub struct Kind {
    /// the package's value for `bits_i` and `bits_q`
    named: fn([u8; 2]) -> Modulation,
    /// the range of `bits_i`
    pub bits_i: RangeInclusive<u8>,
    /// the range of `bits_q` beside so many `bits_i`
    pub bits_q: fn(u8) -> RangeInclusive<u8>,
    /// whether samples have a quadrature part
    pub quadrature: bool,
    /// whether the gain scales a point's sample without noise
    pub scaled: bool,
    /// e: costs are in units of 2^-e
    e: u32,
    /// the parts whose probes are listed, the first with `bits_i` bits, a second with `bits_q`
    parts: usize,
    /// the place in the symbol's label of a part's bit i: of (bits, part, i)
    place: fn([u8; 2], usize, usize) -> usize,
    /// every point for a symbol, the smaller index of the first part first, then the smaller of the second
    points: fn([u8; 2], &Symbol) -> Vec<Point>,
    /// the rival index of bit i, of m bits of a part, for the nearest index k: of (m, k, i)
    rival: fn(u8, u32, u8) -> u32,
}

pub const PAM: u8 = 0;
pub const QAM: u8 = 1;
pub const PSK: u8 = 2;
pub const CELLULAR: u8 = 3;

pub static KINDS: &[Kind] = &[
    Kind {
        named: |[bits, _]| Modulation::Pam { bits },
        bits_i: 1..=6,
        bits_q: |_| 0..=0,
        quadrature: false,
        scaled: true,
        e: 0,
        parts: 1,
        place: part_by_part,
        points: pam,
        rival: line_rival,
    },
    Kind {
        named: |[bits_i, bits_q]| Modulation::Qam { bits_i, bits_q },
        bits_i: 1..=6,
        bits_q: |_| 1..=6,
        quadrature: true,
        scaled: true,
        e: 0,
        parts: 2,
        place: part_by_part,
        points: qam,
        rival: line_rival,
    },
    Kind {
        named: |[bits, _]| Modulation::Psk { bits },
        bits_i: 1..=4,
        bits_q: |_| 0..=0,
        quadrature: true,
        scaled: false,
        e: 14,
        parts: 1,
        place: part_by_part,
        points: psk,
        rival: circle_rival,
    },
    Kind {
        named: |[bits, _]| Modulation::Cellular { bits },
        bits_i: 1..=3,
        bits_q: |bits_i| bits_i..=bits_i,
        quadrature: true,
        scaled: true,
        e: 0,
        parts: 2,
        place: by_turns,
        points: cellular,
        rival: line_rival,
    },
];

impl Kind {
    /// Whether the package's value has a count of its own for the quadrature.
    pub fn names_both(&self) -> bool {
        (self.named)([1, 1]) != (self.named)([1, 2])
    }

    /// The `bits_q` that the package can write beside so many `bits_i`.
    pub fn nameable(&self, bits_i: u8) -> RangeInclusive<u8> {
        if self.names_both() {
            0..=255
        } else {
            (self.bits_q)(bits_i)
        }
    }
}

/// A modulation by its numbers, as lines have them: any kind, and `bits_i` and `bits_q`.
#[derive(Clone, Copy, Debug, PartialEq)]
pub struct Scheme {
    pub kind: u8,
    pub bits: [u8; 2],
}

impl Scheme {
    /// Of a kind that there is.
    pub fn kind(self) -> &'static Kind {
        &KINDS[usize::from(self.kind)]
    }

    /// b: the bits of a symbol.
    pub fn bits_per_symbol(self) -> usize {
        usize::from(self.bits[0]) + usize::from(self.bits[1])
    }

    /// The modulation for the package, of a kind that there is; bits in quadrature that the package's value does not have are lost.
    pub fn named(self) -> Modulation {
        (self.kind().named)(self.bits)
    }
}

// ---- points, labels and costs ----

/// A gain and a sample; without a quadrature part it has 0 there.
struct Symbol {
    gain: i64,
    y: [i64; 2],
}

/// A point and its cost for a symbol.
struct Point {
    /// as a number whose most significant bit is sent first
    label: u32,
    cost: i64,
    /// in each part, the point's index and that part's cost
    parts: [(u32, i64); 2],
    /// its sample without noise at the symbol's gain
    sent: [i64; 2],
}

/// Bit i, from 0 and the most significant, of a number of m bits.
fn bit(m: usize, number: u32, i: usize) -> u32 {
    number >> (m - 1 - i) & 1
}

/// The label of index k: bit i is digit i exclusive-or digit i - 1.
fn label(k: u32) -> u32 {
    k ^ k >> 1
}

/// The points of an axis with m bits.
fn axis(m: u8, gain: i64, y: i64) -> Vec<Point> {
    let point = |k| {
        let sent = gain * (2 * i64::from(k) - ((1 << m) - 1));
        let cost = (y - sent) * (y - sent);
        Point { label: label(k), cost, parts: [(k, cost), (0, 0)], sent: [sent, 0] }
    };
    (0..1 << m).map(point).collect()
}

fn pam([bits, _]: [u8; 2], symbol: &Symbol) -> Vec<Point> {
    axis(bits, symbol.gain, symbol.y[0])
}

/// Every pair of a point in phase and one in quadrature; `label` is of their indices.
fn grid([bits_i, bits_q]: [u8; 2], symbol: &Symbol, label: impl Fn(u32, u32) -> u32) -> Vec<Point> {
    let (in_phase, quadrature) = (axis(bits_i, symbol.gain, symbol.y[0]), axis(bits_q, symbol.gain, symbol.y[1]));
    let pairs = in_phase.iter().flat_map(|i| quadrature.iter().map(move |q| (i, q)));
    pairs
        .map(|(i, q)| Point {
            label: label(i.parts[0].0, q.parts[0].0),
            cost: i.cost + q.cost,
            parts: [i.parts[0], q.parts[0]],
            sent: [i.sent[0], q.sent[0]],
        })
        .collect()
}

fn qam(bits: [u8; 2], symbol: &Symbol) -> Vec<Point> {
    grid(bits, symbol, |i, q| label(i) << bits[1] | label(q))
}

/// The labels of an axis with 1, 2 and 3 bits, from its lowest level upward, as 3GPP TS 36.211 has them.
const CELLULAR_LABELS: [&[u32]; 3] = [&[1, 0], &[0b11, 0b10, 0b00, 0b01], &[0b111, 0b110, 0b100, 0b101, 0b001, 0b000, 0b010, 0b011]];

fn cellular(bits: [u8; 2], symbol: &Symbol) -> Vec<Point> {
    let m = usize::from(bits[0]);
    let of_axis = CELLULAR_LABELS[m - 1];
    grid(bits, symbol, |i, q| {
        let [i, q] = [i, q].map(|k| of_axis[k as usize]);
        (0..m).fold(0, |label, at| label << 2 | bit(m, i, at) << 1 | bit(m, q, at))
    })
}

fn psk([bits, _]: [u8; 2], symbol: &Symbol) -> Vec<Point> {
    let point = |k| {
        let (u, v) = phase(bits, k);
        let cost = -2 * symbol.gain * (symbol.y[0] * u + symbol.y[1] * v);
        Point { label: label(k), cost, parts: [(k, cost), (0, 0)], sent: [u, v] }
    };
    (0..1 << bits).map(point).collect()
}

/// Phase k of m bits in units of 1/16384.
fn phase(m: u8, k: u32) -> (i64, i64) {
    match (m, k) {
        (1, 0) => (0, 16384),
        (1, _) => (0, -16384),
        (2, 0) => (11585, 11585),
        (3, 0) => (15137, 6270),
        (3, 1) => (6270, 15137),
        (4, 0) => (16069, 3196),
        (4, 1) => (13623, 9102),
        (4, 2) => (9102, 13623),
        (4, 3) => (3196, 16069),
        _ => {
            let (u, v) = phase(m, k - (1 << (m - 2)));
            (-v, u)
        }
    }
}

/// All bits of the first part before those of the second.
fn part_by_part([bits_i, _]: [u8; 2], part: usize, i: usize) -> usize {
    part * usize::from(bits_i) + i
}

/// A bit of the first part before each of the second.
fn by_turns(_: [u8; 2], part: usize, i: usize) -> usize {
    2 * i + part
}

fn line_rival(m: u8, k: u32, i: u8) -> u32 {
    let kept = k >> (m - i) << (m - i);
    kept + (1 << (m - i - 1)) - (k >> (m - i - 1) & 1)
}

fn circle_rival(m: u8, k: u32, i: u8) -> u32 {
    if i > 0 {
        return line_rival(m, k, i);
    }
    let digit = |i: u8| k >> (m - 1 - i) & 1;
    let second = if m == 1 { 0 } else { (1 - digit(1)) * ((1 << (m - 1)) - 1) };
    (1 - digit(0)) * (1 << (m - 1)) + second
}

// ---- the search ----

/// What the search finds: the nearest point, and for each bit the least cost over the points with the bit 0 and with the bit 1.
struct Found<'a> {
    nearest: &'a Point,
    least: Vec<[i64; 2]>,
    ties: u64,
}

fn search(b: usize, points: &[Point]) -> Found<'_> {
    let mut least = vec![[i64::MAX; 2]; b];
    let (mut nearest, mut nearest_cost, mut ties) = (&points[0], i64::MAX, 0);
    for point in points {
        if point.cost < nearest_cost {
            nearest = point;
            nearest_cost = point.cost;
            ties = 0;
        } else if point.cost == nearest_cost {
            ties += 1;
        }
        for (i, pair) in least.iter_mut().enumerate() {
            let held = &mut pair[bit(b, point.label, i) as usize];
            *held = point.cost.min(*held);
        }
    }
    Found { nearest, least, ties }
}

/// Lists the probes of one part.
fn probe_part(scheme: Scheme, weight: u16, points: &[Point], found: &Found, part: usize, out: &mut Reading) {
    let (b, m) = (scheme.bits_per_symbol(), scheme.bits[part]);
    let (k, cost) = found.nearest.parts[part];
    out.probe_index.push(k as u8);
    out.probe_cost.push(cost);
    for i in 0..m {
        let ki = (scheme.kind().rival)(m, k, i);
        let rival = points.iter().find(|point| point.parts[part].0 == ki).expect("a rival is a point");
        let place = (scheme.kind().place)(scheme.bits, part, usize::from(i));
        let [own, other] = [found.nearest, rival].map(|point| bit(b, point.label, place) as usize);
        assert_ne!(own, other, "a rival with the same bit: index {}, bit {} of {:?}", k, i, scheme);
        let rival_cost = rival.parts[part].1;
        let least = found.least[place];
        let difference = i64::from(weight) * (rival_cost - cost);
        assert_eq!(difference, least[other] - least[own], "a rival that is not the best: index {}, bit {} of {:?}", k, i, scheme);
        out.probe_index.push(ki as u8);
        out.probe_cost.push(rival_cost);
    }
}

/// The rounded and held soft value of the weighted difference n, with the power of two and the limit.
fn soft_value(n: i64, header: &Header, seen: &mut Seen) -> i16 {
    let power = u32::from(header.shift) + header.scheme.kind().e;
    let (size, unit) = (i128::from(n.abs()), 1i128 << power);
    let (mut size, rest) = (size / unit, size % unit);
    if 2 * rest >= unit {
        size += 1;
    }
    let limit = i128::from(header.limit);
    seen.halves += u64::from(2 * rest == unit);
    seen.held += u64::from(size > limit);
    let size = size.min(limit) as i16;
    if n < 0 {
        -size
    } else {
        size
    }
}

/// Reads one symbol, whose costs are multiplied by its weight before the search; the costs of probes are not. Its padding bits are handed out too.
fn read_symbol(header: &Header, symbol: &Symbol, weight: u16, out: &mut Reading, seen: &mut Seen) {
    let scheme = header.scheme;
    let b = scheme.bits_per_symbol();
    let mut points = (scheme.kind().points)(scheme.bits, symbol);
    points.iter_mut().for_each(|point| point.cost *= i64::from(weight));
    let found = search(b, &points);
    seen.ties += found.ties;
    for (i, least) in found.least.iter().enumerate() {
        out.hard.push(bit(b, found.nearest.label, i) as u8);
        out.soft.push(soft_value(least[1] - least[0], header, seen));
    }
    for part in 0..scheme.kind().parts {
        probe_part(scheme, weight, &points, &found, part, out);
    }
}

// ---- headers and sizes ----

/// A header by its numbers, as lines have them.
#[derive(Clone, Copy, Debug)]
pub struct Header {
    pub scheme: Scheme,
    /// whether 80 hexadecimal is added to the kind, and each symbol has a weight of its own
    pub weighted: bool,
    pub payload: u16,
    pub weight: u16,
    pub shift: u8,
    pub limit: u16,
}

impl Header {
    /// The header for the package, as [`Scheme::named`] gives its modulation.
    pub fn named(&self) -> softdemap::Header {
        let Header { scheme, payload, weight, shift, limit, .. } = *self;
        softdemap::Header { modulation: scheme.named(), payload, weight, shift, limit }
    }

    /// What the package says that it calls for.
    pub fn named_sizes(&self) -> Result<Sizes, softdemap::Refused> {
        if self.weighted {
            self.named().sizes_weighted()
        } else {
            self.named().sizes()
        }
    }

    /// The kind's number in a line.
    pub fn kind_number(&self) -> u8 {
        self.scheme.kind + if self.weighted { 0x80 } else { 0 }
    }
}

fn check(passes: bool, number: u8) -> Result<(), Refusal> {
    if passes {
        Ok(())
    } else {
        Err((number, None))
    }
}

/// Refusals 4 to 6, or the number of symbols for so many bits.
fn symbols(scheme: Scheme, bits: usize) -> Result<usize, Refusal> {
    check(usize::from(scheme.kind) < KINDS.len(), 4)?;
    let (kind, [bits_i, bits_q]) = (scheme.kind(), scheme.bits);
    check(kind.bits_i.contains(&bits_i) && (kind.bits_q)(bits_i).contains(&bits_q), 5)?;
    let b = scheme.bits_per_symbol();
    let n = (bits + b - 1) / b;
    check((1..=256).contains(&n), 6)?;
    Ok(n)
}

const WEIGHTS: RangeInclusive<u16> = 1..=4095;

/// Refusals 4 to 6, 7 or 18, 8 and 9, or the sizes.
pub fn sizes(h: &Header) -> Result<Sizes, Refusal> {
    let payload = usize::from(h.payload);
    let n = symbols(h.scheme, payload)?;
    if h.weighted {
        check(h.weight == 0, 18)?;
    } else {
        check(WEIGHTS.contains(&h.weight), 7)?;
    }
    check(h.shift <= 40, 8)?;
    check((1..=32767).contains(&h.limit), 9)?;
    let kind = h.scheme.kind();
    let probes = n * (h.scheme.bits_per_symbol() + kind.parts);
    let quadrature = if kind.quadrature { n } else { 0 };
    let line = 20 + 12 * n + 8 * quadrature + if h.weighted { 4 * n } else { 0 };
    Ok(Sizes { symbols: n, quadrature, probes, line, answer: 6 + 4 * payload })
}

// ---- frames ----

fn in_range(y: i32) -> bool {
    (-MAX_SAMPLE..=MAX_SAMPLE).contains(&y)
}

/// What is received of a frame: `weights` is empty where symbols have none of their own, and `yq` where samples have no quadrature part.
pub struct Received<'a> {
    pub gains: &'a [u16],
    pub weights: &'a [u16],
    pub yi: &'a [i32],
    pub yq: &'a [i32],
}

/// Refusals 10, 7 and 11, symbol by symbol.
fn check_symbols(received: &Received) -> Result<(), Refusal> {
    let Received { gains, weights, yi, yq } = *received;
    for s in 0..gains.len() {
        if gains[s] > MAX_GAIN {
            return Err((10, Some(Place::Symbol(s))));
        }
        if !weights.get(s).map_or(true, |weight| WEIGHTS.contains(weight)) {
            return Err((7, Some(Place::Symbol(s))));
        }
        if !in_range(yi[s]) || !yq.get(s).map_or(true, |&y| in_range(y)) {
            return Err((11, Some(Place::Symbol(s))));
        }
    }
    Ok(())
}

/// Reads a frame; `lent` has the lengths that are lent: of hard bits, soft values, indices and costs.
pub fn read_frame(h: &Header, received: &Received, lent: [usize; 4], seen: &mut Seen) -> Result<Reading, Refusal> {
    let Sizes { symbols, quadrature, probes, .. } = sizes(h)?;
    let Received { gains, weights, yi, yq } = *received;
    let payload = usize::from(h.payload);
    check(gains.len() == symbols && yi.len() == symbols && yq.len() == quadrature, 16)?;
    check(weights.len() == if h.weighted { symbols } else { 0 }, 16)?;
    check(lent[0] >= payload && lent[1] >= payload && lent[2] >= probes && lent[3] >= probes, 15)?;
    check_symbols(received)?;
    let mut out = Reading { hard: Vec::new(), soft: Vec::new(), probe_index: Vec::new(), probe_cost: Vec::new() };
    for s in 0..symbols {
        let y = [i64::from(yi[s]), i64::from(*yq.get(s).unwrap_or(&0))];
        let weight = *weights.get(s).unwrap_or(&h.weight);
        read_symbol(h, &Symbol { gain: i64::from(gains[s]), y }, weight, &mut out, seen);
    }
    out.hard.truncate(payload);
    out.soft.truncate(payload);
    assert_eq!((out.probe_index.len(), out.probe_cost.len()), (probes, probes));
    Ok(out)
}

// ---- mapping ----

/// The noise-free samples of bits, in phase and in quadrature, where the second may be empty; `lent` has the two lent lengths.
pub fn map(scheme: Scheme, gain: u16, bits: &[u8], lent: [usize; 2]) -> Result<(Vec<i32>, Vec<i32>), Refusal> {
    let n = symbols(scheme, bits.len())?;
    let (kind, b) = (scheme.kind(), scheme.bits_per_symbol());
    check(gain <= MAX_GAIN, 10)?;
    check(bits.iter().all(|&bit| bit <= 1), 17)?;
    check(lent[0] >= n && (!kind.quadrature || lent[1] >= n), 15)?;
    let points = (kind.points)(scheme.bits, &Symbol { gain: i64::from(gain), y: [0, 0] });
    let (mut yi, mut yq) = (Vec::new(), Vec::new());
    for s in 0..n {
        let sent = (s * b..(s + 1) * b).map(|at| u32::from(*bits.get(at).unwrap_or(&0)));
        let label = sent.fold(0, |label, bit| label << 1 | bit);
        let point = points.iter().find(|point| point.label == label).expect("every label is that of a point");
        yi.push(point.sent[0] as i32);
        if kind.quadrature {
            yq.push(point.sent[1] as i32);
        }
    }
    Ok((yi, yq))
}

// ---- lines ----

/// Digits that are taken from the front, as many as a field has.
struct Fields<'a>(&'a [u32]);

impl Fields<'_> {
    fn take(&mut self, digits: usize) -> u32 {
        let (field, rest) = self.0.split_at(digits);
        self.0 = rest;
        field.iter().fold(0, |number, digit| number << 4 | digit)
    }
}

fn digit(character: u8) -> Option<u32> {
    "0123456789ABCDEF".bytes().position(|named| named == character).map(|value| value as u32)
}

fn header(fields: &mut Fields) -> Header {
    let kind = fields.take(2) as u8;
    Header {
        scheme: Scheme { kind: kind & 0x7F, bits: [fields.take(2) as u8, fields.take(2) as u8] },
        weighted: kind >= 0x80,
        payload: fields.take(4) as u16,
        weight: fields.take(4) as u16,
        shift: fields.take(2) as u8,
        limit: fields.take(4) as u16,
    }
}

/// The answer to a line, for a lent buffer of `lent` characters.
pub fn answer(line: &[u8], lent: usize) -> Result<Vec<u8>, Refusal> {
    check(line.len() % 2 == 0 && (20..=6164).contains(&line.len()), 1)?;
    let digits: Vec<u32> = line.iter().map(|&character| digit(character)).collect::<Option<_>>().ok_or((2, None))?;
    let mut fields = Fields(&digits);
    let h = header(&mut fields);
    let sizes = sizes(&h)?;
    check(line.len() == sizes.line, 3)?;
    check(lent >= sizes.answer, 15)?;
    let (mut gains, mut weights, mut yi, mut yq) = (Vec::new(), Vec::new(), Vec::new(), Vec::new());
    for _ in 0..sizes.symbols {
        gains.push(fields.take(4) as u16);
        if h.weighted {
            weights.push(fields.take(4) as u16);
        }
        yi.push(fields.take(8) as i32);
        if h.scheme.kind().quadrature {
            yq.push(fields.take(8) as i32);
        }
    }
    let received = Received { gains: &gains, weights: &weights, yi: &yi, yq: &yq };
    let reading = read_frame(&h, &received, [usize::MAX; 4], &mut Seen::default())?;
    let mut text = format!("00{:04X}", reading.probe_index.len());
    for soft in &reading.soft {
        text += &format!("{:04X}", *soft as u16);
    }
    Ok(text.into_bytes())
}
