//! The mapping call against a search for the point with the label, and the way from bits to samples and back.

mod exhaustive;
mod support;

use exhaustive::{map, sizes, Header, Refusal, Scheme, CELLULAR};
use softdemap::{map_bits, mapped, read_frame};
use support::draws::Draws;
use support::frames::{damage_bits, draw_gain, draw_payload, schemes};
use support::guarded::Guarded;
use support::{in_numbers, Counts, Shown};

/// The arguments of a mapping call; the outputs are given by their lengths.
#[derive(Clone, Debug)]
struct MapCall {
    scheme: Scheme,
    gain: u16,
    bits: Vec<u8>,
    lent: [usize; 2],
}

/// Makes both calls, that on slices and that which gives lists, compares them with the search, and gives the answer of the first.
fn try_map(draws: &mut Draws, call: &MapCall, counts: &mut Counts) -> Result<(Vec<i32>, Vec<i32>), Refusal> {
    let _shown = Shown("map_bits and mapped", call);
    let want = map(call.scheme, call.gain, &call.bits, call.lent);
    let mut bits = Guarded::input(draws, &call.bits);
    let mut yi = Guarded::output(draws, call.lent[0]);
    let mut yq = Guarded::output(draws, call.lent[1]);
    if let Ok((in_phase, quadrature)) = &want {
        yi.should_begin(in_phase);
        yq.should_begin(quadrature);
    }
    let modulation = call.scheme.named();
    let got = map_bits(modulation, call.gain, bits.lent(), yi.lent(), yq.lent());
    let symbols = want.as_ref().map(|(in_phase, _)| in_phase.len()).map_err(|refusal| *refusal);
    assert_eq!(in_numbers(got), symbols, "the answer (left) differs from the search's (right)");
    yi.check("yi");
    yq.check("yq");
    bits.check("bits, an input,");
    let with_room = map(call.scheme, call.gain, &call.bits, [usize::MAX; 2]);
    assert_eq!(in_numbers(mapped(modulation, call.gain, &call.bits)), with_room, "the lists (left) differ from the search's (right)");
    counts.add(&want);
    want
}

fn draw_bits(draws: &mut Draws, count: usize) -> Vec<u8> {
    (0..count).map(|_| draws.below(2) as u8).collect()
}

/// The header of a frame that reads the bits back.
fn header_of(scheme: Scheme, bits: usize) -> Header {
    Header { scheme, weighted: false, payload: bits as u16, weight: 4095, shift: 0, limit: 32767 }
}

/// A mapping call without fault; where samples have no quadrature part the second output has any length.
fn draw_map(draws: &mut Draws, scheme: Scheme) -> MapCall {
    let payload = usize::from(draw_payload(draws, scheme));
    let symbols = sizes(&header_of(scheme, payload)).expect("a header without fault has sizes").symbols;
    let spare = draws.below(300) * draws.below(2);
    let quadrature = if scheme.kind().quadrature { draws.enough(symbols) } else { spare };
    MapCall { scheme, gain: draw_gain(draws), bits: draw_bits(draws, payload), lent: [draws.enough(symbols), quadrature] }
}

/// Reads the mapped samples at the gain of the mapping, at any but 0 where it does not scale them, and wants the bits back.
fn try_back(draws: &mut Draws, call: &MapCall, yi: &[i32], yq: &[i32]) {
    let _shown = Shown("map_bits, then read_frame,", call);
    let gain = if call.scheme.kind().scaled { call.gain } else { draws.between(1, 4095) as u16 };
    let header = header_of(call.scheme, call.bits.len()).named();
    let reading = read_frame(&header, &vec![gain; yi.len()], yi, yq).expect("mapped samples are read");
    assert_eq!(reading.hard, call.bits, "the bits read (left) differ from those sent (right)");
    let soft = reading.soft;
    let leans = soft.iter().map(|&soft| u8::from(soft < 0)).collect::<Vec<_>>();
    assert!(leans == call.bits && soft.iter().all(|&soft| soft != 0), "soft values {:?} lean away from the bits", soft);
}

#[test]
fn valid_maps_and_back() {
    let (mut draws, mut counts) = (Draws::new(29), Counts::default());
    for scheme in schemes() {
        for _ in 0..500 {
            let call = draw_map(&mut draws, scheme);
            let (yi, yq) = try_map(&mut draws, &call, &mut counts).expect("a mapping call without fault is served");
            if call.gain > 0 {
                try_back(&mut draws, &call, &yi, &yq);
            }
        }
    }
    counts.check("valid maps", &[], 24_500);
}

/// Padding is sent as bits 0, which with cellular labels are not those of index 0.
#[test]
fn cellular_labels() {
    let (mut draws, mut counts) = (Draws::new(30), Counts::default());
    let mut trial = |bits: u8, gain: u16, sent: &[u8], want: (Vec<i32>, Vec<i32>)| {
        let scheme = Scheme { kind: CELLULAR, bits: [bits, bits] };
        let call = MapCall { scheme, gain, bits: sent.to_vec(), lent: [2, 2] };
        assert_eq!(try_map(&mut draws, &call, &mut counts), Ok(want));
    };
    trial(2, 5, &[0, 1, 1, 0, 1], (vec![15, -5], vec![-5, 5]));
    trial(3, 1, &[1, 0, 1, 0, 0], (vec![-5], vec![3]));
}

const FAULTS: usize = 5;

fn damage_map(draws: &mut Draws, call: &mut MapCall, fault: usize) {
    let b = call.scheme.bits_per_symbol();
    let full = 256 * b.min(12);
    match fault {
        0 => damage_bits(draws, &mut call.scheme),
        1 => {
            let far = if draws.once_in(40) { 65536 + 1 } else { 0 };
            let count = draws.one_of(&[0, full, full + 1, full + b.min(12), far]);
            call.bits = draw_bits(draws, count);
        }
        2 => call.gain = draws.one_of(&[4095, 4096, 8192, 65535]),
        3 if !call.bits.is_empty() => {
            let at = draws.below(call.bits.len());
            call.bits[at] = draws.one_of(&[2, 3, 128, 254, 255, b'0', b'1']);
        }
        _ => {
            let symbols = call.bits.len() / b.max(1) + usize::from(b > 0 && call.bits.len() % b != 0);
            call.lent[draws.below(2)] = if draws.once_in(3) { 0 } else { symbols.saturating_sub(1) };
        }
    }
}

/// Every pair of faults many times.
#[test]
fn damaged_maps() {
    let (list, mut draws, mut counts) = (schemes(), Draws::new(31), Counts::default());
    for a in 0..FAULTS {
        for b in a..FAULTS {
            for _ in 0..1400 {
                let scheme = draws.one_of(&list);
                let mut call = draw_map(&mut draws, scheme);
                damage_map(&mut draws, &mut call, a);
                damage_map(&mut draws, &mut call, b);
                let _ = try_map(&mut draws, &call, &mut counts);
            }
        }
    }
    counts.check("damaged maps", &[5, 6, 10, 15, 17], 500);
}
