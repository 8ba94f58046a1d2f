//! The frame calls, that without and that with a weight for each symbol, against the demapper that searches every point: answers, all four
//! outputs with what lies around them, and the inputs.

mod exhaustive;
mod support;

use exhaustive::{sizes, Header, Received, Refusal, Scheme, Seen, CELLULAR, KINDS, PAM, PSK, QAM};
use softdemap::{demap_frame, demap_frame_weighted, read_frame, read_frame_weighted, Place, Reading, MAX_SYMBOLS};
use support::draws::Draws;
use support::frames::{
    damage, draw_any_frame, draw_frame, draw_payload, draw_weights, schemes, FrameCall, HEADER_FAULTS, LENGTH_FAULTS, SYMBOL_FAULTS,
};
use support::guarded::{Guarded, GUARD};
use support::{in_numbers, Counts, Shown};

/// The probes of the longest frame.
const MAX_PROBES: usize = MAX_SYMBOLS * 14;

/// What was met by the frames of one test.
#[derive(Default)]
struct Met {
    counts: Counts,
    seen: Seen,
}

/// The search's answer where outputs of these lengths are lent.
fn by_search(call: &FrameCall, lent: [usize; 4], seen: &mut Seen) -> Result<Reading, Refusal> {
    let received = Received { gains: &call.gains, weights: &call.weights, yi: &call.yi, yq: &call.yq };
    exhaustive::read_frame(&call.header, &received, lent, seen)
}

/// Makes the call that gives lists; `want` is the search's answer to that on slices, whose lengths may refuse it.
fn try_lists(call: &FrameCall, want: &Result<Reading, Refusal>) {
    let want = match want {
        Err((15, _)) => by_search(call, [usize::MAX; 4], &mut Seen::default()),
        other => other.clone(),
    };
    let header = call.header.named();
    let got = if call.header.weighted {
        read_frame_weighted(&header, &call.gains, &call.weights, &call.yi, &call.yq)
    } else {
        read_frame(&header, &call.gains, &call.yi, &call.yq)
    };
    assert_eq!(in_numbers(got), want, "the lists (left) differ from the search's (right)");
}

/// Makes both calls, that on slices and that which gives lists, compares them with the search, and gives the answer of the first.
fn try_frame(draws: &mut Draws, call: &FrameCall, met: &mut Met) -> Result<Reading, Refusal> {
    let _shown = Shown("demap_frame and read_frame, or those with weights,", call);
    let want = by_search(call, call.lent, &mut met.seen);
    let mut gains = Guarded::input(draws, &call.gains);
    let mut weights = Guarded::input(draws, &call.weights);
    let mut yi = Guarded::input(draws, &call.yi);
    let mut yq = Guarded::input(draws, &call.yq);
    let behind = if want == Err((15, None)) { MAX_PROBES } else { GUARD }; // room for an answer that is written all the same
    let mut hard = Guarded::output_before(draws, call.lent[0], behind);
    let mut soft = Guarded::output_before(draws, call.lent[1], behind);
    let mut index = Guarded::output_before(draws, call.lent[2], behind);
    let mut cost = Guarded::output_before(draws, call.lent[3], behind);
    if let Ok(reading) = &want {
        hard.should_begin(&reading.hard);
        soft.should_begin(&reading.soft);
        index.should_begin(&reading.probe_index);
        cost.should_begin(&reading.probe_cost);
    }
    let (header, g, i, q) = (call.header.named(), gains.lent(), yi.lent(), yq.lent());
    let got = if call.header.weighted {
        demap_frame_weighted(&header, g, weights.lent(), i, q, hard.lent(), soft.lent(), index.lent(), cost.lent())
    } else {
        demap_frame(&header, g, i, q, hard.lent(), soft.lent(), index.lent(), cost.lent())
    };
    let probes = want.as_ref().map(|reading| reading.probe_index.len()).map_err(|refusal| *refusal);
    assert_eq!(in_numbers(got), probes, "the answer (left) differs from the search's (right)");
    hard.check("hard");
    soft.check("soft");
    index.check("probe_index");
    cost.check("probe_cost");
    gains.check("gains, an input,");
    weights.check("weights, an input,");
    yi.check("yi, an input,");
    yq.check("yq, an input,");
    met.counts.add(&want);
    try_lists(call, &want);
    want
}

#[test]
fn valid_frames() {
    let (mut draws, mut met) = (Draws::new(7), Met::default());
    for scheme in schemes() {
        for _ in 0..1000 {
            let payload = draw_payload(&mut draws, scheme);
            let call = draw_any_frame(&mut draws, scheme, payload);
            try_frame(&mut draws, &call, &mut met).expect("a frame without fault is read");
        }
    }
    println!("met by the search: {:?}", met.seen);
    met.counts.check("valid frames", &[], 49_000);
    assert!(met.seen.ties > 1000 && met.seen.halves > 1000 && met.seen.held > 1000, "too few rare cases: {:?}", met.seen);
}

#[test]
fn every_padding_of_short_and_full_frames() {
    let (mut draws, mut met) = (Draws::new(11), Met::default());
    for scheme in schemes() {
        let b = scheme.bits_per_symbol();
        for symbols in [1, 2, 255, 256] {
            for padding in 0..b {
                let call = draw_any_frame(&mut draws, scheme, (symbols * b - padding) as u16);
                try_frame(&mut draws, &call, &mut met).expect("a frame without fault is read");
            }
        }
    }
    met.counts.check("paddings", &[], 1000);
}

/// Every pair of faults many times, sometimes with a third.
#[test]
fn damaged_frames() {
    let faults = [&HEADER_FAULTS[..], &LENGTH_FAULTS, &SYMBOL_FAULTS].concat();
    let (list, mut draws, mut met) = (schemes(), Draws::new(13), Met::default());
    for (at, &a) in faults.iter().enumerate() {
        for &b in &faults[at..] {
            for _ in 0..2000 {
                let scheme = draws.one_of(&list);
                let payload = draw_payload(&mut draws, scheme);
                let mut call = draw_any_frame(&mut draws, scheme, payload);
                damage(&mut draws, &mut call, a);
                damage(&mut draws, &mut call, b);
                if draws.once_in(4) {
                    let third = draws.one_of(&faults);
                    damage(&mut draws, &mut call, third);
                }
                let _ = try_frame(&mut draws, &call, &mut met);
            }
        }
    }
    met.counts.check("damaged frames", &[5, 6, 7, 8, 9, 10, 11, 15, 16, 18], 1000);
}

/// Every bit count that the package can name, for QAM beside some others.
#[test]
fn every_bit_count() {
    const SOME: [u8; 9] = [0, 1, 2, 4, 5, 6, 7, 64, 255];
    let (mut draws, mut met) = (Draws::new(17), Met::default());
    let mut trial = |kind: usize, bits: [u8; 2]| {
        let mut call = draw_frame(&mut draws, Scheme { kind: PAM, bits: [1, 0] }, 1);
        call.header.scheme = Scheme { kind: kind as u8, bits };
        call.yq.resize(usize::from(KINDS[kind].quadrature), 0);
        let probes = 2 + call.header.scheme.bits_per_symbol();
        call.lent = [1, 1, probes, probes];
        let _ = try_frame(&mut draws, &call, &mut met);
    };
    for (kind, row) in KINDS.iter().enumerate() {
        for count in 0..=255 {
            if row.names_both() {
                SOME.iter().for_each(|&some| trial(kind, [count, some]));
                SOME.iter().for_each(|&some| trial(kind, [some, count]));
            } else {
                row.nameable(count).for_each(|other| trial(kind, [count, other]));
            }
        }
    }
    met.counts.check("bit counts", &[5], 50);
}

/// A weight of 4095 at one symbol of several, and of 1 at the others, shows at that symbol alone.
#[test]
fn each_weight_is_that_of_its_symbol() {
    let (mut draws, mut met) = (Draws::new(18), Met::default());
    for scheme in schemes() {
        let plain = draw_frame(&mut draws, scheme, 6 * scheme.bits_per_symbol() as u16);
        for symbol in 0..6 {
            let mut call = plain.clone();
            draw_weights(&mut draws, &mut call);
            call.weights = (0..6).map(|s| if s == symbol { 4095 } else { 1 }).collect();
            try_frame(&mut draws, &call, &mut met).expect("a frame without fault is read");
        }
    }
}

/// One weight for all symbols is read as a plain frame with that weight.
#[test]
fn one_weight_for_all() {
    let (mut draws, mut met) = (Draws::new(20), Met::default());
    for scheme in schemes() {
        for _ in 0..20 {
            let payload = draw_payload(&mut draws, scheme);
            let plain = draw_frame(&mut draws, scheme, payload);
            let mut call = plain.clone();
            draw_weights(&mut draws, &mut call);
            call.weights = vec![plain.header.weight; plain.gains.len()];
            let wanted = try_frame(&mut draws, &plain, &mut met);
            assert_eq!(try_frame(&mut draws, &call, &mut met), wanted);
        }
    }
}

/// In a symbol a bad gain comes first, then a bad weight, then a bad sample; between symbols the first with a fault decides.
#[test]
fn the_first_bad_symbol_is_named() {
    let (mut draws, mut met) = (Draws::new(22), Met::default());
    for scheme in schemes() {
        for [gain_at, weight_at, sample_at] in (0..27).map(|way| [way / 9, way / 3 % 3, way % 3]) {
            let mut call = draw_frame(&mut draws, scheme, 3 * scheme.bits_per_symbol() as u16);
            draw_weights(&mut draws, &mut call);
            call.gains[gain_at] = 4096;
            call.weights[weight_at] = draws.one_of(&[0, 4096, 65535]);
            call.yi[sample_at] = draws.one_of(&[1_048_577, -1_048_577]);
            let faults = [(gain_at, 0, 10), (weight_at, 1, 7), (sample_at, 2, 11)];
            let (symbol, _, number) = *faults.iter().min().expect("there are three");
            assert_eq!(try_frame(&mut draws, &call, &mut met), Err((number, Some(Place::Symbol(symbol)))));
        }
    }
}

/// 256 symbols pass and one bit more gives 6; weight 4095 passes and 4096 gives 7.
#[test]
fn limits_of_payload_and_weight() {
    let (mut draws, mut met) = (Draws::new(19), Met::default());
    for scheme in schemes() {
        let full = 256 * scheme.bits_per_symbol() as u16;
        let mut call = draw_frame(&mut draws, scheme, full);
        for (payload, weight, want) in [(full, 4095, 0), (full, 4096, 7), (full + 1, 4096, 6), (full + 1, 4095, 6)] {
            call.header.payload = payload;
            call.header.weight = weight;
            let answer = try_frame(&mut draws, &call, &mut met);
            assert_eq!(answer.err().unwrap_or((0, None)), (want, None), "{:?}", call.header);
        }
    }
}

/// A frame of the requirements with the soft values and probe indices that stand there; `probes` may be the first ones only.
struct Worked {
    header: Header,
    gain: u16,
    y: &'static [(i32, i32)],
    soft: Option<&'static [i16]>,
    probes: &'static [u8],
}

fn worked((kind, bits): (u8, [u8; 2]), (weight, shift, limit): (u16, u8, u16), gain: u16, y: &'static [(i32, i32)]) -> Worked {
    let scheme = Scheme { kind, bits };
    let payload = (y.len() * scheme.bits_per_symbol()) as u16;
    Worked { header: Header { scheme, weighted: false, payload, weight, shift, limit }, gain, y, soft: None, probes: &[] }
}

fn try_worked(case: Worked) {
    let sizes = sizes(&case.header).expect("a case of the requirements is accepted");
    let bits = usize::from(case.header.payload);
    let call = FrameCall {
        header: case.header,
        gains: vec![case.gain; case.y.len()],
        weights: Vec::new(),
        yi: case.y.iter().map(|y| y.0).collect(),
        yq: case.y.iter().map(|y| y.1).take(sizes.quadrature).collect(),
        lent: [bits, bits, sizes.probes, sizes.probes],
    };
    let reading = try_frame(&mut Draws::new(23), &call, &mut Met::default()).expect("a case of the requirements is read");
    assert!(case.soft.map_or(true, |soft| soft == reading.soft), "{:?} gives soft values {:?}", call, reading.soft);
    assert!(reading.probe_index.starts_with(case.probes), "{:?} gives probes {:?}", call, reading.probe_index);
}

#[test]
fn cases_of_document_01() {
    let (pam2, pam8, psk8) = ((PAM, [1, 0]), (PAM, [3, 0]), (PSK, [3, 0]));
    let plain = (1, 0, 32767);
    try_worked(Worked { soft: Some(&[127, -35, -65]), probes: &[2, 4, 1, 3], ..worked(pam8, (1, 3, 127), 10, &[(-33, 0)]) });
    try_worked(Worked { soft: Some(&[0, 0, 0]), probes: &[0, 4, 2, 1], ..worked(pam8, plain, 0, &[(1_048_576, 0)]) });
    try_worked(Worked { soft: Some(&[0]), probes: &[0], ..worked(pam2, plain, 4, &[(0, 0)]) });
    try_worked(Worked { soft: Some(&[0, 261, 108]), probes: &[0, 7], ..worked(psk8, plain, 1, &[(100, 0)]) });
    try_worked(Worked { probes: &[1], ..worked((PSK, [4, 0]), plain, 1, &[(100_000, 41_418)]) });
    try_worked(Worked { soft: Some(&[2, -2]), ..worked(pam2, (1, 3, 127), 1, &[(-3, 0), (3, 0)]) });
    let mut line = Worked { soft: Some(&[-15, -35, 150]), ..worked((QAM, [2, 2]), (1, 2, 32767), 5, &[(3, -20)]) };
    line.header.payload = 3;
    try_worked(line);
}

#[test]
fn cellular_labels() {
    let (qam16, scale) = ((CELLULAR, [2, 2]), (1, 2, 32767));
    let whole = Worked { soft: Some(&[15, -150, 35, -50]), probes: &[2, 1, 3, 0, 2, 1], ..worked(qam16, scale, 5, &[(3, -20)]) };
    try_worked(whole);
    let mut padded = Worked { soft: Some(&[15, -150, 35]), ..worked(qam16, scale, 5, &[(3, -20)]) };
    padded.header.payload = 3;
    try_worked(padded);
    let qam64 = worked((CELLULAR, [3, 3]), (1, 4, 127), 10, &[(45, -60)]);
    try_worked(Worked { soft: Some(&[127, -127, -13, -50, 38, 0]), ..qam64 });
}
