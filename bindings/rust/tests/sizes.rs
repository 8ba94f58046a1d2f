//! The sizes of headers against the formulas of the second implementation.

mod exhaustive;
mod support;

use exhaustive::{sizes, Header, Scheme, KINDS, QAM};
use softdemap::{Sizes, MAX_ANSWER, MAX_LINE, MAX_SYMBOLS};
use support::draws::Draws;
use support::frames::{damage, draw_any_frame, draw_payload, schemes, HEADER_FAULTS};
use support::{in_numbers, Counts, Shown};

fn try_sizes(header: &Header, counts: &mut Counts) {
    let _shown = Shown("sizes", header);
    let want = sizes(header);
    assert_eq!(in_numbers(header.named_sizes()), want, "the answer (left) differs from that by formulas (right)");
    counts.add(&want);
}

/// Every payload up to beyond 256 symbols, and the largest, of the 49 modulations.
#[test]
fn every_payload_of_every_modulation() {
    let mut counts = Counts::default();
    let list = schemes();
    assert_eq!(list.len(), 49);
    for scheme in list {
        let full = 256 * scheme.bits_per_symbol() as u16;
        for payload in (0..full + 30).chain([65534, 65535]) {
            let plain = Header { scheme, weighted: false, payload, weight: 1, shift: 0, limit: 32767 };
            try_sizes(&plain, &mut counts);
            try_sizes(&Header { weighted: true, weight: 0, ..plain }, &mut counts);
        }
    }
    counts.check("payloads", &[6], 2 * 49 * 32);
}

/// Every bit count that the package can name, for QAM every two.
#[test]
fn every_bit_count() {
    let mut counts = Counts::default();
    for (kind, row) in KINDS.iter().enumerate() {
        for count in 0..=255 {
            for other in row.nameable(count) {
                let scheme = Scheme { kind: kind as u8, bits: [count, other] };
                let plain = Header { scheme, weighted: false, payload: 7, weight: 4095, shift: 40, limit: 1 };
                try_sizes(&plain, &mut counts);
                try_sizes(&Header { weighted: true, weight: 0, ..plain }, &mut counts);
            }
        }
    }
    counts.check("bit counts", &[5], 2 * 49);
}

/// Every pair of faults of a header many times, sometimes with a third.
#[test]
fn damaged_headers() {
    let (list, mut draws, mut counts) = (schemes(), Draws::new(101), Counts::default());
    for a in HEADER_FAULTS {
        for b in HEADER_FAULTS {
            for _ in 0..1000 {
                let scheme = draws.one_of(&list);
                let payload = draw_payload(&mut draws, scheme);
                let mut call = draw_any_frame(&mut draws, scheme, payload);
                let third = if draws.once_in(4) { draws.one_of(&HEADER_FAULTS) } else { b };
                [a, b, third].iter().for_each(|&fault| damage(&mut draws, &mut call, fault));
                try_sizes(&call.header, &mut counts);
            }
        }
    }
    counts.check("damaged headers", &[5, 6, 7, 8, 9, 18], 1000);
}

/// The frame of the requirements, and the longest line and answer.
#[test]
fn particular_sizes() {
    let of = |bits, payload, weighted| {
        let weight = if weighted { 0 } else { 1 };
        Header { scheme: Scheme { kind: QAM, bits }, weighted, payload, weight, shift: 2, limit: 32767 }.named_sizes()
    };
    assert_eq!(of([2, 2], 3, false), Ok(Sizes { symbols: 1, quadrature: 1, probes: 6, line: 40, answer: 18 }));
    assert_eq!(of([2, 2], 3, true), Ok(Sizes { symbols: 1, quadrature: 1, probes: 6, line: 44, answer: 18 }));
    let longest = of([6, 6], 256 * 12, true).expect("256 symbols are accepted");
    assert_eq!((longest.symbols, longest.line, longest.answer), (MAX_SYMBOLS, MAX_LINE, MAX_ANSWER));
    assert_eq!(of([6, 6], 256 * 12, false).map(|sizes| sizes.line), Ok(5140));
}
