//! The line call against the reader of lines that searches every point: the returned numbers, the answers byte for byte with what lies
//! around them, and the lines, which stand between random digits so that a look behind their end is seen.

mod exhaustive;
mod support;

use std::fmt;

use exhaustive::{answer, Refusal, Scheme, KINDS, PAM, QAM};
use softdemap::{answer_line, answer_of, Place, MAX_ANSWER, MAX_LINE};
use support::draws::Draws;
use support::frames::{damage, draw_any_frame, draw_frame, draw_payload, draw_weights, schemes, Fault, FrameCall};
use support::frames::{HEADER_FAULTS, SYMBOL_FAULTS, WRITTEN_FAULTS};
use support::guarded::{Guarded, GUARD};
use support::{in_numbers, Counts, Shown};

const EXAMPLE: &[u8] = b"01020200030001027FFF000500000003FFFFFFEC";
const EXAMPLE_ANSWER: &[u8] = b"000006FFF1FFDD0096";
/// Lines with cellular labels, and their answers.
const CELLULAR_LINES: [(&[u8], &[u8]); 3] = [
    (b"03020200040001027FFF000500000003FFFFFFEC", b"000006000FFF6A0023FFCE"),
    (b"03020200030001027FFF000500000003FFFFFFEC", b"000006000FFF6A0023"),
    (b"0303030006000104007F000A0000002DFFFFFFC4", b"000008007FFF81FFF3FFCE00260000"),
];
/// Lines with a weight for each symbol, their answers, and lines that are refused.
const WEIGHTED_LINES: [(&[u8], &[u8]); 3] = [
    (b"81020200030000027FFF0005000100000003FFFFFFEC", b"000006FFF1FFDD0096"),
    (b"81020200060000027FFF0005000300000003FFFFFFEC0005000700000003FFFFFFEC", b"00000CFFD3FF9701C20096FF97FF0B"),
    (b"82020000020000007FFF000100020000000100000002", b"000003000B0006"),
];
const REFUSED_LINES: [(&[u8], Refusal); 2] = [
    (b"81020200030001027FFF0005000100000003FFFFFFEC", (18, None)),
    (b"81020200030000027FFF0005000000000003FFFFFFEC", (7, Some(Place::Symbol(0)))),
];
const DIGITS: &[u8] = b"0123456789ABCDEF";

/// The arguments of a line call; the output is given by its length.
#[derive(Clone)]
struct LineCall {
    line: Vec<u8>,
    lent: usize,
}

impl fmt::Debug for LineCall {
    fn fmt(&self, f: &mut fmt::Formatter<'_>) -> fmt::Result {
        let line: String = self.line.iter().flat_map(|&byte| std::ascii::escape_default(byte)).map(char::from).collect();
        write!(f, "b\"{}\" with an answer of {} bytes", line, self.lent)
    }
}

/// Makes both calls, that on slices and that which gives a text, compares them with the search, and gives the answer of the first.
fn try_line(draws: &mut Draws, call: &LineCall, counts: &mut Counts) -> Result<Vec<u8>, Refusal> {
    let _shown = Shown("answer_line and answer_of", call);
    let want = answer(&call.line, call.lent);
    let mut around: Vec<u8> = (0..GUARD + call.line.len() + 64).map(|_| draws.one_of(DIGITS)).collect();
    around[GUARD..GUARD + call.line.len()].copy_from_slice(&call.line);
    let before = around.clone();
    let behind = if want == Err((15, None)) { MAX_ANSWER } else { GUARD }; // room for an answer that is written all the same
    let mut output = Guarded::output_before(draws, call.lent, behind);
    if let Ok(text) = &want {
        output.should_begin(text);
    }
    let got = answer_line(&around[GUARD..GUARD + call.line.len()], output.lent());
    let len = want.as_ref().map(|text| text.len()).map_err(|refusal| *refusal);
    assert_eq!(in_numbers(got), len, "what is returned (left) differs from the search's (right)");
    output.check("answer");
    assert!(around == before, "the line was written");
    let with_room = if want == Err((15, None)) { answer(&call.line, MAX_ANSWER) } else { want.clone() };
    let text = answer_of(&call.line).map(String::into_bytes);
    assert_eq!(in_numbers(text), with_room, "the text (left) differs from the search's (right)");
    counts.add(&want);
    want
}

// ---- lines of frames ----

/// The line of a frame; symbols for which an input has no entry end it.
fn line_of(frame: &FrameCall) -> Vec<u8> {
    let h = &frame.header;
    let mut line = format!("{:02X}{:02X}{:02X}", h.kind_number(), h.scheme.bits[0], h.scheme.bits[1]);
    line += &format!("{:04X}{:04X}{:02X}{:04X}", h.payload, h.weight, h.shift, h.limit);
    for (s, (gain, yi)) in frame.gains.iter().zip(&frame.yi).enumerate() {
        line += &format!("{:04X}", gain);
        if let Some(weight) = frame.weights.get(s) {
            line += &format!("{:04X}", weight);
        }
        line += &format!("{:08X}", yi);
        if let Some(yq) = frame.yq.get(s) {
            line += &format!("{:08X}", yq);
        }
    }
    line.into_bytes()
}

fn draw_call(draws: &mut Draws, frame: &FrameCall) -> LineCall {
    LineCall { line: line_of(frame), lent: draws.enough(6 + 4 * usize::from(frame.header.payload)) }
}

#[test]
fn valid_lines() {
    let (mut draws, mut counts) = (Draws::new(37), Counts::default());
    for scheme in schemes() {
        for _ in 0..1000 {
            let payload = draw_payload(&mut draws, scheme);
            let frame = draw_any_frame(&mut draws, scheme, payload);
            let call = draw_call(&mut draws, &frame);
            try_line(&mut draws, &call, &mut counts).expect("a line without fault is answered");
        }
    }
    counts.check("valid lines", &[], 49_000);
}

#[test]
fn every_padding_of_short_and_full_lines() {
    let (mut draws, mut counts) = (Draws::new(41), Counts::default());
    for scheme in schemes() {
        let b = scheme.bits_per_symbol();
        for symbols in [1, 2, 256] {
            for padding in 0..b {
                let frame = draw_any_frame(&mut draws, scheme, (symbols * b - padding) as u16);
                let call = draw_call(&mut draws, &frame);
                try_line(&mut draws, &call, &mut counts).expect("a line without fault is answered");
            }
        }
    }
    counts.check("paddings", &[], 500);
}

// ---- damaged lines ----

/// What may be damaged in a line besides the fields of its frame.
#[derive(Clone, Copy, Debug, PartialEq)]
enum TextFault {
    Length,
    Character,
    Symbols,
    AnswerLength,
}

const TEXT_FAULTS: [TextFault; 4] = [TextFault::Length, TextFault::Character, TextFault::Symbols, TextFault::AnswerLength];

/// Another length of a line: odd, short, or long; new characters are digits.
fn damage_length(draws: &mut Draws, line: &mut Vec<u8>) {
    let len = line.len();
    let long = if draws.once_in(20) { 65536 + len } else { MAX_LINE };
    let short = draws.below(20);
    let list = [len + 1, len.saturating_sub(1), short, 0, 18, 19, 20, 21, MAX_LINE, MAX_LINE + 1, MAX_LINE + 2, long];
    let new = draws.one_of(&list);
    line.resize(new, draws.one_of(DIGITS));
}

/// Characters beside the digits, small letters, spaces, ends of lines, signs, and any.
fn damage_character(draws: &mut Draws, line: &mut [u8]) {
    if !line.is_empty() {
        let any = draws.below(256) as u8;
        let other = draws.one_of(b"/:@G`abcdefgxX+-. \t\r\n\0\x7F\x80\xB0\xC1\xFF");
        let last = line.len() - 1;
        let at = draws.below(line.len());
        line[draws.one_of(&[0, last, at, at])] = draws.one_of(&[any, other, other]);
    }
}

/// Whole symbols of either width, or some pairs of digits, more or less.
fn damage_symbols(draws: &mut Draws, line: &mut Vec<u8>) {
    let pairs = 2 * draws.between(1, 12) as usize;
    let count = draws.one_of(&[12, 20, 16, 24, 2, 4, 8, pairs]);
    let len = if draws.once_in(2) { line.len() + count } else { line.len().saturating_sub(count) };
    line.resize(len, b'0');
}

fn damage_text(draws: &mut Draws, call: &mut LineCall, need: usize, fault: TextFault) {
    match fault {
        TextFault::Length => damage_length(draws, &mut call.line),
        TextFault::Character => damage_character(draws, &mut call.line),
        TextFault::Symbols => damage_symbols(draws, &mut call.line),
        TextFault::AnswerLength => {
            let some = draws.below(need);
            call.lent = draws.one_of(&[0, 2, 5, 6, need - 4, need - 1, need - 1, need, some]);
        }
    }
}

/// What may be damaged in a line.
#[derive(Clone, Copy, Debug, PartialEq)]
enum LineFault {
    OfFrame(Fault),
    OfText(TextFault),
}

fn line_faults() -> Vec<LineFault> {
    let of_frame = WRITTEN_FAULTS.iter().chain(&HEADER_FAULTS).chain(&SYMBOL_FAULTS).map(|&fault| LineFault::OfFrame(fault));
    of_frame.chain(TEXT_FAULTS.iter().map(|&fault| LineFault::OfText(fault))).collect()
}

/// A line with faults, those of its frame first.
fn draw_damaged(draws: &mut Draws, scheme: Scheme, faults: &[LineFault]) -> LineCall {
    let payload = draw_payload(draws, scheme);
    let mut frame = draw_any_frame(draws, scheme, payload);
    for &fault in faults {
        if let LineFault::OfFrame(fault) = fault {
            damage(draws, &mut frame, fault);
        }
    }
    let need = 6 + 4 * usize::from(payload);
    let mut call = LineCall { line: line_of(&frame), lent: draws.enough(need) };
    for &fault in faults {
        if let LineFault::OfText(fault) = fault {
            damage_text(draws, &mut call, need, fault);
        }
    }
    call
}

/// Every pair of faults many times, sometimes with a third.
#[test]
fn damaged_lines() {
    let (list, faults, mut draws, mut counts) = (schemes(), line_faults(), Draws::new(43), Counts::default());
    for (at, &a) in faults.iter().enumerate() {
        for &b in &faults[at..] {
            for _ in 0..1000 {
                let scheme = draws.one_of(&list);
                let third = if draws.once_in(4) { draws.one_of(&faults) } else { b };
                let call = draw_damaged(&mut draws, scheme, &[a, b, third]);
                let _ = try_line(&mut draws, &call, &mut counts);
            }
        }
    }
    counts.check("damaged lines", &[1, 2, 3, 4, 5, 6, 7, 8, 9, 10, 11, 15, 18], 1000);
}

// ---- whole ranges ----

#[test]
fn the_line_of_document_01() {
    let (mut draws, mut counts) = (Draws::new(47), Counts::default());
    for lent in 0..40 {
        let call = LineCall { line: EXAMPLE.to_vec(), lent };
        let got = try_line(&mut draws, &call, &mut counts);
        let want = if lent < 18 { Err((15, None)) } else { Ok(EXAMPLE_ANSWER.to_vec()) };
        assert_eq!(got, want, "with an answer of {} bytes", lent);
    }
}

#[test]
fn lines_with_cellular_labels() {
    let (mut draws, mut counts) = (Draws::new(49), Counts::default());
    for (line, want) in CELLULAR_LINES {
        let call = LineCall { line: line.to_vec(), lent: want.len() };
        assert_eq!(try_line(&mut draws, &call, &mut counts), Ok(want.to_vec()));
    }
}

#[test]
fn lines_with_weights() {
    let (mut draws, mut counts) = (Draws::new(50), Counts::default());
    for (line, want) in WEIGHTED_LINES {
        let call = LineCall { line: line.to_vec(), lent: want.len() };
        assert_eq!(try_line(&mut draws, &call, &mut counts), Ok(want.to_vec()));
    }
    for (line, want) in REFUSED_LINES {
        let call = LineCall { line: line.to_vec(), lent: 18 };
        assert_eq!(try_line(&mut draws, &call, &mut counts), Err(want));
    }
}

/// Every number of a kind with some bit counts, and every bit count of each kind, and of the first number above, beside some others.
#[test]
fn every_modulation() {
    const SOME: [u8; 10] = [0, 1, 2, 3, 4, 5, 6, 7, 64, 255];
    let (mut draws, mut counts) = (Draws::new(51), Counts::default());
    let mut trial = |kind: u8, bits: [u8; 2]| {
        let mut frame = draw_frame(&mut draws, Scheme { kind: PAM, bits: [1, 0] }, 1);
        if kind >= 0x80 {
            draw_weights(&mut draws, &mut frame);
        }
        let plain = kind & 0x7F;
        frame.header.scheme = Scheme { kind: plain, bits };
        let quadrature = KINDS.get(usize::from(plain)).map_or(true, |kind| kind.quadrature);
        frame.yq.resize(usize::from(quadrature), 0);
        let call = draw_call(&mut draws, &frame);
        let _ = try_line(&mut draws, &call, &mut counts);
    };
    for some in SOME {
        for other in SOME {
            (0..=255).for_each(|kind| trial(kind, [some, other]));
        }
        for kind in (0..=KINDS.len() as u8).flat_map(|kind| [kind, 0x80 + kind]) {
            (0..=255).for_each(|count| trial(kind, [count, some]));
            (0..=255).for_each(|count| trial(kind, [some, count]));
        }
    }
    counts.check("modulations", &[4, 5], 100);
}

/// Every byte at every place of a line of QAM and one of PAM, plain and with weights.
#[test]
fn every_character_at_every_place() {
    let (mut draws, mut counts) = (Draws::new(53), Counts::default());
    for (kind, bits, weighted) in [(QAM, [2, 2], false), (PAM, [3, 0], false), (QAM, [2, 2], true), (PAM, [3, 0], true)] {
        let mut frame = draw_frame(&mut draws, Scheme { kind, bits }, 6);
        if weighted {
            draw_weights(&mut draws, &mut frame);
        }
        let whole = draw_call(&mut draws, &frame);
        for at in 0..whole.line.len() {
            for byte in 0..=255 {
                let mut call = whole.clone();
                call.line[at] = byte;
                let got = try_line(&mut draws, &call, &mut counts);
                assert_eq!(got == Err((2, None)), !DIGITS.contains(&byte), "byte {} at {}", byte, at);
            }
        }
    }
}

/// Every length up to beyond the longest line, with the header of the longest and with that of the longest without weights.
#[test]
fn every_length() {
    let (mut draws, mut counts) = (Draws::new(59), Counts::default());
    let plain = draw_frame(&mut draws, Scheme { kind: QAM, bits: [1, 1] }, 512);
    let mut longest = plain.clone();
    draw_weights(&mut draws, &mut longest);
    for (frame, wanted) in [(plain, 5140), (longest, MAX_LINE)] {
        let whole = line_of(&frame);
        assert_eq!(whole.len(), wanted);
        for len in 0..MAX_LINE + 50 {
            let mut call = LineCall { line: whole.clone(), lent: 6 + 4 * 512 };
            call.line.resize(len, b'0');
            let got = try_line(&mut draws, &call, &mut counts);
            assert_eq!(got.is_ok(), len == wanted, "a line of {} digits", len);
        }
    }
    counts.check("lengths", &[1, 3], 2);
}

/// The longest answer fits the room that the package names.
#[test]
fn the_longest_answer() {
    let (mut draws, mut counts) = (Draws::new(61), Counts::default());
    let frame = draw_frame(&mut draws, Scheme { kind: QAM, bits: [6, 6] }, 256 * 12);
    for (lent, accepted) in [(MAX_ANSWER, true), (MAX_ANSWER - 1, false)] {
        let call = LineCall { line: line_of(&frame), lent };
        assert_eq!(try_line(&mut draws, &call, &mut counts).is_ok(), accepted);
    }
}

/// A bad gain and a bad sample at every two of six symbols: the first is named.
#[test]
fn the_first_bad_symbol_is_named() {
    let (mut draws, mut counts) = (Draws::new(67), Counts::default());
    for scheme in schemes() {
        let payload = 6 * scheme.bits_per_symbol() as u16;
        for gain_at in 0..6 {
            for sample_at in 0..6 {
                let mut frame = draw_frame(&mut draws, scheme, payload);
                frame.gains[gain_at] = 4096;
                let y = if draws.once_in(2) || frame.yq.is_empty() { &mut frame.yi } else { &mut frame.yq };
                y[sample_at] = draws.one_of(&[1_048_577, -1_048_577, i32::MIN, i32::MAX]);
                let call = draw_call(&mut draws, &frame);
                let want = if gain_at <= sample_at { (10, Some(Place::Symbol(gain_at))) } else { (11, Some(Place::Symbol(sample_at))) };
                assert_eq!(try_line(&mut draws, &call, &mut counts), Err(want));
            }
        }
    }
}

/// Bad gains and samples in the last symbols of the longest frames.
#[test]
fn a_bad_symbol_far_behind_is_named() {
    let (mut draws, mut counts) = (Draws::new(71), Counts::default());
    for scheme in schemes() {
        let payload = 256 * scheme.bits_per_symbol() as u16;
        let symbol = draws.one_of(&[127, 128, 254, 255]);
        let mut frame = draw_frame(&mut draws, scheme, payload);
        frame.yi[symbol] = 1_048_577;
        let call = draw_call(&mut draws, &frame);
        assert_eq!(try_line(&mut draws, &call, &mut counts), Err((11, Some(Place::Symbol(symbol)))));
        frame.gains[symbol] = 65535;
        let call = draw_call(&mut draws, &frame);
        assert_eq!(try_line(&mut draws, &call, &mut counts), Err((10, Some(Place::Symbol(symbol)))));
    }
}
