//! Refusals: that the package and the C header say the same, and how a refused call is shown.

use softdemap::{answer_of, map_bits, mapped, read_frame, read_frame_weighted, sample_i32, samples_i32};
use softdemap::{Header, Modulation, Place, Refusal, Refused};

const C_HEADER: &str = include_str!("../../../include/softdemap.h");

/// The rows of the header's table of refusals: number and text, which ends before a column that begins with "with the".
fn rows() -> Vec<(u8, &'static str)> {
    let table = C_HEADER.lines().skip_while(|line| !line.starts_with(" * Refusals, ")).skip(1);
    let rows = table.map(|line| line.trim_start_matches(" *").trim_start());
    rows.take_while(|row| row.starts_with(|first: char| first.is_ascii_digit()))
        .map(|row| {
            let (number, text) = row.split_once("  ").expect("two spaces stand behind a number");
            (number.parse().expect("a row begins with its number"), text.split("  with the").next().unwrap_or(text).trim_end())
        })
        .collect()
}

/// A name of the package in the way of C: `LineLength` becomes `LINE_LENGTH`.
fn in_capitals(name: &str) -> String {
    let mut capitals = String::new();
    for (at, letter) in name.char_indices() {
        if at > 0 && letter.is_ascii_uppercase() {
            capitals.push('_');
        }
        capitals.push(letter.to_ascii_uppercase());
    }
    capitals
}

#[test]
fn texts_are_those_of_the_c_header() {
    assert_eq!(Refusal::ALL.map(|refusal| (refusal.number(), refusal.text())).to_vec(), rows());
}

#[test]
fn names_are_those_of_the_c_header() {
    let named = C_HEADER.lines().filter_map(|line| line.trim().strip_prefix("SOFTDEMAP_REFUSAL_"));
    let named: Vec<&str> = named.map(|line| line.trim_end_matches(',')).collect();
    let ours = Refusal::ALL.map(|refusal| format!("{} = {}", in_capitals(&format!("{:?}", refusal)), refusal.number()));
    assert_eq!(ours.to_vec(), named);
}

#[test]
fn sizes_are_those_of_the_c_header() {
    let ours = [("SYMBOLS", softdemap::MAX_SYMBOLS), ("LINE", softdemap::MAX_LINE), ("ANSWER", softdemap::MAX_ANSWER)];
    for (name, size) in ours {
        let define = format!("#define SOFTDEMAP_MAX_{} {}", name, size);
        assert!(C_HEADER.lines().any(|line| line == define), "the C header has no {}", define);
    }
}

#[test]
fn numbers_lead_to_their_refusals() {
    for number in 0..=255 {
        let refusal = Refusal::ALL.iter().copied().find(|&refusal| refusal as u8 == number);
        assert_eq!(Refusal::from_number(number), refusal);
    }
    assert!(Refusal::ALL.iter().map(|refusal| usize::from(refusal.number())).eq(1..=Refusal::ALL.len()));
}

/// Each refusal as each call that gives it shows it.
#[test]
fn a_place_is_shown_where_there_is_one() {
    const QAM16: Modulation = Modulation::Qam { bits_i: 2, bits_q: 2 };
    let header = Header { modulation: QAM16, payload: 16, weight: 1, shift: 0, limit: 1 };
    let shown = |refused: Option<Refused>| refused.map(|refused| (refused.to_string(), refused.place)).expect("the call is refused");
    let frame = |header: &Header, gains: [u16; 4], yi: [i32; 4]| shown(read_frame(header, &gains, &yi, &[0; 4]).err());
    let said = |text: &str, place| (text.to_string(), place);

    let no_payload = said("refusal 6: no payload, or more than 256 symbols", None);
    assert_eq!(frame(&Header { payload: 0, ..header }, [1; 4], [0; 4]), no_payload);
    assert_eq!(shown(Header { payload: 0, ..header }.sizes().err()), no_payload);
    assert_eq!(shown(mapped(QAM16, 1, &[]).err()), no_payload);

    assert_eq!(frame(&header, [1, 1, 1, 4096], [0; 4]), said("refusal 10 at symbol 3: gain above 4095", Some(Place::Symbol(3))));
    assert_eq!(shown(mapped(QAM16, 4096, &[1]).err()), said("refusal 10: gain above 4095", None));
    let outside = said("refusal 11 at symbol 0: sample outside -1048576 to 1048576", Some(Place::Symbol(0)));
    assert_eq!(frame(&header, [1; 4], [1_048_577, 0, 0, 0]), outside);
    assert_eq!(shown(answer_of(b"0001000001000100000100010FFFFFFF").err()), outside);
    assert_eq!(shown(answer_of(b"").err()), said("refusal 1: a line of odd length, below 20 or above 6164 characters", None));

    let weighted =
        |weight, weights: [u16; 4]| shown(read_frame_weighted(&Header { weight, ..header }, &[1; 4], &weights, &[0; 4], &[0; 4]).err());
    assert_eq!(weighted(1, [1; 4]), said("refusal 18: a header weight other than 0 of a weighted kind", None));
    assert_eq!(weighted(0, [1, 1, 4096, 0]), said("refusal 7 at symbol 2: weight outside 1 to 4095", Some(Place::Symbol(2))));
    assert_eq!(weighted(0, [0; 4]), said("refusal 7 at symbol 0: weight outside 1 to 4095", Some(Place::Symbol(0))));
    assert_eq!(frame(&Header { weight: 0, ..header }, [1; 4], [0; 4]), said("refusal 7: weight outside 1 to 4095", None));
    let line = |line: &[u8]| shown(answer_of(line).err());
    assert_eq!(line(b"80010000010000000001000100000000000F").1, Some(Place::Symbol(0)));
    assert_eq!(line(b"00010000010000000001000100000000"), said("refusal 7: weight outside 1 to 4095", None));

    let not_finite = "a binary32 number that is infinite or not a number";
    let capture = |numbers: &[f32]| shown(samples_i32(QAM16, 0, numbers, &mut [0; 2], &mut [0; 2]).err());
    assert_eq!(capture(&[0.0, 0.0, 0.0, f32::NAN]), said(&format!("refusal 12 at sample 1: {}", not_finite), Some(Place::Sample(1))));
    assert_eq!(shown(sample_i32(0, f32::NAN).err()), said(&format!("refusal 12: {}", not_finite), None));
    let out_of_range = "refusal 13 at sample 0: a binary32 number that rounds out of the range of samples";
    assert_eq!(capture(&[1e9, 0.0]), said(out_of_range, Some(Place::Sample(0))));

    let too_short = said("refusal 15: an output buffer shorter than the answer", None);
    assert_eq!(shown(map_bits(QAM16, 1, &[1], &mut [], &mut []).err()), too_short);
}
