//! A proved soft demapper for Gray-labelled PAM, QAM and PSK: safe calls over the archive `libsoftdemap.a`.
//!
//! There is a function for each call of the C header. It keeps no state and allocates nothing, and every output goes into a slice that the
//! caller lends; a refused call writes nothing and gives [`Refused`]. Where the caller would have to find out how long an answer is, there
//! is a second function that makes the same call and gives an answer that the caller owns.
//!
//! | here | owned | C | |
//! |---|---|---|---|
//! | [`Header::sizes`], [`Header::sizes_weighted`] | | `softdemap_sizes` | a header to the lengths that its frame needs |
//! | [`demap_frame`] | [`read_frame`] | `softdemap_frame` | samples to hard bits, soft values and probes |
//! | [`demap_frame_weighted`] | [`read_frame_weighted`] | `softdemap_frame_weighted` | the same, with a weight for each symbol |
//! | [`map_bits`] | [`mapped`] | `softdemap_map` | bits to samples without noise |
//! | [`answer_line`] | [`answer_of`] | `softdemap_line` | a frame written as a line of hexadecimal to its answer |
//! | [`sample_i32`], [`quadrature_i32`], [`samples_i32`] | | `softdemap_sample_i32` and so on | binary32 numbers to samples |
//! | [`soft_f32`], [`softs_f32`] | | `softdemap_soft_f32` and so on | soft values to binary32 numbers |
//!
//! # Modulations
//!
//! A symbol carries the bits of its [`Modulation`], for QAM those in phase and those in quadrature. An axis with m bits has 2^m levels, and
//! its index k the level 2k − (2^m − 1); PSK with m bits has 2^m phases, and phase k stands at (2k + 1) · 180 / 2^m degrees. Labels are
//! binary-reflected Gray labels of the index, the most significant bit first; QAM sends the in-phase label, then the quadrature label.
//!
//! Cellular labels of an axis have every bit turned round, so that those of 3 bits are 111, 110, 100, 101, 001, 000, 010, 011 from the
//! level −7 upward, and the axes take turns: bit 2i of a symbol is bit i of the in-phase label, bit 2i + 1 that of the quadrature label.
//! What is said of QAM elsewhere holds for cellular too.
//!
//! # Units
//!
//! - Gain g: 0 to 4095. A noise-free PAM or QAM coordinate is g times the level.
//! - Sample: −1,048,576 to 1,048,576, in the gain's units.
//! - Cost: for PAM and each QAM axis (sample − g · level)²; for PSK −2 g (yi u + yq v), where (u, v) is the point in units of 1/16384.
//! - Bit byte: 0 or 1.
//! - Weight: 1 to 4095, one for all symbols of a frame or one for each, whose cost it multiplies.
//! - Soft value: N · weight / 2^(shift + e), rounded to the nearest whole number, halves away from zero, then held within −limit to limit.
//!   N is the least cost over the points with the bit 1 less that over the points with the bit 0; e is 14 for PSK, else 0.
//!   **Plus leans to the bit 0, minus to the bit 1.**
//! - Nearest index: that of the least cost, **among equals the smallest**, so at gain 0 it is 0.
//!
//! # Example
//!
//! A symbol of 16-QAM, received at gain 5 as (3, −20), of which 3 bits are payload; then the same frame as a line of hexadecimal.
//!
//! ```
//! use softdemap::{answer_of, read_frame, Header, Modulation};
//!
//! let header = Header { modulation: Modulation::Qam { bits_i: 2, bits_q: 2 }, payload: 3, weight: 1, shift: 2, limit: 32767 };
//! let reading = read_frame(&header, &[5], &[3], &[-20])?;
//! assert_eq!((reading.hard, reading.soft), (vec![1, 1, 0], vec![-15, -35, 150]));
//!
//! let answer = answer_of(b"01020200030001027FFF000500000003FFFFFFEC")?;
//! assert_eq!(answer, "000006FFF1FFDD0096"); // accepted, 6 probes, soft values -15, -35, 150
//! # Ok::<(), softdemap::Refused>(())
//! ```

#![warn(missing_docs)]
#![warn(unsafe_op_in_unsafe_fn)]

mod capture;
mod exported;
mod frame;
mod header;
mod line;
mod mapping;
mod modulation;
mod refusal;

pub use capture::{quadrature_i32, sample_i32, samples_i32, soft_f32, softs_f32, Quadrature};
pub use frame::{demap_frame, demap_frame_weighted, read_frame, read_frame_weighted, Reading};
pub use header::{Header, Sizes, MAX_SYMBOLS};
pub use line::{answer_line, answer_of, MAX_ANSWER, MAX_LINE};
pub use mapping::{map_bits, mapped};
pub use modulation::Modulation;
pub use refusal::{Place, Refusal, Refused};
