//! The binary32 calls.
//!
//! In, at a scale F of 0 to 20, a number x becomes the whole number nearest to x · 2^F, halves to the even one. Out, at a scale f of 0 to
//! 14, a soft value v becomes v · 2^(−f) exactly.

use std::ptr;

use crate::exported::{softdemap_quadrature_i32, softdemap_sample_i32, softdemap_samples_i32, softdemap_soft_f32, softdemap_softs_f32};
use crate::modulation::Modulation;
use crate::refusal::{served, served_at, Place, Refused};

/// A sample of any modulation but PAM as a capture holds it.
#[derive(Clone, Copy, Debug, PartialEq)]
pub struct Quadrature {
    /// The in-phase number.
    pub in_phase: f32,
    /// The quadrature number.
    pub quadrature: f32,
}

/// Converts a sample of PAM, one number, at the scale F of 0 to 20: the whole number nearest to `x` · 2^F, halves to the even one.
///
/// # Errors
///
/// In this order: 14, 12, 13.
///
/// ```
/// use softdemap::{sample_i32, Refusal};
///
/// assert_eq!(sample_i32(0, 2.5)?, 2);
/// assert_eq!(sample_i32(0, 1048576.5)?, 1048576);
/// assert_eq!(sample_i32(0, 1048576.75).unwrap_err().refusal, Refusal::RoundsOutOfRange);
/// # Ok::<(), softdemap::Refused>(())
/// ```
pub fn sample_i32(scale: u8, x: f32) -> Result<i32, Refused> {
    let mut y = 0;
    // SAFETY: the pointer is that of a local number, which nothing else refers to.
    let answer = unsafe { softdemap_sample_i32(scale, x, &mut y) };
    served(u64::from(answer))?;
    Ok(y)
}

/// Converts a quadrature sample, a pair of numbers, at the scale F of 0 to 20: the whole numbers in phase and in quadrature.
///
/// # Errors
///
/// In this order: 14, then 12 and 13 for the in-phase number, then for the quadrature number.
///
/// ```
/// use softdemap::{quadrature_i32, Quadrature};
///
/// assert_eq!(quadrature_i32(12, Quadrature { in_phase: 0.25, quadrature: -1.0 })?, (1024, -4096));
/// # Ok::<(), softdemap::Refused>(())
/// ```
pub fn quadrature_i32(scale: u8, sample: Quadrature) -> Result<(i32, i32), Refused> {
    let (mut yi, mut yq) = (0, 0);
    // SAFETY: the pointers are those of two different local numbers, which nothing else refers to.
    let answer = unsafe { softdemap_quadrature_i32(scale, sample.in_phase, sample.quadrature, &mut yi, &mut yq) };
    served(u64::from(answer))?;
    Ok((yi, yq))
}

/// Converts a capture of n samples at the scale F of 0 to 20 into the samples of [`demap_frame`](crate::demap_frame), and gives n. A
/// capture may be of any length, also empty. Of the modulation the bit counts do not matter.
///
/// In: `capture`, for PAM n numbers, else 2n: in-phase, quadrature, in-phase, and so on
///
/// Out:
/// - `yi`: n entries or more: the whole numbers, for pairs those of the in-phase numbers
/// - `yq`: n entries or more: the whole numbers of the quadrature numbers. PAM leaves `yq` alone, whatever its length
///
/// Entries behind the answer keep what they held.
///
/// # Errors
///
/// In this order: 14, 16, 15, then for each sample 12 and 13, in-phase first, with the sample. Nothing is written.
///
/// ```
/// use softdemap::{samples_i32, Modulation, Place, Refusal};
///
/// let modulation = Modulation::Qam { bits_i: 2, bits_q: 2 };
/// let (mut yi, mut yq) = ([0; 2], [0; 2]);
/// assert_eq!(samples_i32(modulation, 4, &[1.0, -1.0, 0.5, 3.0], &mut yi, &mut yq)?, 2);
/// assert_eq!((yi, yq), ([16, 8], [-16, 48]));
///
/// let refused = samples_i32(modulation, 4, &[1.0, -1.0, 0.5, f32::NAN], &mut yi, &mut yq).unwrap_err();
/// assert_eq!((refused.refusal, refused.place), (Refusal::NotFinite, Some(Place::Sample(1))));
/// # Ok::<(), softdemap::Refused>(())
/// ```
pub fn samples_i32(modulation: Modulation, scale: u8, capture: &[f32], yi: &mut [i32], yq: &mut [i32]) -> Result<usize, Refused> {
    let [kind, ..] = modulation.numbers();
    // SAFETY: each pointer comes from a slice and stands with the slice's length. The mutable slices overlap neither each other nor the
    // input. An empty slice passes a dangling pointer, which is not looked at.
    let answer = unsafe {
        softdemap_samples_i32(kind, scale, capture.as_ptr(), capture.len(), yi.as_mut_ptr(), yi.len(), yq.as_mut_ptr(), yq.len())
    };
    served_at(Place::Sample, answer)?;
    Ok(if has_pairs(kind) { capture.len() / 2 } else { capture.len() })
}

/// Whether samples of the kind are pairs of numbers: the library then refuses a capture of one number, which ends within a pair.
fn has_pairs(kind: u8) -> bool {
    let mut y = 0;
    // SAFETY: the pointers are those of a number that the call reads and of a local number, which nothing else refers to, and each stands
    // with the length 1. The null pointer stands with the length 0 and is not looked at.
    let answer = unsafe { softdemap_samples_i32(kind, 0, &0.0, 1, &mut y, 1, ptr::null_mut(), 0) };
    answer != 0
}

/// Converts a soft value at the scale f of 0 to 14: `soft` · 2^(−f), exactly; 0 becomes plus zero.
///
/// # Errors
///
/// 14.
///
/// ```
/// assert_eq!(softdemap::soft_f32(4, -40)?, -2.5);
/// # Ok::<(), softdemap::Refused>(())
/// ```
pub fn soft_f32(scale: u8, soft: i16) -> Result<f32, Refused> {
    let mut x = 0.0;
    // SAFETY: the pointer is that of a local number, which nothing else refers to.
    let answer = unsafe { softdemap_soft_f32(scale, soft, &mut x) };
    served(u64::from(answer))?;
    Ok(x)
}

/// Converts soft values at the scale f of 0 to 14, each as [`soft_f32`] does, and gives their number.
///
/// Out: `x`, as many entries as `soft` or more. Entries behind the answer keep what they held.
///
/// # Errors
///
/// In this order: 14, 15. Nothing is written.
///
/// ```
/// let mut x = [0.0; 2];
/// assert_eq!(softdemap::softs_f32(1, &[-15, 150], &mut x)?, 2);
/// assert_eq!(x, [-7.5, 75.0]);
/// # Ok::<(), softdemap::Refused>(())
/// ```
pub fn softs_f32(scale: u8, soft: &[i16], x: &mut [f32]) -> Result<usize, Refused> {
    // SAFETY: each pointer comes from a slice and stands with the slice's length. The mutable slice does not overlap the input. An empty
    // slice passes a dangling pointer, which is not looked at.
    let answer = unsafe { softdemap_softs_f32(scale, soft.as_ptr(), soft.len(), x.as_mut_ptr(), x.len()) };
    served(u64::from(answer))?;
    Ok(soft.len())
}
