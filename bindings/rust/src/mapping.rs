//! The mapping call.

use crate::exported::softdemap_map;
use crate::header::{Header, Sizes};
use crate::modulation::Modulation;
use crate::refusal::{served, Refused};

/// Maps bits to symbols without noise, and gives their number, [`Sizes::symbols`] of a payload of as many bits. The last symbol is filled
/// up with bits 0.
///
/// In:
/// - `gain`: 0 to 4095
/// - `bits`: the payload's bit bytes, 0 or 1, in the order sent; 1 or more, in at most [`MAX_SYMBOLS`](crate::MAX_SYMBOLS) symbols
///
/// Out:
/// - `yi`: as many entries as symbols, or more: the gain times the level in phase, for PSK u in units of 1/16384, which the gain does not
///   scale
/// - `yq`: as many, or more: the same in quadrature, for PSK v. PAM leaves `yq` alone, whatever its length
///
/// Entries behind the answer keep what they held.
///
/// # Errors
///
/// In this order: 5, 6, 10, 17, 15. Nothing is written.
///
/// ```
/// use softdemap::{map_bits, Modulation};
///
/// let (mut yi, mut yq) = ([0; 2], [0; 2]);
/// let symbols = map_bits(Modulation::Qam { bits_i: 2, bits_q: 2 }, 100, &[1, 1, 0, 1, 0], &mut yi, &mut yq)?;
/// assert_eq!((symbols, yi, yq), (2, [100, -300], [-100, -300]));
/// # Ok::<(), softdemap::Refused>(())
/// ```
pub fn map_bits(modulation: Modulation, gain: u16, bits: &[u8], yi: &mut [i32], yq: &mut [i32]) -> Result<usize, Refused> {
    let [kind, bits_i, bits_q] = modulation.numbers();
    // SAFETY: each pointer comes from a slice and stands with the slice's length. The mutable slices overlap neither each other nor the
    // input. An empty slice passes a dangling pointer, which is not looked at.
    let answer = unsafe {
        softdemap_map(kind, bits_i, bits_q, gain, bits.as_ptr(), bits.len(), yi.as_mut_ptr(), yi.len(), yq.as_mut_ptr(), yq.len())
    };
    served(u64::from(answer))?;
    Ok(sizes_of_bits(modulation, bits).symbols)
}

/// What the bits call for, which weight, shift and limit have no part in; all 0 where the mapping call refuses the modulation or the
/// number of bits.
fn sizes_of_bits(modulation: Modulation, bits: &[u8]) -> Sizes {
    match u16::try_from(bits.len()) {
        Ok(payload) => Header { modulation, payload, weight: 1, shift: 0, limit: 1 }.sizes().unwrap_or_default(),
        Err(_) => Sizes::default(),
    }
}

/// Maps bits as [`map_bits`] does, and gives the samples as lists: in phase, and in quadrature, where PAM has none.
///
/// # Errors
///
/// Those of [`map_bits`] but 15.
///
/// ```
/// use softdemap::{mapped, Modulation};
///
/// assert_eq!(mapped(Modulation::Qam { bits_i: 2, bits_q: 2 }, 100, &[1, 1, 0, 1, 0])?, (vec![100, -300], vec![-100, -300]));
/// assert_eq!(mapped(Modulation::Pam { bits: 1 }, 7, &[0, 1])?, (vec![-7, 7], vec![]));
/// # Ok::<(), softdemap::Refused>(())
/// ```
pub fn mapped(modulation: Modulation, gain: u16, bits: &[u8]) -> Result<(Vec<i32>, Vec<i32>), Refused> {
    let sizes = sizes_of_bits(modulation, bits);
    let (mut yi, mut yq) = (vec![0; sizes.symbols], vec![0; sizes.quadrature]);
    map_bits(modulation, gain, bits, &mut yi, &mut yq)?;
    Ok((yi, yq))
}
