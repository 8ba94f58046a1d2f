//! The frame call.

use crate::exported::softdemap_frame_weighted;
use crate::header::Header;
use crate::refusal::{served_at, served_weighted, Place, Refused};

/// A frame that was read: what [`demap_frame`] writes, and no more entries.
#[derive(Clone, Debug, PartialEq, Eq, Hash)]
pub struct Reading {
    /// The payload's bits as decided, in the order sent.
    pub hard: Vec<u8>,
    /// Their soft values; **plus leans to the bit 0, minus to the bit 1**.
    pub soft: Vec<i16>,
    /// The indices of the probes.
    pub probe_index: Vec<u8>,
    /// The costs of these indices.
    pub probe_cost: Vec<i64>,
}

impl Reading {
    /// Lists of these lengths to be written.
    fn zeros(payload: usize, probes: usize) -> Reading {
        Reading { hard: vec![0; payload], soft: vec![0; payload], probe_index: vec![0; probes], probe_cost: vec![0; probes] }
    }
}

/// Reads a frame into slices and gives the number of its probes. Lengths that are not the payload are those of [`Header::sizes`].
///
/// In:
/// - `gains`: one entry a symbol, each 0 to 4095
/// - `yi`: the in-phase samples, each −1,048,576 to 1,048,576
/// - `yq`: the quadrature samples; for PAM no entries
///
/// Out:
/// - `hard`: payload entries or more: the payload's bits as decided, in the order sent
/// - `soft`: payload entries or more: their soft values; **plus leans to the bit 0, minus to the bit 1**
/// - `probe_index`: as many entries as probes, or more: for each symbol, for QAM each axis, the nearest index, and then for each of its
///   bits the best index whose label has the other value of that bit
/// - `probe_cost`: as many, or more: the costs of these indices
///
/// Padding bits of the last symbol are not handed out; their probes are. Entries behind the answer keep what they held.
///
/// # Errors
///
/// In this order: 5, 6, 7, 8, 9, 16, 15, then for each symbol 10, 11, with the symbol. Nothing is written.
///
/// ```
/// use softdemap::{demap_frame, Header, Modulation};
///
/// let modulation = Modulation::Qam { bits_i: 2, bits_q: 2 };
/// let header = Header { modulation, payload: 3, weight: 1, shift: 2, limit: 32767 };
/// let (mut hard, mut soft, mut index, mut cost) = ([0; 3], [0; 3], [0; 6], [0; 6]);
/// let probes = demap_frame(&header, &[5], &[3], &[-20], &mut hard, &mut soft, &mut index, &mut cost)?;
/// assert_eq!((probes, hard, soft), (6, [1, 1, 0], [-15, -35, 150]));
/// # Ok::<(), softdemap::Refused>(())
/// ```
#[allow(clippy::too_many_arguments)] // one slice for each buffer of the C call
pub fn demap_frame(
    header: &Header,
    gains: &[u16],
    yi: &[i32],
    yq: &[i32],
    hard: &mut [u8],
    soft: &mut [i16],
    probe_index: &mut [u8],
    probe_cost: &mut [i64],
) -> Result<usize, Refused> {
    let numbers = header.modulation.numbers();
    let answer = call(numbers, header, gains, &[], yi, yq, hard, soft, probe_index, probe_cost);
    served_at(Place::Symbol, answer & u64::from(u32::MAX))?;
    Ok((answer >> 32) as usize)
}

/// Reads a frame whose symbols have weights of their own, in place of one for all, as where some carriers of a link are noisier than others.
/// Each symbol's costs are multiplied by its weight, and the costs of its probes are not. All else is as in [`demap_frame`], and the lengths
/// are those of [`Header::sizes_weighted`].
///
/// In:
/// - `header`: its weight is 0
/// - `weights`: one entry a symbol, each 1 to 4095
///
/// # Errors
///
/// In this order: 5, 6, 18, 8, 9, 16, 15, then for each symbol 10, 7, 11, with the symbol. Nothing is written.
///
/// ```
/// use softdemap::{demap_frame_weighted, Header, Modulation};
///
/// let modulation = Modulation::Qam { bits_i: 2, bits_q: 2 };
/// let header = Header { modulation, payload: 6, weight: 0, shift: 2, limit: 32767 };
/// let (mut hard, mut soft, mut index, mut cost) = ([0; 6], [0; 6], [0; 12], [0; 12]);
/// demap_frame_weighted(&header, &[5, 5], &[3, 7], &[3, 3], &[-20, -20], &mut hard, &mut soft, &mut index, &mut cost)?;
/// assert_eq!(soft, [-45, -105, 450, 150, -105, -245]);
/// # Ok::<(), softdemap::Refused>(())
/// ```
#[allow(clippy::too_many_arguments)] // one slice for each buffer of the C call
pub fn demap_frame_weighted(
    header: &Header,
    gains: &[u16],
    weights: &[u16],
    yi: &[i32],
    yq: &[i32],
    hard: &mut [u8],
    soft: &mut [i16],
    probe_index: &mut [u8],
    probe_cost: &mut [i64],
) -> Result<usize, Refused> {
    let numbers = header.modulation.weighted_numbers();
    let answer = call(numbers, header, gains, weights, yi, yq, hard, soft, probe_index, probe_cost);
    served_weighted(answer & u64::from(u32::MAX))?;
    Ok((answer >> 32) as usize)
}

/// Reads a frame as [`demap_frame`] does, and gives it as lists.
///
/// # Errors
///
/// Those of [`demap_frame`] but 15.
///
/// ```
/// use softdemap::{read_frame, Header, Modulation};
///
/// let header = Header { modulation: Modulation::Qam { bits_i: 2, bits_q: 2 }, payload: 3, weight: 1, shift: 2, limit: 32767 };
/// let reading = read_frame(&header, &[5], &[3], &[-20])?;
/// assert_eq!((reading.hard, reading.soft), (vec![1, 1, 0], vec![-15, -35, 150]));
/// assert_eq!(reading.probe_index, [2, 1, 3, 0, 2, 1]);
/// # Ok::<(), softdemap::Refused>(())
/// ```
pub fn read_frame(header: &Header, gains: &[u16], yi: &[i32], yq: &[i32]) -> Result<Reading, Refused> {
    let probes = header.sizes().unwrap_or_default().probes; // a header without sizes is refused by the call
    let mut out = Reading::zeros(usize::from(header.payload), probes);
    demap_frame(header, gains, yi, yq, &mut out.hard, &mut out.soft, &mut out.probe_index, &mut out.probe_cost)?;
    Ok(out)
}

/// Reads a frame as [`demap_frame_weighted`] does, and gives it as lists.
///
/// # Errors
///
/// Those of [`demap_frame_weighted`] but 15.
///
/// ```
/// use softdemap::{read_frame_weighted, Header, Modulation};
///
/// let header = Header { modulation: Modulation::Psk { bits: 2 }, payload: 2, weight: 0, shift: 0, limit: 32767 };
/// assert_eq!(read_frame_weighted(&header, &[1], &[2], &[1], &[2])?.soft, [11, 6]);
/// # Ok::<(), softdemap::Refused>(())
/// ```
pub fn read_frame_weighted(header: &Header, gains: &[u16], weights: &[u16], yi: &[i32], yq: &[i32]) -> Result<Reading, Refused> {
    let probes = header.sizes_weighted().unwrap_or_default().probes; // a header without sizes is refused by the call
    let mut out = Reading::zeros(usize::from(header.payload), probes);
    demap_frame_weighted(header, gains, weights, yi, yq, &mut out.hard, &mut out.soft, &mut out.probe_index, &mut out.probe_cost)?;
    Ok(out)
}

/// The call with the list of weights, which is empty for plain kinds, and the number that it returns. `softdemap_frame` is the same call without the list.
#[allow(clippy::too_many_arguments)] // one slice for each buffer of the C call
fn call(
    [kind, bits_i, bits_q]: [u8; 3],
    header: &Header,
    gains: &[u16],
    weights: &[u16],
    yi: &[i32],
    yq: &[i32],
    hard: &mut [u8],
    soft: &mut [i16],
    probe_index: &mut [u8],
    probe_cost: &mut [i64],
) -> u64 {
    // SAFETY: each pointer comes from a slice and stands with the slice's length, so the call reads and writes lent entries only. The
    // mutable slices overlap neither each other nor the inputs. An empty slice passes a dangling pointer, which is not looked at.
    unsafe {
        softdemap_frame_weighted(
            kind,
            bits_i,
            bits_q,
            header.payload,
            header.weight,
            header.shift,
            header.limit,
            gains.as_ptr(),
            gains.len(),
            weights.as_ptr(),
            weights.len(),
            yi.as_ptr(),
            yi.len(),
            yq.as_ptr(),
            yq.len(),
            hard.as_mut_ptr(),
            hard.len(),
            soft.as_mut_ptr(),
            soft.len(),
            probe_index.as_mut_ptr(),
            probe_index.len(),
            probe_cost.as_mut_ptr(),
            probe_cost.len(),
        )
    }
}
