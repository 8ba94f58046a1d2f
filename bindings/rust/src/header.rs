//! Headers of frames, and what they call for.

use crate::exported::softdemap_sizes;
use crate::modulation::Modulation;
use crate::refusal::{served, Refused};

/// The most symbols of a frame.
pub const MAX_SYMBOLS: usize = 256;

/// What is set up for a link: the modulation, the payload of a frame, and how cost differences become soft values. Any values may be
/// written here; the calls refuse those out of range.
#[derive(Clone, Copy, Debug, PartialEq, Eq, Hash)]
pub struct Header {
    /// The modulation.
    pub modulation: Modulation,
    /// Payload bits of the frame: 1 or more, in at most [`MAX_SYMBOLS`] symbols.
    pub payload: u16,
    /// The factor of cost differences: 1 to 4095; where each symbol has a weight of its own ([`demap_frame_weighted`](crate::demap_frame_weighted)) 0.
    pub weight: u16,
    /// Cost differences are divided by 2 to this power, for PSK by 2^14 besides: 0 to 40.
    pub shift: u8,
    /// Soft values are held within −limit to limit: 1 to 32767.
    pub limit: u16,
}

/// The sizes that a header calls for. The entries of hard bits and of soft values are its payload.
#[derive(Clone, Copy, Debug, Default, PartialEq, Eq, Hash)]
pub struct Sizes {
    /// Symbols just enough for the payload: the entries of gains and of `yi`.
    pub symbols: usize,
    /// The entries of `yq`: as many, for PAM 0.
    pub quadrature: usize,
    /// The entries of the probes' indices and of their costs.
    pub probes: usize,
    /// The characters of the frame written as a line.
    pub line: usize,
    /// The characters of the answer to that line.
    pub answer: usize,
}

impl Header {
    /// What the header calls for.
    ///
    /// # Errors
    ///
    /// In this order: 5, 6, 7, 8, 9.
    ///
    /// ```
    /// use softdemap::{Header, Modulation, Sizes};
    ///
    /// let modulation = Modulation::Qam { bits_i: 2, bits_q: 2 };
    /// let header = Header { modulation, payload: 3, weight: 1, shift: 2, limit: 32767 };
    /// assert_eq!(header.sizes()?, Sizes { symbols: 1, quadrature: 1, probes: 6, line: 40, answer: 18 });
    /// # Ok::<(), softdemap::Refused>(())
    /// ```
    pub fn sizes(&self) -> Result<Sizes, Refused> {
        sizes_by_numbers(self.modulation.numbers(), self.payload, self.weight, self.shift, self.limit)
    }

    /// What the header calls for where each symbol has a weight of its own: the header's weight is then 0, there are as many weights as symbols,
    /// and the line is longer by 4 characters a symbol.
    ///
    /// # Errors
    ///
    /// In this order: 5, 6, 18, 8, 9.
    ///
    /// ```
    /// use softdemap::{Header, Modulation, Sizes};
    ///
    /// let modulation = Modulation::Qam { bits_i: 2, bits_q: 2 };
    /// let header = Header { modulation, payload: 3, weight: 0, shift: 2, limit: 32767 };
    /// assert_eq!(header.sizes_weighted()?, Sizes { symbols: 1, quadrature: 1, probes: 6, line: 44, answer: 18 });
    /// # Ok::<(), softdemap::Refused>(())
    /// ```
    pub fn sizes_weighted(&self) -> Result<Sizes, Refused> {
        sizes_by_numbers(self.modulation.weighted_numbers(), self.payload, self.weight, self.shift, self.limit)
    }
}

/// [`Header::sizes`] of a header by its numbers, as lines have them.
pub(crate) fn sizes_by_numbers(modulation: [u8; 3], payload: u16, weight: u16, shift: u8, limit: u16) -> Result<Sizes, Refused> {
    let [kind, bits_i, bits_q] = modulation;
    let [mut symbols, mut quadrature, mut probes, mut line, mut answer] = [0; 5];
    // SAFETY: the pointers are those of five different local numbers, which nothing else refers to.
    let returned = unsafe {
        softdemap_sizes(
            kind,
            bits_i,
            bits_q,
            payload,
            weight,
            shift,
            limit,
            &mut symbols,
            &mut quadrature,
            &mut probes,
            &mut line,
            &mut answer,
        )
    };
    served(u64::from(returned))?;
    let [symbols, quadrature, probes, line, answer] = [symbols, quadrature, probes, line, answer].map(|size| size as usize);
    Ok(Sizes { symbols, quadrature, probes, line, answer })
}
