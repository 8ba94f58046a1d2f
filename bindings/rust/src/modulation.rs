//! The modulations.

/// A modulation, with its bit counts as data. Any bit counts may be written here; the calls refuse those out of range.
#[derive(Clone, Copy, Debug, PartialEq, Eq, Hash)]
pub enum Modulation {
    /// Pulse amplitudes on one axis.
    Pam {
        /// Bits of a symbol: 1 to 6.
        bits: u8,
    },
    /// Pulse amplitudes on an in-phase and a quadrature axis.
    Qam {
        /// Bits in phase: 1 to 6.
        bits_i: u8,
        /// Bits in quadrature: 1 to 6.
        bits_q: u8,
    },
    /// Phases on a circle.
    Psk {
        /// Bits of a symbol: 1 to 4.
        bits: u8,
    },
    /// QAM with the labels of 3GPP TS 36.211: QPSK, 16QAM and 64QAM.
    Cellular {
        /// Bits in phase, and as many in quadrature: 1 to 3.
        bits: u8,
    },
}

/// What is added to the kind where each symbol has a weight of its own.
pub(crate) const WEIGHTED: u8 = 0x80;

impl Modulation {
    /// kind, bits_i and bits_q, by which the C calls and lines name the modulation.
    pub(crate) fn numbers(self) -> [u8; 3] {
        match self {
            Modulation::Pam { bits } => [0, bits, 0],
            Modulation::Qam { bits_i, bits_q } => [1, bits_i, bits_q],
            Modulation::Psk { bits } => [2, bits, 0],
            Modulation::Cellular { bits } => [3, bits, bits],
        }
    }

    /// The same of frames whose symbols have weights of their own.
    pub(crate) fn weighted_numbers(self) -> [u8; 3] {
        let [kind, bits_i, bits_q] = self.numbers();
        [kind + WEIGHTED, bits_i, bits_q]
    }
}
