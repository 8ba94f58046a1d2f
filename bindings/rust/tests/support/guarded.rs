//! Buffers that stand between guards and hold random entries before a call, so that a write outside the answer is seen.

use std::fmt::Debug;

use super::draws::Draws;

pub const GUARD: usize = 16;

/// An entry of a buffer; binary32 numbers are the same where their bits are.
pub trait Entry: Copy + Debug {
    fn from_bits(bits: u64) -> Self;
    fn to_bits(self) -> u64;
}

macro_rules! whole_number_entries {
    ($($number:ty),*) => { $(
        impl Entry for $number {
            fn from_bits(bits: u64) -> Self {
                bits as $number
            }
            fn to_bits(self) -> u64 {
                self as u64
            }
        }
    )* };
}

whole_number_entries!(u8, u16, i16, i32, i64);

impl Entry for f32 {
    fn from_bits(bits: u64) -> Self {
        f32::from_bits(bits as u32)
    }
    fn to_bits(self) -> u64 {
        u64::from(f32::to_bits(self))
    }
}

/// A buffer with its guards, and what they should hold after the call.
pub struct Guarded<T> {
    held: Vec<T>,
    should: Vec<T>,
    len: usize,
}

impl<T: Entry> Guarded<T> {
    /// An output of random entries, with a guard of `behind` entries behind it.
    pub fn output_before(draws: &mut Draws, len: usize, behind: usize) -> Self {
        let held: Vec<T> = (0..GUARD + len + behind).map(|_| T::from_bits(draws.next() >> 7)).collect();
        Guarded { should: held.clone(), held, len }
    }

    /// An output of random entries.
    pub fn output(draws: &mut Draws, len: usize) -> Self {
        Self::output_before(draws, len, GUARD)
    }

    /// An input between random entries.
    pub fn input(draws: &mut Draws, entries: &[T]) -> Self {
        let mut input = Self::output(draws, entries.len());
        input.held[GUARD..GUARD + entries.len()].copy_from_slice(entries);
        input.should_begin(entries);
        input
    }

    pub fn lent(&mut self) -> &mut [T] {
        &mut self.held[GUARD..GUARD + self.len]
    }

    /// The entries that the call should leave at the start; it should keep all others.
    pub fn should_begin(&mut self, answer: &[T]) {
        self.should[GUARD..GUARD + answer.len()].copy_from_slice(answer);
    }

    /// Ends the test at the first entry, counted from the start of what was lent, that is not as it should be.
    pub fn check(&self, name: &str) {
        for (at, (held, should)) in self.held.iter().zip(&self.should).enumerate() {
            if held.to_bits() != should.to_bits() {
                let place = at as i64 - GUARD as i64;
                panic!("{}[{}] of {} lent entries is {:?}, should be {:?}", name, place, self.len, held, should);
            }
        }
    }
}
