//! What the test programs share: random numbers, guarded buffers, random frames, and the count of what was met.
#![allow(dead_code)] // each test program uses a part

pub mod draws;
pub mod frames;
pub mod guarded;

use std::collections::BTreeMap;
use std::fmt::Debug;

use softdemap::Refused;

use crate::exhaustive::Refusal;

/// Prints a call while a failed comparison ends the test, with all that is needed to repeat it.
pub struct Shown<'a, T: Debug>(pub &'a str, pub &'a T);

impl<T: Debug> Drop for Shown<'_, T> {
    fn drop(&mut self) {
        if std::thread::panicking() {
            eprintln!("the call was {} of {:?}", self.0, self.1);
        }
    }
}

/// An answer with the refusal by its number, as the second implementations give it.
pub fn in_numbers<T>(answer: Result<T, Refused>) -> Result<T, Refusal> {
    answer.map_err(|refused| (refused.refusal.number(), refused.place))
}

/// Accepted calls, and refused calls by number.
#[derive(Debug, Default)]
pub struct Counts {
    pub accepted: u64,
    pub refused: BTreeMap<u8, u64>,
}

impl Counts {
    pub fn add<T>(&mut self, answer: &Result<T, Refusal>) {
        match answer {
            Ok(_) => self.accepted += 1,
            Err((number, _)) => *self.refused.entry(*number).or_insert(0) += 1,
        }
    }

    pub fn calls(&self) -> u64 {
        self.accepted + self.refused.values().sum::<u64>()
    }

    /// Prints the counts, and sees that `least` calls were accepted, that as many were refused by each of `numbers`, and none by another.
    pub fn check(&self, name: &str, numbers: &[u8], least: u64) {
        println!("{}: {} calls, {} accepted, refused {:?}", name, self.calls(), self.accepted, self.refused);
        assert_eq!(self.refused.keys().copied().collect::<Vec<_>>(), numbers, "the refusals met by {}", name);
        assert!(self.accepted >= least && self.refused.values().all(|&count| count >= least), "too few calls of {}", name);
    }
}
