//! Why a call was refused.

use std::error::Error;
use std::fmt;

/// Makes [`Refusal`] of its rows: name, number, and the text of the number in the table of refusals of the C header.
macro_rules! refusals {
    ($($name:ident = $number:literal: $text:literal,)*) => {
        /// Why a call is refused. The numbers and texts are those of the C header.
        #[derive(Clone, Copy, Debug, PartialEq, Eq, Hash)]
        #[repr(u8)]
        pub enum Refusal {
            $(
                #[doc = concat!(stringify!($number), ": ", $text, ".")]
                $name = $number,
            )*
        }

        impl Refusal {
            /// All refusals, in the order of their numbers.
            pub const ALL: [Refusal; [$($number),*].len()] = [$(Refusal::$name),*];

            /// What is wrong, in English.
            pub fn text(self) -> &'static str {
                match self {
                    $(Refusal::$name => $text,)*
                }
            }
        }
    };
}

refusals! {
    LineLength = 1: "a line of odd length, below 20 or above 6164 characters",
    LineCharacter = 2: "a line with a character other than 0 to 9 and A to F",
    LineLengthForHeader = 3: "a line of another length than its header calls for",
    Kind = 4: "kind above 3",
    BitsPerSymbol = 5: "bits_i or bits_q out of range: PAM and QAM 1 to 6, PSK 1 to 4, cellular 1 to 3; bits_q 0 for PAM and PSK, bits_i for cellular",
    Payload = 6: "no payload, or more than 256 symbols",
    Weight = 7: "weight outside 1 to 4095",
    Shift = 8: "shift above 40",
    Limit = 9: "limit outside 1 to 32767",
    Gain = 10: "gain above 4095",
    Sample = 11: "sample outside -1048576 to 1048576",
    NotFinite = 12: "a binary32 number that is infinite or not a number",
    RoundsOutOfRange = 13: "a binary32 number that rounds out of the range of samples",
    Scale = 14: "a binary32 scale above 20, for soft values above 14",
    OutputTooShort = 15: "an output buffer shorter than the answer",
    InputLength = 16: "gains, weights, yi or yq not of the length that the frame needs; a capture that ends within a pair",
    BitByte = 17: "a bit byte neither 0 nor 1",
    HeaderWeight = 18: "a header weight other than 0 of a weighted kind",
}

impl Refusal {
    /// The refusal's number, 1 or more.
    pub fn number(self) -> u8 {
        self as u8
    }

    /// The refusal with a number, or `None` where there is none.
    pub fn from_number(number: u8) -> Option<Refusal> {
        Refusal::ALL.iter().copied().find(|refusal| refusal.number() == number)
    }
}

impl fmt::Display for Refusal {
    fn fmt(&self, f: &mut fmt::Formatter<'_>) -> fmt::Result {
        f.write_str(self.text())
    }
}

/// What a refusal is about: an entry, counted from 0, of the slices handed over.
#[derive(Clone, Copy, Debug, PartialEq, Eq, Hash)]
pub enum Place {
    /// A symbol of a frame or of a line.
    Symbol(usize),
    /// A sample of a capture: one number for PAM, else a pair.
    Sample(usize),
}

impl fmt::Display for Place {
    fn fmt(&self, f: &mut fmt::Formatter<'_>) -> fmt::Result {
        match self {
            Place::Symbol(number) => write!(f, "symbol {}", number),
            Place::Sample(number) => write!(f, "sample {}", number),
        }
    }
}

/// A refused call. Nothing was written into what was lent to it.
///
/// ```
/// use softdemap::{answer_of, Place, Refusal, Refused};
///
/// let refused = answer_of(b"01020200030001027FFF100000000003FFFFFFEC").unwrap_err();
/// assert_eq!(refused, Refused { refusal: Refusal::Gain, place: Some(Place::Symbol(0)) });
/// assert_eq!(refused.to_string(), "refusal 10 at symbol 0: gain above 4095");
/// ```
#[derive(Clone, Copy, Debug, PartialEq, Eq, Hash)]
pub struct Refused {
    /// The first check, in the order that stands at each function, that the input fails.
    pub refusal: Refusal,
    /// The symbol of a frame or line that fails 10, 11, or by its own weight 7, or the sample of a capture that fails 12 or 13.
    pub place: Option<Place>,
}

impl fmt::Display for Refused {
    fn fmt(&self, f: &mut fmt::Formatter<'_>) -> fmt::Result {
        write!(f, "refusal {}", self.refusal.number())?;
        if let Some(place) = self.place {
            write!(f, " at {}", place)?;
        }
        write!(f, ": {}", self.refusal)
    }
}

impl Error for Refused {}

/// The refusal in the lowest 8 bits of what a call returned.
///
/// # Panics
///
/// Where they are not the number of a refusal, which the library never returns.
fn refusal_in(answer: u64) -> Refusal {
    Refusal::from_number((answer & 255) as u8).unwrap_or_else(|| panic!("the library returned {:#x}, which is no refusal", answer))
}

/// Nothing for the answer 0 of a call that names no place, else the refusal in it.
pub(crate) fn served(answer: u64) -> Result<(), Refused> {
    match answer {
        0 => Ok(()),
        refused => Err(Refused { refusal: refusal_in(refused), place: None }),
    }
}

/// Nothing for the answer 0 of a call that names places of one sort, else the refusal in it. Where it is one that has a place, the place's
/// number stands above the refusal.
pub(crate) fn served_at(place: fn(usize) -> Place, answer: u64) -> Result<(), Refused> {
    served(answer).map_err(|refused| match refused.refusal {
        Refusal::Gain | Refusal::Sample | Refusal::NotFinite | Refusal::RoundsOutOfRange => at(place, answer, refused),
        _ => refused,
    })
}

/// [`served_at`] of a call whose symbols have weights of their own, so that 7 is that of a symbol.
pub(crate) fn served_weighted(answer: u64) -> Result<(), Refused> {
    served_at(Place::Symbol, answer).map_err(|refused| match refused.refusal {
        Refusal::Weight => at(Place::Symbol, answer, refused),
        _ => refused,
    })
}

/// A refusal with the place whose number stands above it.
fn at(place: fn(usize) -> Place, answer: u64, refused: Refused) -> Refused {
    Refused { place: Some(place((answer >> 8) as usize)), ..refused }
}
