//! The line call.

use crate::exported::softdemap_line;
use crate::header::{sizes_by_numbers, Sizes};
use crate::modulation::WEIGHTED;
use crate::refusal::{served_at, served_weighted, Place, Refused};

/// The characters of the longest line that is accepted: a header and 256 symbols of QAM or PSK with a weight each.
pub const MAX_LINE: usize = 6164;

/// The characters of the longest answer, to 256 symbols of QAM with 12 bits each.
pub const MAX_ANSWER: usize = 12294;

/// Answers a frame written as a line of hexadecimal, and gives the number of characters written.
///
/// In: `line`, without its newline: digits 0-9 and A-F, each field with its most significant digit first.
/// - the header, 20 digits: kind (2), `bits_i` (2), `bits_q` (2), payload (4), weight (4), shift (2), limit (4)
/// - each symbol: gain (4), weight (4; for weighted kinds alone), yi (8, two's complement), yq (8, two's complement; absent for PAM)
///
/// The kind is 0 for PAM, 1 for QAM, 2 for PSK and 3 for cellular; `bits_q` is 0 for PAM and PSK, `bits_i` for cellular. It is weighted with 80
/// hexadecimal added: each symbol has a weight of its own, and the header's is 0.
///
/// Out: `answer`, [`Sizes::answer`] characters or more, [`MAX_ANSWER`] for any line: `00`, the probe count (4 digits), and each payload
/// soft value (4 digits, two's complement; **plus leans to the bit 0, minus to the bit 1**). No newline is written; characters behind the
/// answer keep what they held.
///
/// # Errors
///
/// In this order: 1, 2, 4, 5, 6, 7 or for weighted kinds 18, 8, 9, 3, 15, then for each symbol 10, for weighted kinds 7, and 11, with the symbol.
/// Nothing is written.
///
/// ```
/// use softdemap::{answer_line, Refusal};
///
/// let line = b"01020200030001027FFF000500000003FFFFFFEC";
/// let mut answer = [0; 18];
/// assert_eq!(answer_line(line, &mut answer)?, 18);
/// assert_eq!(&answer, b"000006FFF1FFDD0096");
/// assert_eq!(answer_line(line, &mut answer[..17]).unwrap_err().refusal, Refusal::OutputTooShort);
/// # Ok::<(), softdemap::Refused>(())
/// ```
pub fn answer_line(line: &[u8], answer: &mut [u8]) -> Result<usize, Refused> {
    // SAFETY: each pointer comes from a slice and stands with the slice's length. The mutable slice does not overlap the input. An empty
    // slice passes a dangling pointer, which is not looked at.
    let returned = unsafe { softdemap_line(line.as_ptr(), line.len(), answer.as_mut_ptr(), answer.len()) };
    let mut fields = Fields(line);
    let kind = fields.next(2) as u8;
    if kind < WEIGHTED {
        served_at(Place::Symbol, u64::from(returned))?;
    } else {
        served_weighted(u64::from(returned))?;
    }
    let sizes = sizes_of_line(kind, fields).expect("the header of an accepted line is accepted");
    Ok(sizes.answer)
}

/// The digits of a line that were not read yet.
struct Fields<'a>(&'a [u8]);

impl Fields<'_> {
    /// The number of so many digits, which stand in an accepted line.
    fn next(&mut self, digits: usize) -> u16 {
        let (field, rest) = self.0.split_at(digits.min(self.0.len()));
        self.0 = rest;
        field.iter().fold(0, |number, &digit| number << 4 | char::from(digit).to_digit(16).unwrap_or(0) as u16)
    }
}

/// What the header of an accepted line calls for; the fields are those behind its kind.
fn sizes_of_line(kind: u8, mut fields: Fields) -> Result<Sizes, Refused> {
    let modulation = [kind, fields.next(2) as u8, fields.next(2) as u8];
    let (payload, weight, shift, limit) = (fields.next(4), fields.next(4), fields.next(2) as u8, fields.next(4));
    sizes_by_numbers(modulation, payload, weight, shift, limit)
}

/// Answers a line as [`answer_line`] does, and gives the answer as a text.
///
/// # Errors
///
/// Those of [`answer_line`] but 15.
///
/// ```
/// assert_eq!(softdemap::answer_of(b"01020200030001027FFF000500000003FFFFFFEC")?, "000006FFF1FFDD0096");
/// assert_eq!(softdemap::answer_of(b"81020200030000027FFF0005000100000003FFFFFFEC")?, "000006FFF1FFDD0096");
/// # Ok::<(), softdemap::Refused>(())
/// ```
pub fn answer_of(line: &[u8]) -> Result<String, Refused> {
    let mut answer = [0; MAX_ANSWER];
    let len = answer_line(line, &mut answer)?;
    Ok(answer[..len].iter().copied().map(char::from).collect())
}
