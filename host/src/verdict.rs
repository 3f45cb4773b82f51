//! How a plan ended.

use crate::ffi::END_WORDS;
use core::fmt;

/// The planner's verdict. From 1 to 6 nothing was planned and the bank is untouched; 7 to 9 stop
/// a plan at an entry, and the entries before it stand; 10 says that the buffer was too small.
///
/// A later version may add verdicts.
#[derive(Clone, Copy, Debug, PartialEq, Eq, PartialOrd, Ord, Hash)]
#[non_exhaustive]
pub enum Verdict {
    /// The plan is complete.
    Finished = 0,
    /// The opcode is neither 9 nor 10.
    Opcode = 1,
    /// The object has too few bytes.
    Short = 2,
    /// A scissor edge lies outside 0 to 1,023.
    Scissor = 3,
    /// The object's fields are out of range.
    Object = 4,
    /// The copy object's fields do not fit each other.
    Copy = 5,
    /// The scaled object cannot be cut into strips.
    Slices = 6,
    /// A copy strip does not fit texture memory.
    TooBig = 7,
    /// A part of a scaled strip has no rows, no width or no place.
    Piece = 8,
    /// An address, or the end of a load, leaves the 64-bit address space.
    Address = 9,
    /// The plan buffer has no room for the next entry.
    Full = 10,
}

impl Verdict {
    /// All verdicts, each at its number.
    pub const ALL: &'static [Verdict] = &[
        Verdict::Finished,
        Verdict::Opcode,
        Verdict::Short,
        Verdict::Scissor,
        Verdict::Object,
        Verdict::Copy,
        Verdict::Slices,
        Verdict::TooBig,
        Verdict::Piece,
        Verdict::Address,
        Verdict::Full,
    ];

    /// The number that the planner returns.
    #[must_use]
    pub const fn number(self) -> u64 {
        self as u64
    }

    /// What the verdict says, as a sentence.
    #[must_use]
    pub const fn sentence(self) -> &'static str {
        match self {
            Verdict::Finished => "The plan is complete.",
            Verdict::Opcode => "The opcode is neither 9 (scaled) nor 10 (copy).",
            Verdict::Short => {
                "The object has fewer than 40 bytes for a copy or 36 for a scaled background."
            }
            Verdict::Scissor => "A scissor edge lies outside 0 to 1,023.",
            Verdict::Object => {
                "The object has a width or height of 0, a size above 3, a format above 4 or an \
                 unknown load."
            }
            Verdict::Copy => {
                "The copy object has a load other than 0xfff4, an image or a tmem_h under 4 units, \
                 a tmem_size_w of 0, tile memory fields whose product is another, or a flip above 1."
            }
            Verdict::Slices => {
                "The scaled object has an image under 4 units high, rows of less than 8 bytes, or \
                 rows so long that texture memory does not hold a strip of them."
            }
            Verdict::TooBig => "A copy strip does not fit texture memory.",
            Verdict::Piece => {
                "A part of a scaled strip has no rows, no width or no place in texture memory."
            }
            Verdict::Address => "An image address, or the end of a load, leaves the 64-bit address space.",
            Verdict::Full => "The plan buffer has no room for the next entry.",
        }
    }
}

impl fmt::Display for Verdict {
    fn fmt(&self, f: &mut fmt::Formatter) -> fmt::Result {
        f.write_str(self.sentence())
    }
}

impl From<Verdict> for u64 {
    fn from(verdict: Verdict) -> u64 {
        verdict.number()
    }
}

impl TryFrom<u64> for Verdict {
    type Error = NoVerdict;

    fn try_from(number: u64) -> Result<Verdict, NoVerdict> {
        let place = usize::try_from(number).ok();
        let verdict = place.and_then(|place| Verdict::ALL.get(place));
        verdict.copied().ok_or(NoVerdict(number))
    }
}

/// A number that is no verdict's.
#[derive(Clone, Copy, Debug, PartialEq, Eq, Hash)]
pub struct NoVerdict(pub u64);

impl fmt::Display for NoVerdict {
    fn fmt(&self, f: &mut fmt::Formatter) -> fmt::Result {
        write!(f, "{} is no verdict", self.0)
    }
}

impl core::error::Error for NoVerdict {}

/// The end of a plan: its verdict, and what was given before it. A later version may add numbers.
#[derive(Clone, Copy, Debug, PartialEq, Eq, Hash)]
#[non_exhaustive]
pub struct End {
    /// How the plan ended.
    pub verdict: Verdict,
    /// Entries that stand.
    pub entries: u64,
    /// Rectangles among them.
    pub rectangles: u64,
    /// The greatest rows × line of one load, in words of 8 bytes of texture memory. Loads of 32-bit
    /// texels fill as many in its upper half besides.
    pub tile_words: u64,
}

impl End {
    pub(crate) fn from_words([verdict, entries, rectangles, tile_words]: [u64; END_WORDS]) -> End {
        End {
            verdict: Verdict::try_from(verdict).expect("a verdict of the library"),
            entries,
            rectangles,
            tile_words,
        }
    }

    /// Nothing where the plan is complete, and why it is not otherwise.
    ///
    /// # Errors
    ///
    /// Where the verdict is another than [`Verdict::Finished`].
    pub const fn result(self) -> Result<(), Refusal> {
        match self.verdict {
            Verdict::Finished => Ok(()),
            _ => Err(Refusal { end: self }),
        }
    }
}

/// The end's line as the program `bgplan` prints it.
impl fmt::Display for End {
    fn fmt(&self, f: &mut fmt::Formatter) -> fmt::Result {
        let number = self.verdict.number();
        let (entries, rectangles, words) = (self.entries, self.rectangles, self.tile_words);
        write!(f, " 9{number:8}{entries:8}{rectangles:8}{words:8}")
    }
}

/// Why a plan is not complete.
#[derive(Clone, Copy, Debug, PartialEq, Eq, Hash)]
pub struct Refusal {
    end: End,
}

impl Refusal {
    /// The verdict, which is not [`Verdict::Finished`].
    #[must_use]
    pub const fn verdict(&self) -> Verdict {
        self.end.verdict
    }

    /// The end, with the entries that stand before the refusal.
    #[must_use]
    pub const fn end(&self) -> End {
        self.end
    }
}

impl fmt::Display for Refusal {
    fn fmt(&self, f: &mut fmt::Formatter) -> fmt::Result {
        let (verdict, entries) = (self.end.verdict, self.end.entries);
        let plural = if entries == 1 { "y" } else { "ies" };
        write!(
            f,
            "verdict {} after {entries} entr{plural}: {verdict}",
            verdict.number()
        )
    }
}

impl core::error::Error for Refusal {}

#[cfg(test)]
mod tests {
    use super::*;
    use std::string::ToString;

    #[test]
    fn numbers_and_sentences() {
        for (number, verdict) in Verdict::ALL.iter().copied().enumerate() {
            assert_eq!(u64::from(verdict), number as u64);
            assert_eq!(Verdict::try_from(number as u64), Ok(verdict));
            assert!(verdict.to_string().ends_with('.'));
        }
        for number in [Verdict::ALL.len() as u64, u64::MAX] {
            assert_eq!(Verdict::try_from(number), Err(NoVerdict(number)));
        }
        assert_eq!(NoVerdict(77).to_string(), "77 is no verdict");
    }

    #[test]
    fn refusals_say_where_and_why() {
        let end = |verdict, entries| End::from_words([verdict, entries, 0, 0]);
        assert_eq!(end(0, 6).result(), Ok(()));
        let refusal = end(7, 1).result().unwrap_err();
        assert_eq!(refusal.verdict(), Verdict::TooBig);
        assert_eq!(
            refusal.to_string(),
            "verdict 7 after 1 entry: A copy strip does not fit texture memory."
        );
        assert!(end(4, 0)
            .result()
            .unwrap_err()
            .to_string()
            .contains("0 entries"));
    }
}
