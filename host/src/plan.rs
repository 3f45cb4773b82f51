//! Whole plans.

use crate::bank::Bank;
use crate::entry::{Entry, ENTRY_WORDS};
use crate::ffi::{self, BANK_WORDS};
use crate::request::{Mode, Request};
use crate::verdict::{End, Refusal};
use core::fmt;
use core::iter::FusedIterator;
use core::slice::ChunksExact;

/// Plans a request into the words that it is lent, [`ENTRY_WORDS`] an entry; words beyond the last
/// entry are left as they are. The bank becomes what the entries that stand make of it.
///
/// Words that are too few end the plan in [`Verdict::Full`](crate::Verdict::Full) after the entries
/// that fitted. `Buffer` sees to enough of them, and [`count`] says how many there would be.
#[must_use = "the plan says whether the request was refused"]
pub fn run<'a>(request: &Request, bank: &mut Bank, words: &'a mut [u64]) -> Plan<'a> {
    let end = run_to_end(request, bank, words);
    Plan::new(request, words, end)
}

/// The run alone, for a caller that may have to run again with more words.
pub(crate) fn run_to_end(request: &Request, bank: &mut Bank, words: &mut [u64]) -> End {
    let mut tiles = bank.words();
    let end = ffi::run(request.object, &request.words(), &mut tiles, words);
    *bank = Bank::from_words(&tiles);
    End::from_words(end)
}

/// The end of a request's whole plan, without memory for its entries: [`run`] gives the same with
/// [`ENTRY_WORDS`] words for each of them.
#[must_use]
pub fn count(request: &Request) -> End {
    End::from_words(ffi::count(request.object, &request.words()))
}

/// A plan: the entries in order, and the end. What is proved of a finished copied plan is said
/// [with the crate](crate#what-a-finished-copied-plan-draws-and-loads).
#[derive(Clone, Copy, Debug)]
#[must_use = "the plan says whether the request was refused"]
pub struct Plan<'a> {
    words: &'a [u64],
    mode: Mode,
    /// How the plan ended, and what stands of it.
    pub end: End,
}

impl<'a> Plan<'a> {
    /// The plan that a run has left in these words.
    pub(crate) fn new(request: &Request, words: &'a [u64], end: End) -> Plan<'a> {
        Plan {
            words: &words[..end.entries as usize * ENTRY_WORDS],
            mode: request.mode(),
            end,
        }
    }

    /// The entries that stand, in order.
    #[must_use]
    pub fn entries(&self) -> Entries<'a> {
        Entries {
            words: self.words.chunks_exact(ENTRY_WORDS),
            mode: self.mode,
        }
    }

    /// Each entry with the bank after it, from the bank as it was before the plan.
    ///
    /// A load and a rectangle are meant for the tiles as they are there, and not for those that the
    /// whole plan leaves. After the last entry the bank is the one that the plan left, with one
    /// exception: a load refused by [`Verdict::Address`](crate::Verdict::Address) has already set
    /// the bounds of tile 7, which is no entry. A host that stops in the middle keeps the bank
    /// of the last entry that it has done; one that goes through all of them takes the bank that
    /// the plan left.
    #[must_use]
    pub fn steps(&self, bank: Bank) -> Steps<'a> {
        Steps {
            entries: self.entries(),
            words: bank.words(),
            bank,
        }
    }

    /// Nothing where the plan is complete, and why it is not otherwise. The entries before a
    /// refusal stand all the same: the machine would have done them.
    ///
    /// # Errors
    ///
    /// Where the verdict is another than [`Verdict::Finished`](crate::Verdict::Finished).
    pub const fn result(&self) -> Result<(), Refusal> {
        self.end.result()
    }
}

impl<'a> IntoIterator for &Plan<'a> {
    type Item = Entry;
    type IntoIter = Entries<'a>;

    fn into_iter(self) -> Entries<'a> {
        self.entries()
    }
}

/// The whole plan as the program `bgplan` prints it.
impl fmt::Display for Plan<'_> {
    fn fmt(&self, f: &mut fmt::Formatter) -> fmt::Result {
        for entry in self {
            writeln!(f, "{entry}")?;
        }
        writeln!(f, "{}", self.end)
    }
}

/// The entries of a plan.
#[derive(Clone, Debug)]
pub struct Entries<'a> {
    words: ChunksExact<'a, u64>,
    mode: Mode,
}

impl Entries<'_> {
    fn entry(&self, words: &[u64]) -> Entry {
        let words = words.try_into().expect("eleven words");
        Entry::from_words(words, self.mode).expect("an entry of the library")
    }
}

impl Iterator for Entries<'_> {
    type Item = Entry;

    fn next(&mut self) -> Option<Entry> {
        let words = self.words.next()?;
        Some(self.entry(words))
    }

    fn size_hint(&self) -> (usize, Option<usize>) {
        self.words.size_hint()
    }

    fn nth(&mut self, n: usize) -> Option<Entry> {
        let words = self.words.nth(n)?;
        Some(self.entry(words))
    }
}

impl DoubleEndedIterator for Entries<'_> {
    fn next_back(&mut self) -> Option<Entry> {
        let words = self.words.next_back()?;
        Some(self.entry(words))
    }
}

impl ExactSizeIterator for Entries<'_> {}

impl FusedIterator for Entries<'_> {}

/// The entries of a plan, each with the bank after it: see [`Plan::steps`].
#[derive(Clone, Debug)]
pub struct Steps<'a> {
    entries: Entries<'a>,
    /// The bank's words, beside it so that they are not made anew for each entry.
    words: [u64; BANK_WORDS],
    bank: Bank,
}

impl Iterator for Steps<'_> {
    type Item = (Entry, Bank);

    fn next(&mut self) -> Option<(Entry, Bank)> {
        let entry = self.entries.next()?;
        self.bank.follow(&mut self.words, &entry);
        Some((entry, self.bank))
    }

    fn size_hint(&self) -> (usize, Option<usize>) {
        self.entries.size_hint()
    }
}

impl ExactSizeIterator for Steps<'_> {}

impl FusedIterator for Steps<'_> {}
