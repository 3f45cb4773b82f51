//! Memory for plans.

use crate::bank::Bank;
use crate::entry::ENTRY_WORDS;
use crate::plan::{count, run_to_end, Plan};
use crate::request::Request;
use crate::verdict::Verdict;
use alloc::vec::Vec;

/// Entries that a buffer has room for from its first plan on: more than most plans have.
const FIRST: usize = 512;

/// Memory for plans, to be used again from command to command.
#[derive(Clone, Debug)]
pub struct Buffer {
    words: Vec<u64>,
    limit: usize,
}

impl Default for Buffer {
    fn default() -> Buffer {
        Buffer::new()
    }
}

impl Buffer {
    /// A buffer that grows to whatever a plan takes: 88 bytes an entry. Most plans have a few
    /// hundred entries; the largest there is has 5,232,646, which are 460 MB.
    #[must_use]
    pub const fn new() -> Buffer {
        Buffer::with_limit(usize::MAX)
    }

    /// A buffer that grows to so many entries and no further. A plan that wants more is answered by
    /// [`Verdict::Full`] after the entries that fit.
    #[must_use]
    pub const fn with_limit(entries: usize) -> Buffer {
        Buffer {
            words: Vec::new(),
            limit: entries,
        }
    }

    /// Plans a request, with as much memory as its plan takes. Memory grows where a plan needs more
    /// than those before it, and then the plan is walked three times. Where the limit is reached, or
    /// no more memory is to be had, the answer is [`Verdict::Full`].
    pub fn plan(&mut self, request: &Request, bank: &mut Bank) -> Plan<'_> {
        let before = *bank;
        self.grow(FIRST);
        let mut end = run_to_end(request, bank, &mut self.words);
        if end.verdict == Verdict::Full && self.room() < self.limit {
            self.grow(count(request).entries as usize);
            *bank = before;
            end = run_to_end(request, bank, &mut self.words);
        }
        Plan::new(request, &self.words, end)
    }

    /// How many entries there is room for now.
    #[must_use]
    pub fn room(&self) -> usize {
        self.words.len() / ENTRY_WORDS
    }

    /// Gives memory back, down to room for so many entries.
    pub fn shrink_to(&mut self, entries: usize) {
        self.words.truncate(entries.saturating_mul(ENTRY_WORDS));
        self.words.shrink_to_fit();
    }

    /// Room for so many entries, or for as many as the limit and the memory allow: none more where
    /// there is not enough.
    fn grow(&mut self, entries: usize) {
        let wanted = entries.min(self.limit).saturating_mul(ENTRY_WORDS);
        let more = wanted.saturating_sub(self.words.len());
        if more > 0 && self.words.try_reserve_exact(more).is_ok() {
            self.words.resize(wanted, 0);
        }
    }
}
