//! A plan one entry at a time.

use crate::bank::Bank;
use crate::entry::Entry;
use crate::ffi::{self, BANK_WORDS, STATE_WORDS};
use crate::request::{Mode, Request};
use crate::verdict::{End, Refusal};
use core::iter::FusedIterator;

/// The kind of a step's answer that is no entry but the end.
const END: u64 = 9;

/// No plan has more entries.
const LONGEST: usize = 5_232_646;

/// A plan under way: an iterator that plans each entry when it is asked for, and keeps the bank
/// beside it.
///
/// Step where a plan is to share a frame's time, or to be shown as it goes: a progress bar, an
/// inspector, a cabinet. A step takes some 50 to 100 ns, however far the plan is, and no memory but
/// the planner itself. Where the whole plan is wanted at once, [`run`](crate::run) or `Buffer` is
/// the better choice: some 6 to 12 ns an entry, into memory for all of them.
///
/// A clone is a snapshot: 39 words of planner and 136 of bank, from which the plan goes on as it
/// would have. Planners do not know of each other, and may be stepped in any order and sent to
/// other threads.
///
/// ```
/// use visorlongan::{count, Entry, Planner, Request, Scissor};
///
/// // 64 by 8 units (16 by 2 texels) of 16 bits at the screen's corner.
/// let mut object = [0; 40];
/// for (at, field) in [(2, 64), (6, 64), (10, 8), (14, 8), (20, 0xfff4), (30, 8), (32, 8), (36, 1)] {
///     object[at..at + 2].copy_from_slice(&u16::to_be_bytes(field));
/// }
/// object[23] = 2;
/// let request = Request::copy(&object, Scissor::new(0, 0, 320, 240), 0x1000);
/// let whole = count(&request).entries;
///
/// let mut planner = Planner::new(&request);
/// let mut done = 0;
/// while planner.end().is_none() {
///     // A frame has time for four entries.
///     for _ in 0..4 {
///         let Some(entry) = planner.next() else { break };
///         if let Entry::Load(load) = entry {
///             // The bank is the one that the entry is meant for.
///             assert_eq!(planner.bank().tiles[load.index as usize].line, 4);
///         }
///         done += 1;
///     }
///     println!("{done} of {whole} entries");
/// }
/// assert_eq!(done, whole);
/// planner.result()?;
/// # Ok::<(), visorlongan::Refusal>(())
/// ```
#[derive(Clone, Debug)]
#[must_use = "a planner plans nothing until it is stepped"]
pub struct Planner {
    state: [u64; STATE_WORDS],
    /// The bank's words, which each step sets in place.
    bank: [u64; BANK_WORDS],
    mode: Mode,
    end: Option<End>,
}

impl Planner {
    /// A planner with the request's whole plan to come, from a bank of zeros. A request that is
    /// refused ends at its first step.
    pub fn new(request: &Request) -> Planner {
        Planner::with_bank(request, &Bank::default())
    }

    /// The same from the bank as it is before the plan.
    pub fn with_bank(request: &Request, bank: &Bank) -> Planner {
        Planner {
            state: ffi::start(request.object, &request.words()),
            bank: bank.words(),
            mode: request.mode(),
            end: None,
        }
    }

    /// The bank after the last entry that was given: the one that this entry is meant for. At the
    /// end it is the one that a run leaves: a load refused by
    /// [`Verdict::Address`](crate::Verdict::Address) has set the bounds of tile 7, though there is
    /// no entry of it.
    #[must_use]
    pub fn bank(&self) -> Bank {
        Bank::from_words(&self.bank)
    }

    /// Puts another bank in the place of the present one, for a machine whose tiles other commands
    /// set between two steps. The entries to come do not depend on it.
    pub fn set_bank(&mut self, bank: &Bank) {
        self.bank = bank.words();
    }

    /// How the plan ended, once the iterator has answered `None`; never by
    /// [`Verdict::Full`](crate::Verdict::Full), as there is no buffer.
    #[must_use]
    pub const fn end(&self) -> Option<End> {
        self.end
    }

    /// Why the plan was refused, once its end has come so. Nothing where it is complete, and nothing
    /// while it is under way. The entries before a refusal stand all the same.
    ///
    /// # Errors
    ///
    /// Where [`end`](Planner::end) has another verdict than
    /// [`Verdict::Finished`](crate::Verdict::Finished).
    pub const fn result(&self) -> Result<(), Refusal> {
        match self.end {
            Some(end) => end.result(),
            None => Ok(()),
        }
    }
}

impl Iterator for Planner {
    type Item = Entry;

    fn next(&mut self) -> Option<Entry> {
        if self.end.is_some() {
            return None;
        }
        let words = ffi::step(&mut self.state, &mut self.bank).expect("a planner of the library");
        if let [END, verdict, entries, rectangles, tile_words, ..] = words {
            self.end = Some(End::from_words([verdict, entries, rectangles, tile_words]));
            return None;
        }
        Some(Entry::from_words(&words, self.mode).expect("an entry of the library"))
    }

    /// How many entries are to come shows only at the end; [`count`](crate::count) says it before.
    fn size_hint(&self) -> (usize, Option<usize>) {
        match self.end {
            Some(_) => (0, Some(0)),
            None => (0, Some(LONGEST)),
        }
    }
}

impl FusedIterator for Planner {}
