//! A record's plan step by step, `visor_start` and then `visor_step` to the end and beyond it, with
//! the steps of a second planner between its own.

use crate::case::Case;
use crate::cases;
use crate::entry::Entry;
use crate::guarded::{Buffers, Guarded, StepBuffers};
use crate::plan::{End, Sink};
use crate::proved::{self, BANK_WORDS, END_WORDS, REQUEST_WORDS, STATE_WORDS, STEP_WORDS};
use crate::random::Random;
use crate::record::{tile_fields, OBJECT_BYTES};
use crate::run::{run, Answer};
use crate::{bank_difference, bank_words, bounds_of, hex, numbers, refused_load, Tally};
use std::fmt::Write;

/// A case and the Rust's whole plan of it.
pub struct Planned {
    pub case: Case,
    pub answer: Answer,
}

impl Planned {
    /// Worked case A, where no record has been compared yet.
    pub fn worked() -> Planned {
        let mut cases = cases::all().into_iter();
        let named = cases.find(|case| case.name == "A").expect("a case");
        let case = Case::fixed(named.record, named.object_bytes);
        let answer = run(&case.record, &case.settings(u64::MAX), Sink::Keep);
        Planned { case, answer }
    }
}

/// What a step gives at the end: 9, the end's numbers and zeros.
fn end_words(end: &End) -> Entry {
    let mut words = [0; STEP_WORDS];
    words[0] = 9;
    words[1..=END_WORDS].copy_from_slice(&numbers(end));
    words
}

/// A planner on its way through a plan.
struct Walk<'a> {
    case: &'a Case,
    answer: &'a Answer,
    buffers: &'a mut StepBuffers,
    /// The bank as it should be.
    bank: [u64; BANK_WORDS],
    /// What stands in `out` before each step.
    mark: u64,
    /// Steps since the start.
    at: usize,
    /// Steps of all starts.
    taken: u64,
}

impl<'a> Walk<'a> {
    fn new(
        case: &'a Case,
        answer: &'a Answer,
        bank: [u64; BANK_WORDS],
        mark: u64,
        buffers: &'a mut StepBuffers,
    ) -> Self {
        buffers.state.fill(STATE_WORDS, mark);
        buffers.bank.fill(BANK_WORDS, mark).copy_from_slice(&bank);
        buffers.out.fill(STEP_WORDS, mark);
        Walk {
            case,
            answer,
            buffers,
            bank,
            mark,
            at: 0,
            taken: 0,
        }
    }

    fn start(&mut self) -> Result<(), String> {
        let Case {
            object, request, ..
        } = self.case;
        self.at = 0;
        match proved::start(object, request, self.buffers.state.inside_mut()) {
            0 => Ok(()),
            status => Err(format!("start: returned {status}\n")),
        }
    }

    /// Whether the end has been given.
    fn over(&self) -> bool {
        self.at > self.answer.plan.entries.len()
    }

    /// The host changes its bank, so that a step shows which words it sets and which it leaves.
    fn renew_bank(&mut self, word: u64) {
        self.bank.fill(word);
        self.buffers.bank.inside_mut().fill(word);
    }

    /// What the next step should give, done to the bank as it should be. Every entry is taken:
    /// `applied_difference` has seen it.
    fn expected(&mut self) -> Entry {
        if let Some(entry) = self.answer.plan.entries.get(self.at) {
            proved::apply(entry, &mut self.bank);
            return *entry;
        }
        if !self.over() && refused_load(self.answer) {
            let tile = tile_fields(&self.answer.bank[7]);
            self.bank[bounds_of(7)].copy_from_slice(&tile[bounds_of(0)]);
        }
        end_words(&self.answer.end)
    }

    /// One step, held against the Rust's next entry or end. After the end nothing may change.
    fn step(&mut self) -> Result<(), String> {
        let mut kept = None;
        if self.over() {
            kept = <[u64; STATE_WORDS]>::try_from(self.buffers.state.inside()).ok();
        }
        let expected = self.expected();
        let StepBuffers { state, bank, out } = &mut *self.buffers;
        out.inside_mut().fill(self.mark);
        let status = proved::step(state.inside_mut(), bank.inside_mut(), out.inside_mut());
        let still = kept.is_none_or(|kept| state.inside() == kept);
        if status != 0 || out.inside() != expected || bank.inside() != self.bank || !still {
            return Err(self.difference(status, &expected, still));
        }
        self.at += 1;
        self.taken += 1;
        Ok(())
    }

    fn difference(&self, status: u64, expected: &Entry, still: bool) -> String {
        let (at, given) = (self.at, self.buffers.out.inside());
        let mut text = String::new();
        if status != 0 || given != expected {
            let line = format!("Rust {expected:?}\n  proved {given:?}, returned {status}");
            writeln!(text, "step {at}: {line}").unwrap();
        }
        let given = self.buffers.bank.inside();
        let word = self.bank.iter().zip(given).position(|(a, b)| a != b);
        if let Some(n) = word {
            let (should, is) = (self.bank[n], given[n]);
            let (tile, place) = (n / 17, n % 17);
            let line = format!("tile {tile}, word {place} should be {should}, is {is}");
            writeln!(text, "step {at}: {line}").unwrap();
        }
        if !still {
            writeln!(text, "step {at}: the planner's words change after its end").unwrap();
        }
        text
    }

    /// The words around the buffers are as they were.
    fn around(&self) -> Result<(), String> {
        let StepBuffers { state, bank, out } = &*self.buffers;
        let kept = state.untouched_but(STATE_WORDS)
            && bank.untouched_but(BANK_WORDS)
            && out.untouched_but(STEP_WORDS);
        let text = "words around a planner, its bank or its answer are changed\n";
        kept.then_some(()).ok_or_else(|| text.to_string())
    }
}

/// A step of the first planner and, half of the times, one of the second, on another bank each time.
/// One step beyond its end the second starts again.
fn step_both(first: &mut Walk, second: &mut Walk, random: &mut Random) -> Result<(), String> {
    first.step()?;
    if random.once_in(2) {
        return Ok(());
    }
    let past = second.over();
    second.renew_bank(random.next());
    second.step().map_err(beside)?;
    if past {
        second.start().map_err(beside)?;
    }
    Ok(())
}

fn beside(text: String) -> String {
    format!("second planner: {text}")
}

/// Both planners from their starts; the first to its end, and beyond it on another bank.
fn walked(first: &mut Walk, second: &mut Walk, random: &mut Random) -> Result<(), String> {
    let before = first.bank;
    first.start()?;
    second.start().map_err(beside)?;
    while !first.over() {
        step_both(first, second, random)?;
    }
    let given = first.buffers.bank.inside();
    if let Some(text) = bank_difference(&first.answer.plan.entries, first.answer, &before, given) {
        return Err(text);
    }
    first.renew_bank(random.next());
    for _ in 0..random.within(1, 3) {
        step_both(first, second, random)?;
    }
    first.around()?;
    second.around().map_err(beside)
}

/// A case's planner stepped beside that of another case; the first difference, as text.
pub fn stepped(
    case: &Case,
    answer: &Answer,
    beside: &Planned,
    random: &mut Random,
    buffers: &mut Buffers,
    tally: &mut Tally,
) -> Result<(), String> {
    let mark = random.next();
    let [one, two] = &mut buffers.steps;
    let mut first = Walk::new(case, answer, bank_words(case, mark), mark, one);
    let other = [!mark; BANK_WORDS];
    let mut second = Walk::new(&beside.case, &beside.answer, other, !mark, two);
    walked(&mut first, &mut second, random).map_err(|text| {
        let Case {
            object, request, ..
        } = &beside.case;
        let object = hex(object);
        format!("stepped beside a planner of object {object}, request {request:?}\n{text}")
    })?;
    tally.planners += 1;
    tally.steps += first.taken;
    tally.beyond += first.taken - (answer.end.entries + 1);
    tally.second += second.taken;
    Ok(())
}

/// What stands in the buffers of a call that is refused.
const MARK: u64 = 77;

/// The words of request and state that a start refuses.
const NO_START: [(usize, usize); 6] = [
    (REQUEST_WORDS - 1, STATE_WORDS),
    (REQUEST_WORDS + 1, STATE_WORDS),
    (REQUEST_WORDS, STATE_WORDS - 1),
    (REQUEST_WORDS, STATE_WORDS + 1),
    (REQUEST_WORDS, 0),
    (0, 0),
];

/// The words of state, bank and answer that a step refuses.
const NO_STEP: [(usize, usize, usize); 9] = [
    (STATE_WORDS - 1, BANK_WORDS, STEP_WORDS),
    (STATE_WORDS + 1, BANK_WORDS, STEP_WORDS),
    (STATE_WORDS, BANK_WORDS - 1, STEP_WORDS),
    (STATE_WORDS, BANK_WORDS + 17, STEP_WORDS),
    (STATE_WORDS, 0, STEP_WORDS),
    (STATE_WORDS, BANK_WORDS, STEP_WORDS - 1),
    (STATE_WORDS, BANK_WORDS, STEP_WORDS + 1),
    (STATE_WORDS, BANK_WORDS, 0),
    (0, 0, 0),
];

/// First words that no planner has: theirs are below 18.
const NO_PLANNER: [u64; 4] = [18, 19, 1 << 32, u64::MAX];

/// A refused call returns 1 and changes nothing.
fn refused(call: String, status: u64, same: bool) -> Result<(), String> {
    if status == 1 && same {
        return Ok(());
    }
    let changed = if same { "nothing" } else { "something" };
    Err(format!("{call}: returned {status}, {changed} changed\n"))
}

fn refused_start(request: usize, words: usize, state: &mut Guarded) -> Result<(), String> {
    let call = format!("start, request {request}, state {words} words");
    let request = vec![10; request];
    let status = proved::start(&[0; OBJECT_BYTES], &request, state.fill(words, MARK));
    refused(call, status, state.untouched_but(0))
}

fn refused_step(
    words: &[u64],
    (bank_words, out_words): (usize, usize),
    buffers: &mut StepBuffers,
) -> Result<(), String> {
    let StepBuffers { state, bank, out } = buffers;
    state.fill(words.len(), MARK).copy_from_slice(words);
    bank.fill(bank_words, MARK);
    out.fill(out_words, MARK);
    let status = proved::step(state.inside_mut(), bank.inside_mut(), out.inside_mut());
    let same = state.inside() == words && state.untouched_but(words.len());
    let same = same && bank.untouched_but(0) && out.untouched_but(0);
    let call = format!("step, state {words:?}, bank {bank_words}, out {out_words} words");
    refused(call, status, same)
}

/// Steps that are refused while a planner has these words.
fn refused_steps(planner: &[u64; STATE_WORDS], buffers: &mut StepBuffers) -> Result<(), String> {
    let longer = [&planner[..], &[0]].concat();
    for (state, bank, out) in NO_STEP {
        refused_step(&longer[..state], (bank, out), buffers)?;
    }
    let all = (BANK_WORDS, STEP_WORDS);
    for first in NO_PLANNER {
        let mut words = *planner;
        words[0] = first;
        refused_step(&words, all, buffers)?;
    }
    refused_step(&[u64::MAX; STATE_WORDS], all, buffers)
}

/// Calls that the interface refuses, the steps at every place of the worked cases: 1 is returned and
/// nothing is changed.
pub fn refused_calls() -> Result<(), String> {
    let mut buffers = StepBuffers::new();
    for (request, state) in NO_START {
        refused_start(request, state, &mut buffers.state)?;
    }
    for named in cases::all() {
        let case = Case::fixed(named.record, named.object_bytes);
        let (mut end, mut state) = ([0; END_WORDS], [0; STATE_WORDS]);
        proved::count(&case.object, &case.request, &mut end);
        proved::start(&case.object, &case.request, &mut state);
        refused_steps(&state, &mut buffers)?;
        for _ in 0..=end[1] {
            proved::step(&mut state, &mut [0; BANK_WORDS], &mut [0; STEP_WORDS]);
            refused_steps(&state, &mut buffers)?;
        }
    }
    Ok(())
}
