//! The proved library with its lengths fixed, so that it never answers by 1 for one.

use crate::entry::ENTRY_WORDS;
use crate::library;
pub use crate::library::{
    version, BANK_WORDS, DRIFT_WORDS, END_WORDS, REQUEST_WORDS, SAMPLE_WORDS, SCISSOR_WORDS,
    STATE_WORDS, STEP_WORDS, TOLD_WORDS,
};
use crate::request::Mode;

const COPY_BYTES: usize = Mode::Copy.object_bytes();

pub fn run(
    object: &[u8],
    request: &[u64; REQUEST_WORDS],
    bank: &mut [u64; BANK_WORDS],
    plan: &mut [u64],
) -> [u64; END_WORDS] {
    let mut end = [0; END_WORDS];
    let status = library::run(object, request, bank, plan, &mut end);
    debug_assert_eq!(status, 0, "the library refused lengths that it defines");
    end
}

pub fn count(object: &[u8], request: &[u64; REQUEST_WORDS]) -> [u64; END_WORDS] {
    let mut end = [0; END_WORDS];
    let status = library::count(object, request, &mut end);
    debug_assert_eq!(status, 0, "the library refused lengths that it defines");
    end
}

/// Whether the words are an entry's; where they are not, nothing changes.
pub fn apply(entry: &[u64; ENTRY_WORDS], bank: &mut [u64; BANK_WORDS]) -> bool {
    library::apply(entry, bank) == 0
}

pub fn start(object: &[u8], request: &[u64; REQUEST_WORDS]) -> [u64; STATE_WORDS] {
    let mut state = [0; STATE_WORDS];
    let status = library::start(object, request, &mut state);
    debug_assert_eq!(status, 0, "the library refused lengths that it defines");
    state
}

/// The words of a step's answer; none where those of `state` are no planner's, and nothing changes.
pub fn step(
    state: &mut [u64; STATE_WORDS],
    bank: &mut [u64; BANK_WORDS],
) -> Option<[u64; STEP_WORDS]> {
    let mut out = [0; STEP_WORDS];
    let status = library::step(state, bank, &mut out);
    (status == 0).then_some(out)
}

/// How many rectangles stand in the words of `drift` then, and 1 where the limits are proved for
/// them.
pub fn drift(
    object: &[u8],
    request: &[u64; REQUEST_WORDS],
    drift: &mut [u64],
) -> [u64; TOLD_WORDS] {
    let mut told = [0; TOLD_WORDS];
    let status = library::drift(object, request, drift, &mut told);
    debug_assert_eq!(status, 0, "the library refused lengths that it defines");
    told
}

/// The bytes of an object, or the number of the refusal.
pub fn write_copy(
    width: u64,
    height: u64,
    fmt: u64,
    siz: u64,
    pointer: u32,
) -> Result<[u8; COPY_BYTES], u64> {
    let mut out = [0; COPY_BYTES];
    match library::write_copy(width, height, fmt, siz, pointer, &mut out) {
        0 => Ok(out),
        refusal => Err(refusal),
    }
}

/// The kind of what a cell shows, and the kind's numbers.
pub fn sample(
    object: &[u8],
    scissor: &[u64; SCISSOR_WORDS],
    column: u64,
    line: u64,
) -> [u64; SAMPLE_WORDS] {
    let mut sample = [0; SAMPLE_WORDS];
    let status = library::sample(object, scissor, column, line, &mut sample);
    debug_assert_eq!(status, 0, "the library refused lengths that it defines");
    sample
}

#[cfg(test)]
mod tests {
    use super::*;
    use std::vec;

    #[test]
    fn wrong_lengths_are_refused_and_nothing_is_written() {
        for (request, bank, end) in [
            (6, 136, 4),
            (8, 136, 4),
            (7, 135, 4),
            (7, 153, 4),
            (7, 136, 3),
            (7, 136, 5),
            (0, 0, 0),
        ] {
            let request = vec![10; request];
            let (mut bank, mut end, mut plan) = (vec![77; bank], vec![77; end], vec![77; 110]);
            let status = library::run(&[0; 40], &request, &mut bank, &mut plan, &mut end);
            assert_eq!(status, 1);
            assert!([bank, end, plan].concat().iter().all(|word| *word == 77));
        }
        for (request, end) in [(6, 4), (8, 4), (7, 3), (7, 5), (0, 0)] {
            let (request, mut end) = (vec![10; request], vec![77; end]);
            assert_eq!(library::count(&[0; 40], &request, &mut end), 1);
            assert!(end.iter().all(|word| *word == 77));
        }
        for (entry, bank) in [(10, 136), (12, 136), (11, 135), (11, 137), (0, 0)] {
            let (entry, mut bank) = (vec![2; entry], vec![77; bank]);
            assert_eq!(library::apply(&entry, &mut bank), 1);
            assert!(bank.iter().all(|word| *word == 77));
        }
    }

    #[test]
    fn wrong_lengths_of_a_measure_are_refused_and_nothing_is_written() {
        for (request, told) in [(6, 2), (8, 2), (7, 1), (7, 3), (0, 0)] {
            let request = vec![9; request];
            let (mut drift, mut told) = (vec![77; 10], vec![77; told]);
            let status = library::drift(&[0; 40], &request, &mut drift, &mut told);
            assert_eq!(status, 1);
            assert!([drift, told].concat().iter().all(|word| *word == 77));
        }
    }

    #[test]
    fn wrong_lengths_of_a_sample_are_refused_and_nothing_is_written() {
        for (scissor, sample) in [(3, 3), (5, 3), (4, 2), (4, 4), (7, 3), (0, 0)] {
            for object in [&[0; 40][..], &[]] {
                let (scissor, mut sample) = (vec![0; scissor], vec![77; sample]);
                let status = library::sample(object, &scissor, 0, 0, &mut sample);
                assert_eq!(status, 1);
                assert!(sample.iter().all(|word| *word == 77));
            }
        }
    }

    #[test]
    fn wrong_lengths_of_a_planner_are_refused_and_nothing_is_written() {
        for (request, state) in [(6, 39), (8, 39), (7, 38), (7, 40), (0, 0)] {
            let (request, mut state) = (vec![10; request], vec![77; state]);
            assert_eq!(library::start(&[0; 40], &request, &mut state), 1);
            assert!(state.iter().all(|word| *word == 77));
        }
        let planner = start(&[0; 40], &[10; REQUEST_WORDS]);
        for (state, bank, out) in [
            (38, 136, 11),
            (40, 136, 11),
            (39, 135, 11),
            (39, 137, 11),
            (39, 136, 10),
            (39, 136, 12),
            (39, 136, 0),
            (0, 0, 0),
        ] {
            let mut words = planner.to_vec();
            words.resize(state, 0);
            let before = words.clone();
            let (mut bank, mut out) = (vec![77; bank], vec![77; out]);
            assert_eq!(library::step(&mut words, &mut bank, &mut out), 1);
            assert_eq!(words, before);
            assert!([bank, out].concat().iter().all(|word| *word == 77));
        }
    }

    /// The first word of a planner's is below 18.
    #[test]
    fn words_that_are_no_planner_s_change_nothing() {
        let first = |word| {
            let mut state = start(&[0; 40], &[10; REQUEST_WORDS]);
            state[0] = word;
            state
        };
        for state in [[u64::MAX; STATE_WORDS], first(18), first(1 << 32)] {
            let (mut after, mut bank) = (state, [77; BANK_WORDS]);
            let mut out = [77; STEP_WORDS];
            assert_eq!(step(&mut after, &mut bank), None);
            assert_eq!(library::step(&mut after, &mut bank, &mut out), 1);
            assert_eq!(
                (after, bank, out),
                (state, [77; BANK_WORDS], [77; STEP_WORDS])
            );
        }
    }

    #[test]
    fn words_that_are_no_entry_s_change_nothing() {
        let no_entries: [(usize, u64, u64); 9] = [
            (0, 0, 0),
            (0, 6, 6),
            (0, 9, 9),
            (0, u64::MAX, u64::MAX),
            (1, 2, 8),
            (1, 3, 8),
            (1, 4, 1 << 32),
            (2, 3, 65_536),
            (5, 4, 1 << 63),
        ];
        for (place, kind, number) in no_entries {
            let mut entry = [0; ENTRY_WORDS];
            entry[0] = kind;
            entry[place] = number;
            let mut bank = [77; BANK_WORDS];
            assert!(!apply(&entry, &mut bank), "{entry:?}");
            assert_eq!(bank, [77; BANK_WORDS]);
        }
    }
}
