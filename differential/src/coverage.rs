//! How often verdicts and branches are met, and a small choice of records that meets them all.

use crate::plan::BRANCH_NAMES;
use crate::record::{Record, COPY, SCALED};
use crate::run::Answer;
use crate::spans;
use std::collections::HashMap;
use std::fmt::Write;

const BRANCHES: usize = BRANCH_NAMES.len();
/// In the verdicts' table: a plan that ends at once because nothing of its frame is left.
const EMPTY_FRAME: usize = 11;

fn mode(record: &Record) -> usize {
    match record.opcode {
        COPY => 0,
        SCALED => 1,
        _ => 2,
    }
}

fn verdict(answer: &Answer) -> usize {
    match (answer.end.verdict, answer.end.entries) {
        (0, 0) => EMPTY_FRAME,
        (verdict, _) => verdict as usize,
    }
}

/// The branch counted last before a scaled plan was refused by 8 or 9.
fn refused_at(record: &Record, answer: &Answer) -> Option<usize> {
    let refused = record.opcode == SCALED && (8..=9).contains(&answer.end.verdict);
    refused.then_some(answer.plan.notes.last_hit)
}

pub struct Coverage {
    records: u64,
    panics: u64,
    entries: u64,
    most_entries: u64,
    most_empty_passes: u64,
    least_remain: i64,
    most_above: i64,
    verdicts: [[u64; 12]; 3],
    hits: [u64; BRANCHES],
    plans: [u64; BRANCHES],
    refusals: [[u64; BRANCHES]; 2],
    spans: [u64; spans::PLACES.len()],
}

impl Default for Coverage {
    fn default() -> Self {
        Coverage {
            records: 0,
            panics: 0,
            entries: 0,
            most_entries: 0,
            most_empty_passes: 0,
            least_remain: i64::MAX,
            most_above: i64::MIN,
            verdicts: [[0; 12]; 3],
            hits: [0; BRANCHES],
            plans: [0; BRANCHES],
            refusals: [[0; BRANCHES]; 2],
            spans: [0; spans::PLACES.len()],
        }
    }
}

impl Coverage {
    /// An absent answer is a panic.
    pub fn count(&mut self, record: &Record, answer: Option<Answer>) {
        self.records += 1;
        let Some(answer) = answer else {
            self.panics += 1;
            return;
        };
        let end = answer.end;
        let notes = &answer.plan.notes;
        self.entries += end.entries;
        self.most_entries = self.most_entries.max(end.entries);
        self.most_empty_passes = self.most_empty_passes.max(notes.most_empty_passes);
        self.least_remain = self.least_remain.min(notes.least_remain);
        self.most_above = self.most_above.max(notes.most_above);
        self.verdicts[mode(record)][verdict(&answer)] += 1;
        for branch in 0..BRANCHES {
            self.hits[branch] += notes.hits[branch];
            self.plans[branch] += u64::from(notes.hits[branch] > 0);
        }
        if let Some(place) = spans::place(record, &answer) {
            self.spans[place] += 1;
        }
        if let Some(branch) = refused_at(record, &answer) {
            self.refusals[end.verdict as usize - 8][branch] += 1;
        }
    }

    pub fn text(&self) -> String {
        let mut text = format!(
            "{} records, {} entries, at most {} in a plan, {} panics\n\
             at most {} passes in a row without a line\n",
            self.records, self.entries, self.most_entries, self.panics, self.most_empty_passes
        );
        if self.most_above != i64::MIN {
            writeln!(
                text,
                "remain before loads is at least {} and at most source_rows + {}",
                self.least_remain, self.most_above
            )
            .unwrap();
        }
        writeln!(text, "verdict           copy    scaled     other").unwrap();
        for verdict in 0..12 {
            let name = if verdict == EMPTY_FRAME {
                "0, empty frame".to_string()
            } else {
                verdict.to_string()
            };
            let [copy, scaled, other] = [0, 1, 2].map(|mode: usize| self.verdicts[mode][verdict]);
            writeln!(text, "{name:<14}{copy:>8}{scaled:>10}{other:>10}").unwrap();
        }
        writeln!(text, "      hits     plans  8 there   9 there  branch").unwrap();
        for (branch, name) in BRANCH_NAMES.iter().enumerate() {
            writeln!(
                text,
                "{:10}{:10}{:9}{:10}  {name}",
                self.hits[branch],
                self.plans[branch],
                self.refusals[0][branch],
                self.refusals[1][branch]
            )
            .unwrap();
        }
        writeln!(text, "loads refused for their span:").unwrap();
        for (name, plans) in spans::PLACES.iter().zip(self.spans) {
            writeln!(text, "{plans:10}  {name}").unwrap();
        }
        text
    }
}

/// What a record can be the first to show.
#[derive(PartialEq, Eq, Hash)]
enum Feature {
    Verdict(usize, usize),
    Branch(usize, usize),
    RefusedAt(u64, usize),
    RefusedSpan(usize),
    NoRemain,
    RemainAbove,
    LongWait(u64),
}

/// Takes a record if it shows something that fewer than three before it did.
#[derive(Default)]
pub struct Sample {
    seen: HashMap<Feature, u32>,
}

impl Sample {
    pub fn takes(&mut self, record: &Record, answer: &Answer) -> bool {
        if answer.end.entries > 60 {
            return false;
        }
        let notes = &answer.plan.notes;
        let mut features = vec![Feature::Verdict(mode(record), verdict(answer))];
        for branch in 0..BRANCHES {
            if notes.hits[branch] > 0 {
                features.push(Feature::Branch(branch, verdict(answer)));
            }
        }
        if let Some(branch) = refused_at(record, answer) {
            features.push(Feature::RefusedAt(answer.end.verdict, branch));
        }
        features.extend(spans::place(record, answer).map(Feature::RefusedSpan));
        if notes.least_remain <= 0 {
            features.push(Feature::NoRemain);
        }
        if notes.most_above > 0 {
            features.push(Feature::RemainAbove);
        }
        features.push(Feature::LongWait(notes.most_empty_passes / 8));
        let mut takes = false;
        for feature in features {
            let count = self.seen.entry(feature).or_insert(0);
            takes |= *count < 3;
            *count += 1;
        }
        takes
    }
}
