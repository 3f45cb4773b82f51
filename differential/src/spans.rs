//! Loads that are refused because their bytes reach the end of the address space, and records that
//! have such loads.

use crate::entry::LOAD;
use crate::plan::Part;
use crate::random::Random;
use crate::record::{Record, COPY};
use crate::run::Answer;

/// Where a load can be refused for its span.
pub const PLACES: [&str; 7] = [
    "copy, the first strip",
    "copy, a later strip",
    "scaled, whole",
    "scaled, wrapping, rows from the top",
    "scaled, wrapping, split row at the top",
    "scaled, wrapping, split row at the end",
    "scaled, wrapping, rows up to the end",
];

/// The place where a plan's load was refused for its span.
pub fn place(record: &Record, answer: &Answer) -> Option<usize> {
    if answer.end.verdict != 9 || !answer.plan.refused_span {
        return None;
    }
    Some(match (record.opcode, answer.plan.notes.part) {
        // The texture image, two tiles and a size stand before the first strip's load.
        (COPY, _) if answer.end.entries == 4 => 0,
        (COPY, _) => 1,
        (_, Part::Whole) => 2,
        (_, Part::Top) => 3,
        (_, Part::SplitB) => 4,
        (_, Part::SplitA) => 5,
        (_, Part::Rest) => 6,
    })
}

/// The same record with its image elsewhere: a load that ends further on than those before it now
/// ends one byte before 2^64, at 2^64, or one beyond. Nothing where the plan has no such load.
pub fn moved(record: &Record, answer: &Answer, random: &mut Random) -> Option<Record> {
    let mut furthest = 0;
    let mut reaches = Vec::new();
    for entry in answer.plan.entries.iter().filter(|e| e[0] == LOAD) {
        let reach = i128::from(entry[9]) + i128::from(entry[10]) - i128::from(record.address);
        if reach > furthest {
            furthest = reach;
            reaches.push(reach);
        }
    }
    if reaches.is_empty() {
        return None;
    }
    let reach = random.pick(&reaches);
    let end = (1 << 64) + i128::from(random.within(-1, 1));
    let address = u64::try_from(end - reach).ok()?;
    Some(Record { address, ..*record })
}
