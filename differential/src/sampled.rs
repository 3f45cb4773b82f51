//! What `visor_sample` answers of the cells of copy backgrounds, held against the Rust's own
//! entries, and against the paper's words where no plan shows the cell.

use crate::case::{without, Case};
use crate::cells::{finished_copy, half};
use crate::engine::{
    cells_agree, differences, shows, Engine, Reply, Strip, Strips, OUTSIDE, WIDEST_LOAD,
};
use crate::guarded::Guarded;
use crate::plan::Sink;
use crate::proved::{self, SAMPLE_WORDS, SCISSOR_WORDS};
use crate::random::Random;
use crate::record::{Record, COPY, OBJECT_BYTES};
use crate::run::{run, Answer, Settings};

/// What is counted, and how many 200,000 records show at least: about half of what seed 1 does.
pub const COUNTED: [(&str, u64); 15] = [
    (
        "finished copy plans, each cell of which is asked for",
        20_000,
    ),
    (
        "cells, each answered as its rectangle and load show it, from a column and row of that \
         load",
        190_000_000,
    ),
    ("of these in flipped frames", 90_000_000),
    ("of these in loads of more than 1,024 columns", 5_000_000),
    ("flipped loads of more than 1,024 columns, left out", 2_000),
    ("cells of these loads", 3_000_000),
    ("of these answered otherwise than shown", 3_000_000),
    ("cells outside a clipped frame, answered so", 1_600_000),
    ("cells of copies that end by 7 or 9, answered", 60_000),
    ("copies refused by 2", 2_000),
    ("copies refused by 3", 800),
    ("copies refused by 4", 1_200),
    ("copies refused by 5", 4_500),
    ("objects of other records, refused as copies", 70_000),
    ("objects of other records, answered as copies", 180),
];
pub type Counts = [u64; COUNTED.len()];

/// Places in `COUNTED`.
#[derive(Clone, Copy)]
pub enum Count {
    Plans,
    Cells,
    Flipped,
    Wide,
    LeftOut,
    LeftOutCells,
    Otherwise,
    Outside,
    Unfinished,
    Refused2,
    Refused3,
    Refused4,
    Refused5,
    OtherRefused,
    OtherAnswered,
}

/// What stands in a call's words before it, and beside them.
const MARK: u64 = 77;
/// The number of a reply where a word beside the three is changed.
const BESIDE: u64 = u64::MAX;

/// What the archive answers of a cell.
fn asked(case: &Case, [column, line]: [u64; 2]) -> Reply {
    let mut words = [MARK; SAMPLE_WORDS + 2];
    let scissor = &case.request[1..=SCISSOR_WORDS];
    let sample = &mut words[1..=SAMPLE_WORDS];
    let number = proved::sample(&case.object, scissor, column, line, sample);
    let [before, kind, one, two, after] = words;
    let kept = [before, after] == [MARK; 2];
    [if kept { number } else { BESIDE }, kind, one, two]
}

/// Columns or lines of a frame that has so many: its ends, one inside, and some beyond, a few of
/// which have low bits that are inside.
fn tried(cells: i64, random: &mut Random) -> [u64; 8] {
    let end = cells as u64;
    let inside = random.below(end.max(1));
    [
        0,
        inside,
        end.wrapping_sub(1),
        end,
        end + random.below(1024),
        random.pick(&[1 << 16, 1 << 32, 1 << 63]) + inside,
        random.next(),
        u64::MAX,
    ]
}

/// What a record is counted as, unless it is a copy that 2 to 5 pass.
fn counted_as(record: &Record, refused: Option<u64>) -> Option<Count> {
    Some(match (record.opcode, refused) {
        (COPY, None) => return None,
        (COPY, Some(2)) => Count::Refused2,
        (COPY, Some(3)) => Count::Refused3,
        (COPY, Some(4)) => Count::Refused4,
        (COPY, Some(_)) => Count::Refused5,
        (_, Some(_)) => Count::OtherRefused,
        (_, None) => Count::OtherAnswered,
    })
}

/// The paper's refusal of a copy is the Rust's.
fn same_refusal(record: &Record, answer: &Answer, paper: &Engine) -> Result<(), String> {
    let rust = Some(answer.end.verdict).filter(|verdict| (2..=5).contains(verdict));
    if record.opcode != COPY || rust == paper.refused {
        return Ok(());
    }
    let paper = paper.refused;
    Err(format!(
        "refused by {rust:?} of the Rust, by {paper:?} of the paper\n"
    ))
}

/// Cells at the ends of the clipped frame, inside it and beyond it, held against the paper's words,
/// of any record.
fn by_words(
    case: &Case,
    answer: &Answer,
    engine: impl Fn([u64; 2]) -> Reply,
    counts: &mut Counts,
) -> Result<(), String> {
    let Case { record, object, .. } = case;
    let paper = Engine::of(record, object.len());
    same_refusal(record, answer, &paper)?;
    if let Some(count) = counted_as(record, paper.refused) {
        counts[count as usize] += 1;
    }
    let unfinished = record.opcode == COPY && [7, 9].contains(&answer.end.verdict);
    let mut random = Random(!case.draw);
    let [columns, lines] = paper.cells.map(|cells| tried(cells, &mut random));
    for cell in columns.into_iter().flat_map(|x| lines.map(|y| [x, y])) {
        let (should, is) = (paper.answers(cell), engine(cell));
        if is != should {
            let [x, y] = cell;
            return Err(format!(
                "cell ({x}, {y}) should be answered {should:?}, is {is:?}\n"
            ));
        }
        let outside = should == OUTSIDE;
        counts[Count::Outside as usize] += u64::from(outside);
        counts[Count::Unfinished as usize] += u64::from(unfinished && !outside);
    }
    Ok(())
}

fn count_cells(
    record: &Record,
    strips: &Strips,
    engine: impl Fn([u64; 2]) -> Reply,
    counts: &mut Counts,
) {
    let Strips { compared, left_out } = strips;
    let number = |strip: &Strip| strip.cells.number();
    let cells: usize = compared.iter().map(number).sum();
    let wide = |strip: &&Strip| strip.columns() > WIDEST_LOAD;
    let otherwise = |strip| differences(strip, shows, &engine).count();
    for (count, number) in [
        (Count::Plans, 1),
        (Count::Cells, cells),
        (Count::Flipped, cells * usize::from(half(record, 26) == 1)),
        (Count::Wide, compared.iter().filter(wide).map(number).sum()),
        (Count::LeftOut, left_out.len()),
        (Count::LeftOutCells, left_out.iter().map(number).sum()),
        (Count::Otherwise, left_out.iter().map(otherwise).sum()),
    ] {
        counts[count as usize] += number as u64;
    }
}

/// A record's cells as an engine answers them; the first difference, as text.
pub fn held(
    case: &Case,
    answer: &Answer,
    engine: impl Fn([u64; 2]) -> Reply,
    counts: &mut Counts,
) -> Result<(), String> {
    let Case { record, .. } = case;
    if finished_copy(record, answer) {
        let strips = cells_agree(record, &answer.plan.entries, shows, &engine)?;
        count_cells(record, &strips, &engine, counts);
    }
    by_words(case, answer, engine, counts)
}

/// A record's cells as the archive answers them.
pub fn sampled(case: &Case, answer: &Answer, counts: &mut Counts) -> Result<(), String> {
    held(case, answer, |cell| asked(case, cell), counts)
}

/// A flipped frame of one load, which has 1,025 columns.
const WIDE: &str =
    "0040104000000ffc000000040000000400000000fff40000000000010000000400040000000100000000000003ff00f0000000000a0000000000001000";

/// The first difference of each load that is left out; those of the others agree.
fn left_out(case: &Case) -> Result<Vec<String>, String> {
    let plan = run(&case.record, &Settings::default(), Sink::Keep).plan;
    let engine = |cell| asked(case, cell);
    let Strips { left_out, .. } = cells_agree(&case.record, &plan.entries, shows, engine)?;
    let first = |strip| differences(strip, shows, engine).next();
    let texts = left_out.iter().filter_map(first).map(|first| first.text());
    Ok(texts.collect())
}

/// Why flipped loads of more than 1,024 columns are left out. The same load is compared where the
/// frame is not flipped.
pub fn wide_loads() -> Result<(), String> {
    let flipped = Case::fixed(Record::from_hex(WIDE), OBJECT_BYTES);
    let plain = without(&flipped, 27).expect("a flip");
    let is = [left_out(&plain)?, left_out(&flipped)?];
    let differs = "cell (0, 0) shows texel (1023, 0), and [0, 0, 1024, 0] is answered\n";
    let should = [vec![], vec![differs.to_string()]];
    if is == should {
        return Ok(());
    }
    Err(format!(
        "a load of 1,025 columns, plain and flipped: left out {is:?} and not {should:?}\n"
    ))
}

/// The words of scissor and sample that a call refuses.
const REFUSED: [(usize, usize); 7] = [
    (SCISSOR_WORDS - 1, SAMPLE_WORDS),
    (SCISSOR_WORDS + 1, SAMPLE_WORDS),
    (0, SAMPLE_WORDS),
    (SCISSOR_WORDS, SAMPLE_WORDS - 1),
    (SCISSOR_WORDS, SAMPLE_WORDS + 1),
    (SCISSOR_WORDS, 0),
    (0, 0),
];

/// Calls that the interface refuses: 1 is returned and nothing is changed.
pub fn refused_calls() -> Result<(), String> {
    let mut words = Guarded::new();
    let object = Record::from_hex(WIDE).object;
    for (scissor, sample) in REFUSED {
        let status = proved::sample(&object, &vec![100; scissor], 0, 0, words.fill(sample, MARK));
        let same = words.untouched_but(0);
        if status != 1 || !same {
            let changed = if same { "nothing" } else { "something" };
            return Err(format!(
                "sample, scissor {scissor}, sample {sample} words: returned {status}, {changed} changed\n"
            ));
        }
    }
    Ok(())
}
