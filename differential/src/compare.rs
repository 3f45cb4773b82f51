//! Holds the proved planner against the original Rust on random records, word by word.
//!
//! Usage: compare RECORDS [SEED [THREADS]]
//!        compare --record HEX [OBJECT_BYTES [BANK_SEED]]
//!
//! The worked cases, the records of edges.rs and the longest plan come first. Random records come in
//! blocks of 1,000, each of one mode of the generator and from a seed of its own,
//! so that the same records are compared whatever the number of threads. Each record has its own
//! random bank and is run into a buffer with room for all, into one that is too short by 0 to 11
//! words and, now and then, into one of any length and one of no words. Then it is stepped to its
//! end and beyond, with the planner of the record before it stepped in between; and its rectangles
//! are measured into buffers of three lengths. The cells of its frame are counted where it is a
//! finished copy plan, and each of them is asked for by itself; of every record a few cells are. One
//! in four of those with a load comes again, with its image so near the last address that one of its
//! loads ends there. Beside one in sixteen a copy object is written from a random picture, and its
//! plans are compared as those of the records.

#![allow(dead_code, unused_imports, unexpected_cfgs)]

mod broken;
mod broken_samples;
mod case;
mod cases;
mod cells;
mod diag;
mod edges;
mod engine;
mod entry;
mod fnv;
mod generate;
mod guarded;
mod hle;
mod inspect;
mod machine;
mod measured;
mod pictures;
mod plan;
mod proved;
mod random;
mod record;
mod run;
mod sampled;
mod scene;
mod spans;
mod stepped;

pub use diag::{DiagKind, Diagnostic, MemoryAccess};
pub use hle::mem::{MemoryError, MemoryErrorKind};

use case::{without, Case};
use cells::Count;
use generate::Mode;
use guarded::Buffers;
use plan::{End, Sink, BRANCH_NAMES};
use proved::{BANK_WORDS, END_WORDS, REQUEST_WORDS};
use random::Random;
use record::{initial_bank, tile_fields, Record, COPY, OBJECT_BYTES, RECORD_BYTES, SCALED};
use run::{run, Answer, Settings};
use std::fmt::Write;
use std::ops::Range;
use std::panic::{catch_unwind, AssertUnwindSafe};
use std::sync::atomic::{AtomicBool, AtomicU64, Ordering};
use std::sync::Mutex;
use std::time::Instant;
use stepped::Planned;

const BLOCK: u64 = 1_000;
/// So many records show every place where a load is refused for its span, all that is counted of
/// pictures, finished copy plans of every kind, and all that is counted of single cells.
const ALL_PLACES: u64 = 200_000;
const MODES: [(&str, Mode); 8] = [
    ("mixed", Mode::Mixed),
    ("copy", Mode::Copy),
    ("scaled", Mode::Scaled),
    ("thin", Mode::Thin),
    ("whole", Mode::Whole),
    ("corners", Mode::Corners),
    ("damaged", Mode::Damaged),
    ("wild", Mode::Wild),
];

const ORIGINS: [&str; 2] = ["is a whole row", "lies between two rows"];

#[derive(Clone, Default)]
struct Tally {
    records: u64,
    /// Records that came again at the last address.
    moved: u64,
    /// Plans whose load was refused for its span, by place.
    spans: [u64; spans::PLACES.len()],
    runs: u64,
    entries: u64,
    most: u64,
    short_objects: u64,
    /// Verdicts of the runs, by copy, scaled and other opcodes.
    verdicts: [[u64; 11]; 3],
    /// Verdicts of the counts of whole plans, by the same.
    counts: [[u64; 11]; 3],
    /// Planners stepped to their ends, all their steps, those beyond the end, and the steps of
    /// second planners.
    planners: u64,
    steps: u64,
    beyond: u64,
    second: u64,
    /// Rectangles of scaled plans that were measured; the plans that demand 3 is promised of, and
    /// their rectangles within 1/1,024 of the limit behind, by the origin: a whole row, or between two.
    measured: u64,
    apt: [u64; 2],
    nearest: [u64; 2],
    pictures: pictures::Counts,
    cells: cells::Counts,
    sampled: sampled::Counts,
}

fn mode(record: &Record) -> usize {
    match record.opcode {
        COPY => 0,
        SCALED => 1,
        _ => 2,
    }
}

impl Tally {
    fn run(&mut self, record: &Record, end: &End) {
        self.runs += 1;
        self.entries += end.entries;
        self.most = self.most.max(end.entries);
        self.verdicts[mode(record)][end.verdict as usize] += 1;
    }

    fn count(&mut self, record: &Record, end: &End) {
        self.counts[mode(record)][end.verdict as usize] += 1;
    }

    fn add(&mut self, other: &Tally) {
        self.records += other.records;
        self.moved += other.moved;
        self.runs += other.runs;
        self.entries += other.entries;
        self.most = self.most.max(other.most);
        self.short_objects += other.short_objects;
        self.planners += other.planners;
        self.steps += other.steps;
        self.beyond += other.beyond;
        self.second += other.second;
        self.measured += other.measured;
        for kind in 0..2 {
            self.apt[kind] += other.apt[kind];
            self.nearest[kind] += other.nearest[kind];
        }
        let mine = self
            .spans
            .iter_mut()
            .chain(&mut self.pictures)
            .chain(&mut self.cells)
            .chain(&mut self.sampled);
        let theirs = other
            .spans
            .iter()
            .chain(&other.pictures)
            .chain(&other.cells)
            .chain(&other.sampled);
        for (mine, theirs) in mine.zip(theirs) {
            *mine += theirs;
        }
        let mine = self.verdicts.iter_mut().chain(&mut self.counts);
        let theirs = other.verdicts.iter().chain(&other.counts);
        for (mine, theirs) in mine.zip(theirs) {
            for (a, b) in mine.iter_mut().zip(theirs) {
                *a += b;
            }
        }
    }

    fn print_fixed(&self) {
        println!(
            "{} fixed records, {} runs, {} entries, {} steps, {} rectangles measured",
            self.records, self.runs, self.entries, self.steps, self.measured
        );
        let counted = |count: Count| self.cells[count as usize];
        println!(
            "{} of them are finished copy plans, of {} cells and {} loads",
            counted(Count::Plans),
            counted(Count::Cells),
            counted(Count::Loads)
        );
        let sampled = |count: sampled::Count| self.sampled[count as usize];
        println!(
            "{} of these cells are answered as their rectangles and loads show them; loads left \
             out, flipped and of more than 1,024 columns: {}, of {} cells, {} of them answered \
             otherwise than shown",
            sampled(sampled::Count::Cells),
            sampled(sampled::Count::LeftOut),
            sampled(sampled::Count::LeftOutCells),
            sampled(sampled::Count::Otherwise)
        );
    }

    fn print(&self) {
        println!("{:>43}{:>36}", "runs", "counts");
        println!("verdict        copy      scaled       other        copy      scaled       other");
        for verdict in 0..11 {
            print!("{verdict:<7}");
            for by_mode in self.verdicts.iter().chain(&self.counts) {
                print!("{:>12}", by_mode[verdict]);
            }
            println!();
        }
        println!(
            "{} records, {} of them again with a load at the last address, {} with fewer than \
             40 bytes of object; {} runs, {} entries, at most {} in a plan",
            self.records, self.moved, self.short_objects, self.runs, self.entries, self.most
        );
        print_counts("loads refused for their span:", spans::PLACES, &self.spans);
        println!(
            "{} planners stepped to their ends, {} steps, {} of them beyond the end; \
             {} steps of second planners",
            self.planners, self.steps, self.beyond, self.second
        );
        println!("{} rectangles of scaled plans measured", self.measured);
        for (kind, name) in ORIGINS.iter().enumerate() {
            println!(
                "the conditions of demand 3 hold for {} plans whose origin {name}; {} rectangles \
                 are within 1/1,024 of the limit behind",
                self.apt[kind], self.nearest[kind]
            );
        }
        let (pictures, cells) = (names(pictures::COUNTED), names(cells::COUNTED));
        print_counts("copy objects of pictures:", pictures, &self.pictures);
        print_counts("finished copy plans:", cells, &self.cells);
        let sampled = names(sampled::COUNTED);
        print_counts("single cells:", sampled, &self.sampled);
    }
}

fn names<const N: usize>(counted: [(&'static str, u64); N]) -> [&'static str; N] {
    counted.map(|(name, _)| name)
}

fn print_counts<const N: usize>(title: &str, names: [&str; N], numbers: &[u64; N]) {
    println!("{title}");
    for (name, number) in names.iter().zip(numbers) {
        println!("{number:>12}  {name}");
    }
}

/// The buffer lengths that a plan of so many entries is run into.
fn rooms(entries: u64, random: &mut Random) -> Vec<usize> {
    let whole = 11 * entries as usize;
    let mut rooms = vec![
        whole + random.below(23) as usize,
        whole.saturating_sub(random.below(12) as usize),
    ];
    match random.below(16) {
        0 => rooms.push(0),
        1 => rooms.push(random.below(whole as u64 + 1) as usize),
        _ => {}
    }
    rooms
}

/// Branches of the Rust that docs/DIFFERENCES.md says are never taken.
const NEVER_TAKEN: [&str; 2] = [
    "load_1cyc_tile: rows <= 0",
    "bg_1cyc: last strip cut, rows limited to R",
];
/// The most rows before the image that a load starts at.
const MOST_ROWS_BEFORE: i64 = 63;

/// What the Rust did though docs/DIFFERENCES.md says that it never does.
fn unexpected(answer: &Answer) -> Option<String> {
    let notes = &answer.plan.notes;
    let taken = BRANCH_NAMES
        .iter()
        .zip(notes.hits)
        .find(|(name, hits)| *hits > 0 && NEVER_TAKEN.contains(name));
    if let Some((name, _)) = taken {
        return Some(format!("the Rust took the branch {name:?}\n"));
    }
    let rows = notes.most_above;
    (rows > MOST_ROWS_BEFORE).then(|| format!("a strip starts {rows} rows before the image\n"))
}

/// The Rust's answer; nothing where it panics.
fn asked(case: &Case, capacity: u64, sink: Sink) -> Option<Answer> {
    let settings = case.settings(capacity);
    catch_unwind(AssertUnwindSafe(|| run(&case.record, &settings, sink))).ok()
}

const PANICKED: &str = "the original Rust panicked\n";

/// Counts a case, runs it into each of its buffers and steps it beside another planner: the Rust's
/// whole plan, or the first difference, as text.
fn compare(
    case: &Case,
    beside: &Planned,
    buffers: &mut Buffers,
    tally: &mut Tally,
) -> Result<Answer, String> {
    let whole = asked(case, u64::MAX, Sink::Keep).ok_or(PANICKED)?;
    if let Some(text) = unexpected(&whole) {
        return Err(text);
    }
    cells::counted(&case.record, &whole, &mut tally.cells)?;
    sampled::sampled(case, &whole, &mut tally.sampled)?;
    tally.records += 1;
    tally.short_objects += u64::from(case.object.len() < OBJECT_BYTES);
    let mut random = Random(case.draw);
    if let Some(text) = count_difference(case, &whole.end, random.next(), buffers) {
        return Err(text);
    }
    tally.count(&case.record, &whole.end);
    if let Some(place) = spans::place(&case.record, &whole) {
        tally.spans[place] += 1;
    }
    for room in rooms(whole.end.entries, &mut random) {
        let mut expected = None;
        if room < 11 * whole.end.entries as usize {
            expected = Some(asked(case, room as u64, Sink::Nothing).ok_or(PANICKED)?);
        }
        let expected = expected.as_ref().unwrap_or(&whole);
        tally.run(&case.record, &expected.end);
        let mark = random.next();
        let before = bank_words(case, mark);
        let status = run_proved(case, room, mark, &before, buffers);
        if let Some(text) = difference(&whole.plan.entries, expected, status, &before, buffers) {
            return Err(format!("buffer of {room} words\n{text}"));
        }
    }
    stepped::stepped(case, &whole, beside, &mut random, buffers, tally)?;
    measured::measured(case, &whole, &mut random, buffers, tally)?;
    Ok(whole)
}

/// The bits of a tile's field.
fn width(place: usize) -> u32 {
    if (6..15).contains(&place) {
        8
    } else {
        16
    }
}

/// The bank before a run; a wide one has the mark above its fields.
fn bank_words(case: &Case, mark: u64) -> [u64; BANK_WORDS] {
    let mut bank = [0; BANK_WORDS];
    for (words, tile) in bank.chunks_mut(17).zip(&initial_bank(case.bank_seed)) {
        words.copy_from_slice(&tile_fields(tile));
        if case.wide_bank {
            for (place, word) in words.iter_mut().enumerate() {
                *word += mark << width(place);
            }
        }
    }
    bank
}

fn run_proved(
    case: &Case,
    room: usize,
    mark: u64,
    before: &[u64; BANK_WORDS],
    buffers: &mut Buffers,
) -> u64 {
    let bank = buffers.bank.fill(BANK_WORDS, mark);
    bank.copy_from_slice(before);
    let plan = buffers.plan.fill(room, mark);
    let end = buffers.end.fill(END_WORDS, mark);
    proved::run(&case.object, &case.request, bank, plan, end)
}

/// The words of a tile's bounds, width and height, and those of its other parts.
fn bounds_of(tile: u64) -> Range<usize> {
    let first = 17 * tile as usize;
    first..first + 6
}

fn parts_of(tile: u64) -> Range<usize> {
    let first = 17 * tile as usize;
    first + 6..first + 17
}

/// Whether the plan ends with a load that is refused after it has set tile 7's bounds.
fn refused_load(answer: &Answer) -> bool {
    answer.end.verdict == 9 && answer.plan.refused_load
}

/// Which words of the bank a run sets: those of the entries that stand, and tile 7's bounds where the
/// load after them is refused.
fn set_by(entries: &[entry::Entry], expected: &Answer) -> [bool; BANK_WORDS] {
    let mut set = [false; BANK_WORDS];
    if refused_load(expected) {
        set[bounds_of(7)].fill(true);
    }
    for entry in entries {
        match entry[0] {
            entry::TILE => set[parts_of(entry[1])].fill(true),
            entry::SIZE | entry::LOAD => set[bounds_of(entry[1])].fill(true),
            _ => {}
        }
    }
    set
}

/// The bank's words, held against the Rust's tiles where the run sets them and else against what
/// they were, all 64 bits of them.
fn bank_difference(
    entries: &[entry::Entry],
    expected: &Answer,
    before: &[u64; BANK_WORDS],
    given: &[u64],
) -> Option<String> {
    let set = set_by(entries, expected);
    let fields = expected.bank.iter().flat_map(tile_fields);
    for (n, field) in fields.enumerate() {
        let (tile, place) = (n / 17, n % 17);
        let kept = field == before[n] % (1 << width(place)) && given[n] == before[n];
        if !(if set[n] { given[n] == field } else { kept }) {
            return Some(format!(
                "tile {tile}, word {place}: {} before, Rust {field}, proved {}\n",
                before[n], given[n]
            ));
        }
    }
    None
}

/// The Rust's entries applied one after another: each is taken, and the bank is the run's, but for
/// tile 7's bounds where a load was refused.
fn applied_difference(
    entries: &[entry::Entry],
    expected: &Answer,
    before: &[u64; BANK_WORDS],
    given: &[u64],
) -> Option<String> {
    let mut bank = *before;
    for (n, entry) in entries.iter().enumerate() {
        let status = proved::apply(entry, &mut bank);
        if status != 0 {
            return Some(format!("entry {n} applied: returned {status}\n"));
        }
    }
    if refused_load(expected) {
        bank[bounds_of(7)].copy_from_slice(&given[bounds_of(7)]);
    }
    let word = bank.iter().zip(given).position(|(mine, run)| mine != run);
    word.map(|n| {
        format!(
            "bank word {n}: {} by entries, {} by the run\n",
            bank[n], given[n]
        )
    })
}

fn numbers(end: &End) -> [u64; END_WORDS] {
    [end.verdict, end.entries, end.rectangles, end.tile_words]
}

/// The end that is counted without a buffer, held against the whole plan's.
fn count_difference(case: &Case, end: &End, mark: u64, buffers: &mut Buffers) -> Option<String> {
    let words = buffers.end.fill(END_WORDS, mark);
    let status = proved::count(&case.object, &case.request, words);
    let given = buffers.end.inside();
    if status == 0 && given == numbers(end) && buffers.end.untouched_but(END_WORDS) {
        return None;
    }
    let expected = numbers(end);
    Some(format!(
        "counted: Rust {expected:?}, proved {given:?}, returned {status}\n"
    ))
}

/// What the proved run left, held against what it should have left. `entries` are those of the
/// plan without a limit, of which the expected answer has the first ones.
fn difference(
    entries: &[entry::Entry],
    expected: &Answer,
    status: u64,
    before: &[u64; BANK_WORDS],
    buffers: &Buffers,
) -> Option<String> {
    let mut text = String::new();
    let (end, given) = (numbers(&expected.end), buffers.end.inside());
    if status != 0 || given != end {
        writeln!(
            text,
            "end: Rust {end:?}, proved {given:?}, returned {status}"
        )
        .unwrap();
    }
    let count = expected.end.entries as usize;
    let entries = &entries[..count];
    let mut words = buffers.plan.inside().chunks_exact(11);
    for (n, entry) in entries.iter().enumerate() {
        let given = words.next().unwrap_or(&[]);
        if given != entry {
            writeln!(text, "entry {n}: Rust {entry:?}\n  proved {given:?}").unwrap();
            break;
        }
    }
    let given = buffers.bank.inside();
    text.extend(bank_difference(entries, expected, before, given));
    text.extend(applied_difference(entries, expected, before, given));
    if !buffers.plan.untouched_but(11 * count) {
        text.push_str(
            "words of the plan buffer beyond the last entry, or around it, are changed\n",
        );
    }
    if !buffers.bank.untouched_but(BANK_WORDS) || !buffers.end.untouched_but(END_WORDS) {
        text.push_str("words around the bank or the end are changed\n");
    }
    (!text.is_empty()).then_some(text)
}

/// Lengths that the interface refuses: 1 is returned and nothing is written.
fn refused_lengths() -> Option<String> {
    let sizes = [
        (REQUEST_WORDS - 1, BANK_WORDS, END_WORDS),
        (REQUEST_WORDS + 1, BANK_WORDS, END_WORDS),
        (REQUEST_WORDS, BANK_WORDS - 1, END_WORDS),
        (REQUEST_WORDS, BANK_WORDS + 17, END_WORDS),
        (REQUEST_WORDS, BANK_WORDS, END_WORDS - 1),
        (REQUEST_WORDS, BANK_WORDS, END_WORDS + 1),
        (0, 0, 0),
    ];
    let mut buffers = Buffers::new();
    for (request, bank, end) in sizes {
        let words = vec![10; request];
        let status = proved::run(
            &[0; OBJECT_BYTES],
            &words,
            buffers.bank.fill(bank, 77),
            buffers.plan.fill(110, 77),
            buffers.end.fill(end, 77),
        );
        let kept = [&buffers.bank, &buffers.plan, &buffers.end]
            .iter()
            .all(|b| b.untouched_but(0));
        let counted = if request != REQUEST_WORDS || end != END_WORDS {
            proved::count(&[0; OBJECT_BYTES], &words, buffers.end.fill(end, 77))
        } else {
            1
        };
        let kept = kept && buffers.end.untouched_but(0);
        if status != 1 || counted != 1 || !kept {
            return Some(format!(
                "request {request}, bank {bank}, end {end} words: returned {status} and {counted}, {}\n",
                if kept {
                    "nothing written"
                } else {
                    "something written"
                }
            ));
        }
    }
    None
}

fn hex(bytes: &[u8]) -> String {
    bytes.iter().map(|b| format!("{b:02x}")).collect()
}

fn compare_once(case: &Case, beside: &Planned) -> Result<Answer, String> {
    compare(case, beside, &mut Buffers::new(), &mut Tally::default())
}

/// The case made simpler as long as some difference stays, so that few numbers are left to read.
fn reduced(case: &Case, beside: &Planned) -> Case {
    let differs = |case: &Case| compare_once(case, beside).is_err();
    let mut least = case.clone();
    let whole = Case {
        object: least.record.object.to_vec(),
        ..least.clone()
    };
    if differs(&whole) {
        least = whole;
    }
    let clear = Case {
        bank_seed: None,
        wide_bank: false,
        ..least.clone()
    };
    if differs(&clear) {
        least = clear;
    }
    let mut again = true;
    while again {
        again = false;
        for at in 0..RECORD_BYTES {
            if let Some(simpler) = without(&least, at).filter(differs) {
                least = simpler;
                again = true;
            }
        }
    }
    least
}

fn describe(case: &Case, text: &str) -> String {
    let Case {
        record,
        object,
        request,
        bank_seed,
        ..
    } = case;
    let bank = bank_seed.map_or("zeros".to_string(), |seed| format!("seed {seed}"));
    format!(
        "record {}\nobject of {} bytes {}, request {request:?}, bank from {bank}\n{text}",
        hex(&record.to_bytes()),
        object.len(),
        hex(object)
    )
}

/// A difference with the record that shows it, and both again for the record made simpler. The
/// second planner is that of the worked case if some difference stays.
fn explain(case: &Case, beside: &Planned, text: &str) -> String {
    let worked = Planned::worked();
    let simple = compare_once(case, &worked).is_err();
    let beside = if simple { &worked } else { beside };
    let least = reduced(case, beside);
    let again = compare_once(&least, beside).err().unwrap_or_default();
    let (first, last) = (describe(case, text), describe(&least, &again));
    format!("{first}\nreduced:\n{last}")
}

fn block_seed(seed: u64, block: u64) -> u64 {
    Random(seed ^ block.wrapping_mul(0xd6e8_feb8_6659_fd93)).next()
}

/// One block of records; the first difference, with the record's number.
fn compare_block(seed: u64, block: u64, count: u64, tally: &mut Tally) -> Option<(u64, String)> {
    let mut random = Random(block_seed(seed, block));
    // Apart from the records' numbers, so that these are the same with and without pictures.
    let mut pictured = Random(block_seed(!seed, block));
    let mode = MODES[(block % MODES.len() as u64) as usize].1;
    let mut buffers = Buffers::new();
    let mut beside = Planned::worked();
    for n in 0..count {
        if n % pictures::EVERY == 0 {
            let counts = &mut tally.pictures;
            let tried = pictures::tried(&mut pictured, &beside, &mut buffers, counts);
            if let Err(text) = tried {
                return Some((block * BLOCK + n, text));
            }
        }
        let mut next = Some(Case::random(&mut random, mode));
        let mut first = true;
        while let Some(case) = next.take() {
            match compare(&case, &beside, &mut buffers, tally) {
                Ok(answer) => beside = Planned { case, answer },
                Err(text) => return Some((block * BLOCK + n, explain(&case, &beside, &text))),
            }
            if first && random.once_in(4) {
                next = beside.case.moved(&beside.answer, &mut random);
                tally.moved += u64::from(next.is_some());
            }
            first = false;
        }
    }
    None
}

fn compare_all(records: u64, seed: u64, threads: usize) -> (Tally, Option<(u64, String)>) {
    let (next, stop) = (AtomicU64::new(0), AtomicBool::new(false));
    let shared: Mutex<(Tally, Option<(u64, String)>)> = Mutex::default();
    std::thread::scope(|scope| {
        for _ in 0..threads {
            scope.spawn(|| {
                let mut tally = Tally::default();
                let mut first = None;
                while first.is_none() && !stop.load(Ordering::Relaxed) {
                    let block = next.fetch_add(1, Ordering::Relaxed);
                    if block * BLOCK >= records {
                        break;
                    }
                    let count = BLOCK.min(records - block * BLOCK);
                    first = compare_block(seed, block, count, &mut tally);
                }
                let mut shared = shared.lock().unwrap();
                shared.0.add(&tally);
                if let Some(found) = first {
                    stop.store(true, Ordering::Relaxed);
                    if shared.1.as_ref().is_none_or(|(n, _)| found.0 < *n) {
                        shared.1 = Some(found);
                    }
                }
            });
        }
    });
    shared.into_inner().unwrap()
}

/// What so many records should have shown and did not.
fn unmet(tally: &Tally, records: u64) -> Option<String> {
    let spans = spans::PLACES.iter().zip(tally.spans);
    let spans = spans.map(|(name, n)| ("no load was refused for its span here", name, n, 1));
    let pictures = pictures::COUNTED.iter().zip(tally.pictures);
    let pictures = pictures.map(|((name, least), n)| ("too few of pictures", name, n, *least));
    let cells = cells::COUNTED.iter().zip(tally.cells);
    let cells = cells.map(|((name, least), n)| ("too few of finished copy plans", name, n, *least));
    let sampled = sampled::COUNTED.iter().zip(tally.sampled);
    let sampled = sampled.map(|((name, least), n)| ("too few of single cells", name, n, *least));
    let unmet: String = spans
        .chain(pictures)
        .chain(cells)
        .chain(sampled)
        .filter(|&(_, _, number, least)| number < least)
        .map(|(what, name, number, _)| format!("{what}: {name}, {number}\n"))
        .collect();
    (records >= ALL_PLACES && !unmet.is_empty()).then_some(unmet)
}

/// The worked cases, the edge records and the longest plan; the first difference.
fn compare_fixed(tally: &mut Tally) -> Option<String> {
    let named = cases::all().into_iter();
    let named = named.map(|case| Case::fixed(case.record, case.object_bytes));
    let others = edges::all().into_iter().chain([edges::largest()]);
    let others = others.map(|record| Case::fixed(record, OBJECT_BYTES));
    let mut buffers = Buffers::new();
    let mut beside = Planned::worked();
    for case in named.chain(others) {
        match compare(&case, &beside, &mut buffers, tally) {
            Ok(answer) => beside = Planned { case, answer },
            Err(text) => return Some(describe(&case, &text)),
        }
    }
    let far = ORIGINS.iter().zip(tally.nearest).find(|&(_, n)| n == 0);
    far.map(|(name, _)| format!("no rectangle is near the limit behind where the origin {name}\n"))
}

fn single(arguments: &[String]) -> Option<String> {
    let digits = arguments.first().map_or("", |a| a.as_str());
    let bytes: Vec<u8> = (0..digits.len() / 2)
        .filter_map(|n| u8::from_str_radix(digits.get(2 * n..2 * n + 2)?, 16).ok())
        .collect();
    let Ok(bytes) = <[u8; RECORD_BYTES]>::try_from(bytes) else {
        usage();
    };
    let length = arguments
        .get(1)
        .map_or(OBJECT_BYTES, |n| number(n) as usize);
    let case = Case {
        bank_seed: arguments.get(2).map(|n| number(n)),
        ..Case::fixed(Record::from_bytes(&bytes), length.min(OBJECT_BYTES))
    };
    let text = compare_once(&case, &Planned::worked()).err();
    text.map(|text| describe(&case, &text))
}

fn number(text: &str) -> u64 {
    text.parse().unwrap_or_else(|_| usage())
}

fn usage() -> ! {
    eprintln!("compare RECORDS [SEED [THREADS]]\ncompare --record HEX [OBJECT_BYTES [BANK_SEED]]");
    std::process::exit(2);
}

fn finish(difference: Option<String>) -> ! {
    match difference {
        None => std::process::exit(0),
        Some(text) => {
            print!("DIFFERENCE\n{text}");
            std::process::exit(1);
        }
    }
}

fn main() {
    let arguments: Vec<String> = std::env::args().skip(1).collect();
    match arguments.first() {
        None => usage(),
        Some(first) if first == "--record" => finish(single(&arguments[1..])),
        Some(_) => {}
    }
    let records = number(&arguments[0]);
    let seed = arguments.get(1).map_or(1, |n| number(n));
    let threads = arguments.get(2).map_or(2, |n| number(n) as usize).max(1);
    let refused = refused_lengths().or_else(|| stepped::refused_calls().err());
    let refused = refused.or_else(|| measured::refused_calls().err());
    let refused = refused.or_else(|| sampled::refused_calls().err());
    let broken = refused.or_else(|| broken::found().err());
    if let Some(text) = broken.or_else(|| broken_samples::found().err()) {
        finish(Some(text));
    }
    let names: Vec<&str> = MODES.iter().map(|(name, _)| *name).collect();
    println!("seed {seed}, modes {}, {threads} threads", names.join(" "));
    let start = Instant::now();
    let mut fixed = Tally::default();
    if let Some(text) = compare_fixed(&mut fixed) {
        finish(Some(text));
    }
    fixed.print_fixed();
    let (tally, found) = compare_all(records, seed, threads);
    tally.print();
    if let Some((n, text)) = found {
        finish(Some(format!("record number {n}\n{text}")));
    }
    if let Some(text) = unmet(&tally, records) {
        finish(Some(text));
    }
    println!("no difference, {:.1} s", start.elapsed().as_secs_f64());
}
