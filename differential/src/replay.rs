//! The list of records that crates/replay replays, and the Rust's answers to it.
//!
//! A record of the list has 64 bytes: the 61 that `bgplan` reads, then how many of the object's
//! bytes the planner gets (1 byte) and how many words the plan buffer has (2 bytes, big-endian).
//! Every run and every list of steps starts from the bank of seed 1, which the file `bank` holds as
//! 136 big-endian words.

use crate::coverage::Sample;
use crate::generate::{generate, Mode};
use crate::plan::{hash_bank, End, Sink};
use crate::random::Random;
use crate::record::{initial_bank, tile_fields, Record, OBJECT_BYTES, RECORD_BYTES};
use crate::run::{run, Answer, Settings};
use crate::{cases, edges};

const ITEM_BYTES: usize = 64;
/// Room for every plan of the list: the longest, case A's, has 201 entries.
const ROOM: u16 = 2_816;
/// Only plans of so few entries are replayed into short buffers too.
const SHORT: u64 = 12;
/// A record's chunk has the words of its buffer modulo this.
const CHUNK: u16 = 121;
/// The steps that answer the end: the first, and three beyond it.
const ENDS: usize = 4;

#[derive(Clone, Copy)]
struct Item {
    record: Record,
    object_bytes: u8,
    room: u16,
}

impl Item {
    fn roomy(record: Record) -> Item {
        Item {
            record,
            object_bytes: OBJECT_BYTES as u8,
            room: ROOM,
        }
    }

    fn to_bytes(self) -> [u8; ITEM_BYTES] {
        let mut bytes = [0; ITEM_BYTES];
        bytes[..RECORD_BYTES].copy_from_slice(&self.record.to_bytes());
        bytes[RECORD_BYTES] = self.object_bytes;
        bytes[RECORD_BYTES + 1..].copy_from_slice(&self.room.to_be_bytes());
        bytes
    }

    fn from_bytes(bytes: &[u8; ITEM_BYTES]) -> Item {
        Item {
            record: Record::from_bytes(bytes[..RECORD_BYTES].try_into().unwrap()),
            object_bytes: bytes[RECORD_BYTES],
            room: u16::from_be_bytes(bytes[RECORD_BYTES + 1..].try_into().unwrap()),
        }
    }

    fn answer(&self, capacity: u64) -> Answer {
        let settings = Settings {
            bank: initial_bank(Some(1)),
            object_bytes: self.object_bytes.into(),
            capacity,
        };
        run(&self.record, &settings, Sink::Nothing)
    }

    /// A run into the record's buffer.
    fn ran(&self) -> Answer {
        self.answer(self.room.into())
    }

    /// The whole plan, as steps give it.
    fn whole(&self) -> Answer {
        self.answer(u64::MAX)
    }

    /// Whether the plan is longer than the chunk.
    fn cut(&self, whole: &Answer) -> bool {
        u64::from(self.room % CHUNK / 11) < whole.end.entries
    }
}

/// Two records that random ones hardly ever give: a destination below 0, a split row left over.
const RARE: [&str; 2] = [
    "100c0285ff9c00af000700070052062f8ca1f5b9003301010006000003a80576fffff70af2aff83600080008013800e800000008090000000000000000",
    "100c0285ff9c00af000700070052062f8ca1f5b9003301010006000003a80576fffff70af2aff83600080008013800e80000000809ffffffffffffff58",
];

fn rare() -> impl Iterator<Item = Record> {
    RARE.iter().map(|digits| Record::from_hex(digits))
}

/// A few small records for each verdict, branch and place of refusal that is met.
fn sample() -> Vec<Record> {
    const DRAWN: [(u64, u64, Mode); 6] = [
        (11, 200_000, Mode::Mixed),
        (12, 200_000, Mode::Thin),
        (13, 100_000, Mode::Corners),
        (14, 100_000, Mode::Damaged),
        (15, 100_000, Mode::Wild),
        (16, 200_000, Mode::Whole),
    ];
    let random = DRAWN.iter().flat_map(|&(seed, count, mode)| {
        let mut random = Random(seed);
        (0..count).map(move |_| generate(&mut random, mode))
    });
    let mut sample = Sample::default();
    rare()
        .chain(random)
        .filter(|record| sample.takes(record, &run(record, &Settings::default(), Sink::Nothing)))
        .collect()
}

/// A plan into a buffer that just holds it, lacks a word, holds half of it, has no words.
fn short(item: Item, items: &mut Vec<Item>) {
    let entries = item.whole().end.entries;
    if entries > SHORT {
        return;
    }
    let words = 11 * entries as u16;
    let mut rooms = vec![
        words,
        words.saturating_sub(1),
        11 * (entries as u16 / 2) + 3,
        0,
    ];
    rooms.sort_unstable();
    rooms.dedup();
    items.extend(rooms.into_iter().map(|room| Item { room, ..item }));
}

fn list() -> Vec<Item> {
    let named = cases::all().into_iter().map(|case| Item {
        object_bytes: case.object_bytes as u8,
        ..Item::roomy(case.record)
    });
    let whole = sample().into_iter().chain(edges::all()).map(Item::roomy);
    let mut items: Vec<Item> = named.chain(whole).collect();
    for item in items.clone() {
        short(item, &mut items);
    }
    items
}

fn end_numbers(end: &End) -> [u64; 4] {
    [end.verdict, end.entries, end.rectangles, end.tile_words]
}

/// The end's numbers, then two digests.
fn part(end: &End, entries: u64, bank: u64) -> String {
    let [verdict, entries_given, rectangles, words] = end_numbers(end);
    format!("{verdict} {entries_given} {rectangles} {words} {entries:016x} {bank:016x}")
}

/// The digest of what the steps answer: the entries, and the end's numbers for each end.
fn hash_answers(whole: &Answer) -> u64 {
    let mut hash = whole.plan.hash;
    for _ in 0..ENDS {
        hash.words(&end_numbers(&whole.end));
    }
    hash.value()
}

/// What the Rust answers: the run, the whole plan as steps give it, and for a plan that is longer
/// than the chunk the digests again, which a run into the chunk and steps after it have to give.
fn line(item: &Item) -> String {
    let ran = item.ran();
    let whole = item.whole();
    let run = part(&ran.end, ran.plan.hash.value(), hash_bank(&ran.bank));
    let (answers, bank) = (hash_answers(&whole), hash_bank(&whole.bank));
    let steps = part(&whole.end, answers, bank);
    let mixed = if item.cut(&whole) {
        format!(" {answers:016x} {bank:016x}")
    } else {
        String::new()
    };
    format!("{run} {steps}{mixed}\n")
}

fn answers(items: &[Item]) -> String {
    items.iter().map(line).collect()
}

/// Writes data/records, data/bank and stdout into the directory.
pub fn write(directory: &str) -> std::io::Result<usize> {
    let items = list();
    let records: Vec<u8> = items.iter().flat_map(|item| item.to_bytes()).collect();
    let bank: Vec<u8> = initial_bank(Some(1))
        .iter()
        .flat_map(tile_fields)
        .flat_map(u64::to_be_bytes)
        .collect();
    std::fs::create_dir_all(format!("{directory}/data"))?;
    std::fs::write(format!("{directory}/data/records"), records)?;
    std::fs::write(format!("{directory}/data/bank"), bank)?;
    std::fs::write(format!("{directory}/stdout"), answers(&items))?;
    Ok(items.len())
}

/// Whether `stdout` is what the Rust answers to data/records today.
pub fn holds(directory: &str) -> std::io::Result<bool> {
    let records = std::fs::read(format!("{directory}/data/records"))?;
    let items: Vec<Item> = records
        .chunks_exact(ITEM_BYTES)
        .map(|bytes| Item::from_bytes(bytes.try_into().unwrap()))
        .collect();
    Ok(answers(&items) == std::fs::read_to_string(format!("{directory}/stdout"))?)
}
