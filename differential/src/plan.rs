//! The recorder: the calls that the planners make, as the specification's plan entries.

use crate::entry::{self, print_entry, Entry, RECTANGLE};
use crate::fnv::Fnv;
use crate::hle::interp::TexRect;
use crate::hle::tmem::TileWrite;
use crate::record::{tile_fields, Bank};
use std::fmt::Write as _;
use std::io::{BufWriter, Stdout, Write as _};

include!("branch_names.rs");

#[derive(Clone, Copy, Debug, PartialEq, Eq)]
pub struct End {
    pub verdict: u64,
    pub entries: u64,
    pub rectangles: u64,
    pub tile_words: u64,
}

/// Variables of `bg_1cyc`, handed over by the noted text.
#[derive(Clone, Copy, Debug)]
pub struct Slices {
    pub source_rows: i64,
    pub image_rows: i64,
    pub stride: i64,
    pub carry: i64,
    pub top: i64,
    pub height: i64,
    pub slice: i64,
    /// The Rust's `image_hidden`.
    pub hidden: i64,
}

/// The loads of a strip of `bg_1cyc`, in the order of `load_1cyc`.
#[derive(Clone, Copy, Debug, Default, PartialEq, Eq, Hash)]
pub enum Part {
    #[default]
    Whole,
    Top,
    SplitB,
    SplitA,
    Rest,
}

/// What only the noted text tells. The untouched text leaves all of it at its first value.
#[derive(Clone, Debug, Default)]
pub struct Notes {
    pub object_passed: bool,
    pub slices: Option<Slices>,
    /// The image row that the next rectangle carries.
    pub image_row: i64,
    pub passes: u64,
    pub empty_passes: u64,
    pub most_empty_passes: u64,
    /// The least `remain`, and the most above `source_rows`, that stood before a strip's loads.
    pub least_remain: i64,
    pub most_above: i64,
    pub hits: [u64; BRANCH_NAMES.len()],
    /// The branch counted last: where a refusal happened.
    pub last_hit: usize,
    /// The load that was asked for last.
    pub part: Part,
    /// For each rectangle kept, the strip's number k.
    pub strips: Vec<i64>,
}

impl Notes {
    pub fn first_strip(&mut self, slice: i64) {
        if let Some(slices) = &mut self.slices {
            slices.slice = slice;
        }
    }

    pub fn first_hidden(&mut self, image_hidden: i64) {
        if let Some(slices) = &mut self.slices {
            slices.hidden = image_hidden;
        }
    }

    pub fn pass(&mut self, draw: i64) {
        self.passes += 1;
        self.empty_passes = if draw <= 0 { self.empty_passes + 1 } else { 0 };
        self.most_empty_passes = self.most_empty_passes.max(self.empty_passes);
    }

    /// The image row (SPECIFICATION 8.12 step 4), as `remain` stands before the strip's loads.
    pub fn before_loads(&mut self, source_rows: i64, remain: i64) {
        self.image_row = (source_rows - remain).rem_euclid(source_rows);
        self.least_remain = self.least_remain.min(remain);
        self.most_above = self.most_above.max(remain - source_rows);
    }

    pub fn hit(&mut self, branch: usize) {
        self.hits[branch] += 1;
        self.last_hit = branch;
    }

    /// The number of the strip in hand: from `slice` upward, passes without a line counted.
    fn strip(&self) -> i64 {
        self.slices.map_or(0, |s| s.slice) + self.passes as i64 - 1
    }
}

/// Where entries go besides the counts and hashes.
pub enum Sink {
    Nothing,
    Keep,
    /// Straight to standard output: a copy plan may have five million entries.
    Print(BufWriter<Stdout>),
}

pub struct Plan {
    sink: Sink,
    /// How many entries the plan buffer holds.
    room: u64,
    pub entries: Vec<Entry>,
    pub count: u64,
    pub rectangles: u64,
    pub tile_words: u64,
    pub hash: Fnv,
    /// A second hash, without image rows: equal for the untouched and the noted text.
    pub calls: u64,
    pub full: bool,
    /// The last call was a load that was refused: it has set its tile's size, which is no entry.
    pub refused_load: bool,
    /// It was refused for its span, and not for its start.
    pub refused_span: bool,
    pub bank_when_full: Option<Bank>,
    pub notes: Notes,
}

impl Plan {
    pub fn new(sink: Sink, room: u64) -> Self {
        Plan {
            sink,
            room,
            entries: Vec::new(),
            count: 0,
            rectangles: 0,
            tile_words: 0,
            hash: Fnv::new(),
            calls: 0,
            full: false,
            refused_load: false,
            refused_span: false,
            bank_when_full: None,
            notes: Notes {
                least_remain: i64::MAX,
                most_above: i64::MIN,
                ..Default::default()
            },
        }
    }

    pub fn image(&mut self, fmt: u8, siz: u8, width: u16, address: u64, bank: &Bank) {
        self.push(entry::image(fmt, siz, width, address), bank);
    }

    pub fn tile(&mut self, index: usize, bank: &Bank) {
        self.push(entry::tile(index, &bank[index]), bank);
    }

    pub fn size(&mut self, index: usize, bounds: [u16; 4], bank: &Bank) {
        self.push(entry::size(index, bounds), bank);
    }

    pub fn load(
        &mut self,
        index: usize,
        bounds: [u16; 4],
        write: TileWrite,
        read: (u64, u64),
        bank: &Bank,
    ) {
        if self.push(entry::load(index, bounds, &write, read), bank) {
            let words = write.rows as u64 * u64::from(write.line);
            self.tile_words = self.tile_words.max(words);
        }
    }

    /// The load in hand is refused; `started` says that its start has an address.
    pub fn refused(&mut self, started: bool) {
        self.refused_load = true;
        self.refused_span = started;
    }

    pub fn rectangle(&mut self, r: &TexRect, bank: &Bank) {
        if self.push(entry::rectangle(r, self.notes.image_row), bank) {
            self.rectangles += 1;
            if matches!(self.sink, Sink::Keep) {
                self.notes.strips.push(self.notes.strip());
            }
        }
    }

    /// Adds an entry if it has room, and keeps the bank as it stands after the last that has.
    fn push(&mut self, entry: Entry, bank: &Bank) -> bool {
        if self.count == self.room {
            self.full = true;
            return false;
        }
        self.hash.words(&entry);
        for (place, &word) in entry.iter().enumerate() {
            if (entry[0], place) != (RECTANGLE, 10) {
                self.calls = (self.calls.rotate_left(7) ^ word).wrapping_mul(0x9e37_79b9_7f4a_7c15);
            }
        }
        match &mut self.sink {
            Sink::Nothing => {}
            Sink::Keep => self.entries.push(entry),
            Sink::Print(out) => {
                let mut line = String::new();
                print_entry(&entry, &mut line);
                out.write_all(line.as_bytes()).expect("standard output");
            }
        }
        self.count += 1;
        if self.count == self.room {
            self.bank_when_full = Some(bank.clone());
        }
        true
    }
}

pub fn print_end(end: &End, out: &mut String) {
    writeln!(
        out,
        " 9{:8}{:8}{:8}{:8}",
        end.verdict, end.entries, end.rectangles, end.tile_words
    )
    .unwrap();
}

pub fn print_bank(bank: &Bank, out: &mut String) {
    for (index, tile) in bank.iter().enumerate() {
        write!(out, " T{index:8}").unwrap();
        for field in tile_fields(tile) {
            write!(out, "{field:8}").unwrap();
        }
        out.push('\n');
    }
}

pub fn hash_bank(bank: &Bank) -> u64 {
    let mut hash = Fnv::new();
    for tile in bank {
        hash.words(&tile_fields(tile));
    }
    hash.value()
}
