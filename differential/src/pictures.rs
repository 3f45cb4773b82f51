//! Copy objects of random pictures: what `visor_write_copy` answers and writes, held against
//! SPECIFICATION 15.1 and 15.2 in the words below, and the plans of what it wrote, held against the
//! Rust's.

use crate::case::Case;
use crate::guarded::Buffers;
use crate::hle::mem::ObjBg;
use crate::plan::End;
use crate::random::Random;
use crate::record::{Object, Record, COPY, OBJECT_BYTES};
use crate::run::Answer;
use crate::stepped::Planned;
use crate::{cells, compare, describe, entry, explain, generate, hex, proved, sampled, Tally};

/// One picture comes with so many records.
pub const EVERY: u64 = 16;

/// What is counted, and how many 200,000 records show at least: of loads that are left out about
/// half of what seed 1 does.
pub const COUNTED: [(&str, u64); 17] = [
    ("tried", 1),
    ("refused by 2: a buffer under 40 bytes", 1),
    ("refused by 4: fmt above 4 or siz above 3", 1),
    ("refused by 11: a side of 0 or above 16,383 texels", 1),
    ("refused by 11: a line above the capacity", 1),
    ("written", 1),
    ("written with a line of the whole capacity", 1),
    ("plans of the frame as written, none refused by 7", 1),
    (
        "plans of later choices of frame, start and flip, none refused by 7",
        1,
    ),
    ("rectangles of these choices", 1),
    ("plans with one strip row more, all refused by 7", 1),
    ("entries of all these plans", 1),
    (
        "finished ones of all these plans, whose cells and loads are counted",
        1,
    ),
    (
        "cells of these, each answered as its rectangle and load show it, from a column and row of \
         that load",
        1,
    ),
    (
        "flipped loads of more than 1,024 columns of these plans, left out",
        300,
    ),
    ("cells of these loads", 350_000),
    ("of these answered otherwise than shown", 350_000),
];
pub type Counts = [u64; COUNTED.len()];

/// Places in `COUNTED`.
#[derive(Clone, Copy)]
enum Count {
    Tried,
    Short,
    Format,
    Side,
    Line,
    Written,
    Widest,
    AsWritten,
    Later,
    LaterRectangles,
    RowMore,
    Entries,
    Finished,
    Sampled,
    LeftOut,
    LeftOutCells,
    Otherwise,
}

/// What is counted of a picture's plans as of those of a record.
const OF_CELLS: [(Count, sampled::Count); 4] = [
    (Count::Sampled, sampled::Count::Cells),
    (Count::LeftOut, sampled::Count::LeftOut),
    (Count::LeftOutCells, sampled::Count::LeftOutCells),
    (Count::Otherwise, sampled::Count::Otherwise),
];

/// The longest side, in texels: four times as many units still fit 16 bits.
const LONGEST: u64 = 16_383;
/// Texels of one word of a line, by siz. Those of 32 bits have their other half in the upper half of
/// texture memory, where it takes no word of the line.
const TEXELS: [u64; 4] = [16, 8, 4, 4];
/// The widest scissor that is taken.
const WHOLE_SCREEN: [u16; 4] = [0, 0, 1023, 1023];
/// Later choices for each picture that is written.
const LATER: u64 = 2;

/// What the writer is told.
#[derive(Clone, Copy, Debug, PartialEq)]
struct Picture {
    width: u64,
    height: u64,
    fmt: u64,
    siz: u64,
    pointer: u32,
}

impl Picture {
    fn random(random: &mut Random) -> Picture {
        let mut picture = Picture {
            width: 0,
            height: 0,
            fmt: number_below(random, 5),
            siz: number_below(random, 4),
            pointer: random.next() as u32,
        };
        picture.width = width(random, picture.capacity() * picture.texels());
        picture.height = height(random, picture.rows().max(1));
        picture
    }

    /// Words that a strip may take.
    fn capacity(&self) -> u64 {
        if self.fmt == 2 || self.siz == 3 {
            256
        } else {
            512
        }
    }

    /// Texels of a word; where siz is refused, what the other numbers are drawn for.
    fn texels(&self) -> u64 {
        TEXELS.get(self.siz as usize).copied().unwrap_or(4)
    }

    /// Words of a row of the full width.
    fn line(&self) -> u64 {
        self.width.div_ceil(self.texels())
    }

    /// Rows of a strip of the full width.
    fn rows(&self) -> u64 {
        self.capacity() / self.line().max(1)
    }

    /// The object with strips of so many rows.
    fn object(&self, rows: u64) -> Object {
        let product = 4 * rows * self.line();
        Object {
            image_w: 4 * self.width as u16,
            frame_w: 4 * self.width as u16,
            image_h: 4 * self.height as u16,
            frame_h: 4 * self.height as u16,
            pointer: self.pointer,
            load: 0xfff4,
            fmt: self.fmt as u8,
            siz: self.siz as u8,
            tail: [
                0,
                4 * rows as u16,
                product as u16,
                0,
                self.line() as u16,
                (product >> 16) as u16,
            ],
            ..Default::default()
        }
    }

    /// The object that a buffer of so many bytes gets, or the number of the refusal.
    fn expected(&self, room: usize) -> Result<Object, (u64, Count)> {
        let sides = 1..=LONGEST;
        if room < OBJECT_BYTES {
            Err((2, Count::Short))
        } else if self.fmt > 4 || self.siz > 3 {
            Err((4, Count::Format))
        } else if !sides.contains(&self.width) || !sides.contains(&self.height) {
            Err((11, Count::Side))
        } else if self.line() > self.capacity() {
            Err((11, Count::Line))
        } else {
            Ok(self.object(self.rows()))
        }
    }

    /// Whether strips of one row more must be refused: the picture has that many rows, and the screen
    /// shows all of it.
    fn refused_with_a_row_more(&self) -> bool {
        self.height > self.rows() && self.width <= 1023 && self.height <= 1023
    }

    /// The picture with a bit of one number cleared, in every way that there is.
    fn simpler(self) -> impl Iterator<Item = Picture> {
        let cleared = move |bit: u32| {
            let rest = !(1u64 << bit);
            let mut pictures = [self; 5];
            pictures[0].width &= rest;
            pictures[1].height &= rest;
            pictures[2].fmt &= rest;
            pictures[3].siz &= rest;
            pictures[4].pointer &= rest as u32;
            pictures
        };
        let all = (0..u64::BITS).rev().flat_map(cleared);
        all.filter(move |picture| *picture != self)
    }
}

/// A format or a size; now and then one that is refused, some of which have low bits that are not.
fn number_below(random: &mut Random, limit: u64) -> u64 {
    if random.once_in(12) {
        let high = random.pick(&[1 << 8, 1 << 16, 1 << 32, 1 << 63]);
        return random.pick(&[limit, limit + 1, 255, high, high + 1, u64::MAX]);
    }
    random.below(limit)
}

/// Sides that are refused; some have low bits, or units modulo 2^64, that are not.
const NO_SIDE: [u64; 8] = [
    0,
    LONGEST + 1,
    LONGEST + 2,
    (1 << 16) + 64,
    (1 << 32) + 64,
    (1 << 62) + 64,
    1 << 63,
    u64::MAX,
];

/// A width, where lines of so many texels still fit.
fn width(random: &mut Random, widest: u64) -> u64 {
    match random.below(12) {
        0 => random.pick(&NO_SIDE),
        1 => random.pick(&[1, widest - 1, widest, widest + 1]),
        2 => random.pick(&[1023, 1024, LONGEST - 1, LONGEST]),
        3 => 1 + random.below(LONGEST),
        4 => 1 + random.below(widest),
        5 | 6 => 4 * (1 + random.below(255)) + random.below(3) - 1,
        7 | 8 => 1 + random.below(16),
        _ => 1 + random.below(1023),
    }
}

/// A height, where a strip has so many rows. Few are so tall that the plan has hundreds of strips.
fn height(random: &mut Random, rows: u64) -> u64 {
    match random.below(16) {
        0 => random.pick(&NO_SIDE),
        1 => random.pick(&[1, 1023, 1024, LONGEST]),
        2 if random.once_in(2) => 1 + random.below(LONGEST),
        2..=4 => rows,
        5..=7 => rows + 1,
        8..=10 => rows * (2 + random.below(7)) + random.below(3) - 1,
        _ => 1 + random.below(4 * rows),
    }
}

/// Bytes before and after the writer's buffer.
const GUARD: usize = 16;

/// A call of the writer.
#[derive(Clone)]
struct Call {
    picture: Picture,
    /// What stands in the buffer and around it.
    before: Vec<u8>,
}

impl Call {
    fn random(random: &mut Random) -> Call {
        let room = match random.below(24) {
            0 => random.pick(&[0, OBJECT_BYTES - 1]),
            1 => random.below(OBJECT_BYTES as u64) as usize,
            _ => random.pick(&[OBJECT_BYTES, OBJECT_BYTES + 1, 100]),
        };
        Call {
            picture: Picture::random(random),
            before: (0..room + 2 * GUARD).map(|_| random.next() as u8).collect(),
        }
    }

    fn room(&self) -> usize {
        self.before.len() - 2 * GUARD
    }

    fn expected(&self) -> Result<Object, (u64, Count)> {
        self.picture.expected(self.room())
    }

    /// What the writer answers and leaves, held against what it should.
    fn written(&self) -> Result<(), String> {
        let (mut should, mut is) = (self.before.clone(), self.before.clone());
        let number = match self.expected() {
            Ok(object) => {
                should[GUARD..GUARD + OBJECT_BYTES].copy_from_slice(&object.to_bytes());
                0
            }
            Err((number, _)) => number,
        };
        let out = &mut is[GUARD..GUARD + self.room()];
        let p = self.picture;
        let status = proved::write_copy(p.width, p.height, p.fmt, p.siz, p.pointer, out);
        if status == number && is == should {
            return Ok(());
        }
        let [before, should, is] = [&self.before, &should, &is].map(|bytes| hex(bytes));
        let call = self.described();
        Err(format!(
            "{call}answer {status}, should be {number}; the buffer with {GUARD} bytes around it:\n\
             before    {before}\nshould be {should}\nis        {is}\n"
        ))
    }

    /// The call for a picture made simpler as long as some difference stays.
    fn reduced(&self) -> Call {
        let simpler = |call: &Call| {
            let pictures = call.picture.simpler();
            let mut calls = pictures.map(|picture| Call {
                picture,
                ..call.clone()
            });
            calls.find(|call| call.written().is_err())
        };
        let mut least = self.clone();
        while let Some(call) = simpler(&least) {
            least = call;
        }
        least
    }

    /// A difference, and that of the call made simpler.
    fn explained(&self, text: &str) -> String {
        let again = self.reduced().written().err().unwrap_or_default();
        format!("{text}reduced:\n{again}")
    }

    fn described(&self) -> String {
        format!("{:?} into {} bytes\n", self.picture, self.room())
    }
}

/// The fields that a copy object decodes to.
fn fields(object: &Object) -> ObjBg {
    let [tmem_w, tmem_h, tmem_load_sh, tmem_load_th, tmem_size_w, tmem_size] = object.tail;
    ObjBg {
        image_w: object.image_w,
        frame_w: object.frame_w,
        image_h: object.image_h,
        frame_h: object.frame_h,
        image_ptr: object.pointer.into(),
        image_load: object.load,
        image_fmt: object.fmt,
        image_siz: object.siz,
        tmem_w,
        tmem_h,
        tmem_load_sh,
        tmem_load_th,
        tmem_size_w,
        tmem_size,
        ..Default::default()
    }
}

/// The plans of a picture's object, with what they are compared in.
struct Plans<'a> {
    random: &'a mut Random,
    beside: &'a Planned,
    buffers: &'a mut Buffers,
    counts: &'a mut Counts,
}

impl Plans<'_> {
    /// A copy record, compared as any other; the Rust's answer, which the archive's then equals, must
    /// be as SPECIFICATION 15.3 says.
    fn plan(
        &mut self,
        count: Count,
        record: Record,
        should: impl Fn(&Answer) -> bool,
    ) -> Result<End, String> {
        let record = Record {
            opcode: COPY,
            ..record
        };
        let case = Case::drawn(self.random, record);
        let mut tally = Tally::default();
        let answer = compare(&case, self.beside, self.buffers, &mut tally);
        let answer = answer.map_err(|text| explain(&case, self.beside, &text))?;
        if !should(&answer) {
            let (what, _) = COUNTED[count as usize];
            let (end, object) = (answer.end, answer.object);
            let text = format!("against \"{what}\": the Rust has {end:?}, {object:?}\n");
            return Err(describe(&case, &text));
        }
        self.counts[count as usize] += 1;
        self.counts[Count::Entries as usize] += answer.end.entries;
        self.counts[Count::Finished as usize] += tally.cells[cells::Count::Plans as usize];
        for (mine, of_cells) in OF_CELLS {
            self.counts[mine as usize] += tally.sampled[of_cells as usize];
        }
        Ok(answer.end)
    }

    /// The frame as it is written: the object decodes to the fields and passes the checks, and under
    /// another scissor its plan is not refused by 7 either.
    fn as_written(&mut self, object: &Object) -> Result<(), String> {
        let passes = |answer: &Answer| {
            let decoded = answer.object == Some(fields(object));
            decoded && ![1, 2, 3, 4, 5, 7].contains(&answer.end.verdict)
        };
        let scissor = generate::scissor(self.random);
        let record = generate::unplaced(self.random, object, WHOLE_SCREEN);
        self.plan(Count::AsWritten, record, passes)?;
        let record = generate::unplaced(self.random, object, scissor);
        self.plan(Count::AsWritten, record, |answer| answer.end.verdict != 7)?;
        Ok(())
    }

    fn later(&mut self, object: &Object) -> Result<(), String> {
        for _ in 0..LATER {
            let record = generate::chosen_later(self.random, *object);
            let end = self.plan(Count::Later, record, |answer| answer.end.verdict != 7)?;
            self.counts[Count::LaterRectangles as usize] += end.rectangles;
        }
        Ok(())
    }

    /// The frame as it is written, with strips of one row more: refused at its first strip.
    fn row_more(&mut self, picture: &Picture) -> Result<End, String> {
        let object = picture.object(picture.rows() + 1);
        let record = generate::unplaced(self.random, &object, WHOLE_SCREEN);
        let refused = |answer: &Answer| {
            answer.end.verdict == 7 && answer.plan.entries.iter().map(|e| e[0]).eq([entry::IMAGE])
        };
        self.plan(Count::RowMore, record, refused)
    }

    fn all(&mut self, picture: &Picture, object: &Object) -> Result<(), String> {
        self.as_written(object)?;
        self.later(object)?;
        if picture.refused_with_a_row_more() {
            self.row_more(picture)?;
        }
        Ok(())
    }
}

/// A random picture written, and the plans of what was written; the first difference, as text.
pub fn tried(
    random: &mut Random,
    beside: &Planned,
    buffers: &mut Buffers,
    counts: &mut Counts,
) -> Result<(), String> {
    let call = Call::random(random);
    call.written().map_err(|text| call.explained(&text))?;
    counts[Count::Tried as usize] += 1;
    let object = match call.expected() {
        Ok(object) => object,
        Err((_, refused)) => {
            counts[refused as usize] += 1;
            return Ok(());
        }
    };
    let picture = &call.picture;
    counts[Count::Written as usize] += 1;
    counts[Count::Widest as usize] += u64::from(picture.line() == picture.capacity());
    let mut plans = Plans {
        random,
        beside,
        buffers,
        counts,
    };
    let compared = plans.all(picture, &object);
    compared.map_err(|text| call.described() + &text)
}
