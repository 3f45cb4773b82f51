//! What one cell of a copy background shows (Paper 8): the engine in the paper's words, and what the
//! entries of a plan show at the cell, held against an engine and against the load that it is read
//! from. No function of the archive is called.

use crate::cells::{self, covered, half, Area, Frame, CELL};
use crate::entry::{Entry, LOAD, RECTANGLE};
use crate::record::{Record, OBJECT_BYTES};
use crate::run::{decode, object_verdict, Settings};

/// What an engine answers of a cell: the number that the call returns, and the three words that it
/// leaves.
pub type Reply = [u64; 4];

pub const OUTSIDE: Reply = [0, 1, 0, 0];

fn texel([column, row]: [i64; 2]) -> Reply {
    [0, 0, column as u64, row as u64]
}

/// The numbers of an object and a scissor that the paper's sentences name, across and down.
#[derive(Clone, Copy)]
pub struct Engine {
    pub refused: Option<u64>,
    /// Cells of the clipped frame.
    pub cells: [i64; 2],
    /// Cells skipped on the left, and lines skipped at the top.
    pub skipped: [i64; 2],
    /// image_x / 32 and image_y / 32.
    pub start: [i64; 2],
    /// frame_w / 4.
    pub frame_columns: i64,
    /// The image's columns and rows.
    pub image: [i64; 2],
    pub flipped: bool,
}

/// "Refused: 2 to 5, in their order."
fn refused(record: &Record, object_bytes: usize) -> Option<u64> {
    if object_bytes < OBJECT_BYTES {
        return Some(2);
    }
    if record.scissor.iter().any(|&edge| edge > 1023) {
        return Some(3);
    }
    let object = decode(record, &Settings::default(), true).expect("an object of 40 bytes");
    object_verdict(&object, true)
}

impl Engine {
    pub fn of(record: &Record, object_bytes: usize) -> Engine {
        let frame = Frame::clipped(record);
        let part = |at: usize, divisor: u16| i64::from(half(record, at) / divisor);
        let frame_start = [4, 12].map(|at| i64::from(half(record, at) as i16));
        Engine {
            refused: refused(record, object_bytes),
            cells: frame.cells,
            skipped: [0, 1].map(|axis| (frame.corner[axis] - frame_start[axis]).div_euclid(CELL)),
            start: [part(0, 32), part(8, 32)],
            frame_columns: part(6, 4),
            image: [part(2, 4), part(10, 4)],
            flipped: half(record, 26) == 1,
        }
    }

    /// What the cell at this column and line of the clipped frame shows.
    pub fn answers(&self, cell: [u64; 2]) -> Reply {
        if let Some(verdict) = self.refused {
            return [0, 2, verdict, 0];
        }
        if (0..2).any(|axis| cell[axis] >= self.cells[axis] as u64) {
            return OUTSIDE;
        }
        let [column, line] = cell.map(|n| n as i64);
        let across = if self.flipped {
            self.start[0] + self.frame_columns - 1 - self.skipped[0] - column
        } else {
            self.start[0] + self.skipped[0] + column
        };
        let down = self.start[1] + self.skipped[1] + line;
        let [columns, rows] = self.image;
        texel([across.rem_euclid(columns), down.rem_euclid(rows)])
    }
}

/// A rectangle of a plan with the last load before it.
#[derive(Clone, Copy)]
pub struct Strip {
    /// The cells of the frame that the rectangle meets.
    pub cells: Area,
    pub uls: i64,
    /// The load's first column and row in the image.
    pub first: [i64; 2],
    /// Its last column and row.
    pub last: [i64; 2],
}

impl Strip {
    fn of(frame: &Frame, load: &Entry, rectangle: &Entry) -> Strip {
        let [first, last] = [[2, 3], [4, 5]].map(|bounds| bounds.map(|n| (load[n] / 4) as i64));
        Strip {
            cells: frame.met(&covered(rectangle)),
            uls: rectangle[6] as i64,
            first,
            last,
        }
    }

    /// The load's columns.
    pub fn columns(&self) -> i64 {
        self.last[0] - self.first[0] + 1
    }

    /// Whether a column and a row are among the load's.
    fn loaded(&self, texel: [i64; 2]) -> bool {
        (0..2).all(|axis| (self.first[axis]..=self.last[axis]).contains(&texel[axis]))
    }
}

/// The column and row that cell `i` of a rectangle's line `j` shows: "number uls / 32 + i of its
/// load: 0 is the load's first column, and counting down from it, −1 is the first column again, −2
/// the second. Its line j shows the load's first row plus j."
pub fn shows(strip: &Strip, [i, j]: [i64; 2]) -> [i64; 2] {
    let number = strip.uls.div_euclid(32) + i;
    let column = if number < 0 { -1 - number } else { number };
    [strip.first[0] + column, strip.first[1] + j]
}

/// The rectangles of a plan. The paper's sentence is not said of those left out: flipped ones with
/// loads of more than 1,024 columns, whose `uls` is cut to 16 bits.
pub struct Strips {
    pub compared: Vec<Strip>,
    pub left_out: Vec<Strip>,
}

/// The widest load of a flipped frame that is compared.
pub const WIDEST_LOAD: i64 = 1_024;

fn strips(record: &Record, entries: &[Entry]) -> Result<Strips, String> {
    let (frame, flipped) = (Frame::clipped(record), half(record, 26) == 1);
    let mut strips = Vec::new();
    let mut load = None;
    for (n, entry) in entries.iter().enumerate() {
        if entry[0] == LOAD {
            load = Some(entry);
        }
        if entry[0] == RECTANGLE {
            let no_load = || format!("entry {n}, a rectangle, has no load before it\n");
            strips.push(Strip::of(&frame, load.ok_or_else(no_load)?, entry));
        }
    }
    let cut = |strip: &Strip| flipped && strip.columns() > WIDEST_LOAD;
    let (left_out, compared) = strips.into_iter().partition(cut);
    Ok(Strips { compared, left_out })
}

/// A cell of the frame of which an engine answers something else than it shows.
pub struct Difference {
    cell: [i64; 2],
    shown: [i64; 2],
    answered: Reply,
}

impl Difference {
    pub fn text(&self) -> String {
        let ([i, j], [column, row], answered) = (self.cell, self.shown, self.answered);
        format!("cell ({i}, {j}) shows texel ({column}, {row}), and {answered:?} is answered\n")
    }
}

/// The cells of a rectangle of which the engine answers something else than the reading shows.
pub fn differences<'a>(
    strip: &'a Strip,
    reading: impl Fn(&Strip, [i64; 2]) -> [i64; 2] + 'a,
    engine: impl Fn([u64; 2]) -> Reply + 'a,
) -> impl Iterator<Item = Difference> + 'a {
    let [left, top] = strip.cells.from;
    strip.cells.points().filter_map(move |[x, y]| {
        let difference = Difference {
            cell: [x, y],
            shown: reading(strip, [x - left, y - top]),
            answered: engine([x as u64, y as u64]),
        };
        (difference.answered != texel(difference.shown)).then_some(difference)
    })
}

/// The first cell of a rectangle that shows a column or a row that its load does not have, as text.
/// Every cell is read: the columns of a rectangle may go down and then up again, and a reading may be
/// any function.
fn not_loaded(strip: &Strip, reading: impl Fn(&Strip, [i64; 2]) -> [i64; 2]) -> Option<String> {
    let [left, top] = strip.cells.from;
    let shown = |[x, y]: [i64; 2]| reading(strip, [x - left, y - top]);
    let mut cells = strip.cells.points();
    let cell = cells.find(|&cell| !strip.loaded(shown(cell)))?;
    let ([i, j], [column, row]) = (cell, shown(cell));
    let ([us, ut], [ls, lt]) = (strip.first, strip.last);
    Some(format!(
        "cell ({i}, {j}) shows texel ({column}, {row}) of a load of columns {us} to {ls} and rows \
         {ut} to {lt}\n"
    ))
}

/// The first cell of a rectangle of which the engine answers something else than the reading shows;
/// if there is none, the first that shows what its load does not have.
fn wrong(
    strip: &Strip,
    reading: impl Fn(&Strip, [i64; 2]) -> [i64; 2],
    engine: impl Fn([u64; 2]) -> Reply,
) -> Option<String> {
    let first = differences(strip, &reading, engine).next();
    match first {
        Some(difference) => Some(difference.text()),
        None => not_loaded(strip, reading),
    }
}

/// SPECIFICATION 16.4 on the entries of a finished copy plan: one rectangle meets each cell, the
/// engine answers of the cell what the reading shows, and that is a column and a row of the load.
pub fn cells_agree(
    record: &Record,
    entries: &[Entry],
    reading: impl Fn(&Strip, [i64; 2]) -> [i64; 2],
    engine: impl Fn([u64; 2]) -> Reply,
) -> Result<Strips, String> {
    cells::cells_once(record, entries)?;
    let strips = strips(record, entries)?;
    let mut compared = strips.compared.iter();
    match compared.find_map(|strip| wrong(strip, &reading, &engine)) {
        Some(text) => Err(text),
        None => Ok(strips),
    }
}
