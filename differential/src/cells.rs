//! What SPECIFICATION 7.12 and 7.13 say of a finished copy plan, counted on the Rust's own entries:
//! one rectangle meets each cell of the clipped frame and nothing else is covered, and each load
//! lies inside the image and fits the capacity. The frame, the image and the capacity are computed
//! here from the object's bytes and the scissor, by SPECIFICATION 3 and 7.2.
//!
//! Every finished copy plan is counted, however large. Rectangles are counted once for each block
//! that no side of any of them cuts, and in small frames at each unit and each cell as well.

use crate::entry::{Entry, LOAD, RECTANGLE, TILE};
use crate::record::{Record, COPY};
use crate::run::Answer;

/// Units of a cell, across or down.
pub const CELL: i64 = 4;
/// The widest frame there is, in cells.
const WIDEST: i64 = 1023;
/// A frame of so many cells is called large.
const LARGE: i64 = 100_000;
/// A frame is counted at each unit and each cell as well where its cells times its rectangles are no
/// more.
const FEW: i64 = 1_024;

/// What is counted, and how many 200,000 records show at least: about half of what seed 1 does.
pub const COUNTED: [(&str, u64); 15] = [
    ("plans", 20_000),
    ("of empty frames", 8_000),
    ("of flipped frames", 6_000),
    ("of frames with strips side by side", 5_000),
    ("of frames with strips one below another", 9_000),
    ("of frames whose left or top is no multiple of 4", 2_000),
    ("of frames 1,023 cells wide", 200),
    ("of frames of 100,000 cells or more", 200),
    (
        "of frames counted at each unit and each cell as well",
        4_000,
    ),
    ("rectangles", 400_000),
    (
        "cells, each met by one rectangle, and each of their 16 units covered once",
        200_000_000,
    ),
    ("loads, each inside its image and the capacity", 400_000),
    ("loads that fill a capacity of 512", 900),
    ("loads that fill a capacity of 256", 4_500),
    (
        "loads that read beyond a row's end to fill its last word",
        100_000,
    ),
];
pub type Counts = [u64; COUNTED.len()];

/// Places in `COUNTED`.
#[derive(Clone, Copy)]
pub enum Count {
    Plans,
    Empty,
    Flipped,
    Across,
    Down,
    Partial,
    Widest,
    Large,
    EachPoint,
    Rectangles,
    Cells,
    Loads,
    Fills512,
    Fills256,
    Beyond,
}

/// Units or cells, across and down: those from the first corner to before the second.
#[derive(Clone, Copy, Debug)]
pub struct Area {
    pub from: [i64; 2],
    pub to: [i64; 2],
}

impl Area {
    fn is_empty(&self) -> bool {
        (0..2).any(|axis| self.from[axis] >= self.to[axis])
    }

    /// How many points it has, which is not empty.
    pub fn number(&self) -> usize {
        let [across, down] = [0, 1].map(|axis| self.to[axis] - self.from[axis]);
        (across * down) as usize
    }

    fn has(&self, point: [i64; 2]) -> bool {
        (0..2).all(|axis| (self.from[axis]..self.to[axis]).contains(&point[axis]))
    }

    pub fn points(self) -> impl Iterator<Item = [i64; 2]> {
        let across = self.from[0]..self.to[0];
        (self.from[1]..self.to[1]).flat_map(move |y| across.clone().map(move |x| [x, y]))
    }

    /// A point of this area, which is not empty, that is not in the other: its first or its last.
    fn beyond(&self, other: &Area) -> Option<[i64; 2]> {
        let ends = [self.from, self.to.map(|end| end - 1)];
        ends.into_iter().find(|&point| !other.has(point))
    }
}

/// The units of a rectangle: its ends are inclusive and name cells (SPECIFICATION 7.9).
pub fn covered(rectangle: &Entry) -> Area {
    let [ulx, uly, lrx, lry] = [2, 3, 4, 5].map(|n| rectangle[n] as i64);
    Area {
        from: [ulx, uly],
        to: [lrx + CELL, lry + CELL],
    }
}

pub fn half(record: &Record, at: usize) -> u16 {
    u16::from_be_bytes([record.object[at], record.object[at + 1]])
}

/// The clipped frame.
pub struct Frame {
    /// `left` and `top`, in units.
    pub corner: [i64; 2],
    /// Its cells across and down: 0 where `width` or `height` is negative.
    pub cells: [i64; 2],
}

impl Frame {
    pub fn clipped(record: &Record) -> Frame {
        let mut frame = Frame {
            corner: [0; 2],
            cells: [0; 2],
        };
        // frame_x with frame_w behind it, and frame_y with frame_h.
        for (axis, at) in [4, 12].into_iter().enumerate() {
            let start = i64::from(half(record, at) as i16);
            let extent = i64::from(half(record, at + 2));
            let [low, high] = [axis, axis + 2].map(|n| i64::from(record.scissor[n]));
            let first = start.max(4 * low);
            let end = (start + extent).min(4 * high);
            frame.corner[axis] = first;
            frame.cells[axis] = (end - first).div_euclid(CELL).max(0);
        }
        frame
    }

    fn number(&self) -> i64 {
        self.cells[0] * self.cells[1]
    }

    fn all_cells(&self) -> Area {
        Area {
            from: [0; 2],
            to: self.cells,
        }
    }

    fn all_units(&self) -> Area {
        Area {
            from: self.corner,
            to: [0, 1].map(|axis| self.corner[axis] + CELL * self.cells[axis]),
        }
    }

    fn units_of(&self, cell: [i64; 2]) -> Area {
        let from = [0, 1].map(|axis| self.corner[axis] + CELL * cell[axis]);
        Area {
            from,
            to: from.map(|unit| unit + CELL),
        }
    }

    /// The cells that share a unit with an area that is not empty.
    pub fn met(&self, units: &Area) -> Area {
        let cell = |axis: usize, unit: i64| (unit - self.corner[axis]).div_euclid(CELL);
        Area {
            from: [0, 1].map(|axis| cell(axis, units.from[axis])),
            to: [0, 1].map(|axis| cell(axis, units.to[axis] - 1) + 1),
        }
    }
}

/// Where on one axis any of these areas begins or ends.
struct Cuts {
    cuts: Vec<i64>,
    /// Which cut it is, by its distance from the first.
    places: Vec<usize>,
}

impl Cuts {
    fn of(axis: usize, all: &Area, areas: &[Area]) -> Cuts {
        let first = all.from[axis];
        let mut is_cut = vec![false; (all.to[axis] - first + 1) as usize];
        for area in areas.iter().chain([all]) {
            is_cut[(area.from[axis] - first) as usize] = true;
            is_cut[(area.to[axis] - first) as usize] = true;
        }
        let mut cuts = Vec::new();
        let mut places = Vec::new();
        for (at, is_cut) in (first..).zip(is_cut) {
            places.push(cuts.len());
            cuts.extend(is_cut.then_some(at));
        }
        Cuts { cuts, places }
    }

    fn place(&self, cut: i64) -> usize {
        self.places[(cut - self.cuts[0]) as usize]
    }
}

/// The first point of `all` that is not in exactly one of the areas, and in how many it is. No area
/// reaches beyond `all`. Points with no cut between them are in the same areas.
fn not_once(all: &Area, areas: &[Area]) -> Option<([i64; 2], i64)> {
    let [across, down] = [0, 1].map(|axis| Cuts::of(axis, all, areas));
    let columns = across.cuts.len();
    // What areas that begin or end there add to every number further right and further down.
    let mut changes = vec![0; columns * down.cuts.len()];
    for Area { from, to } in areas {
        for (y, change) in [(from[1], 1), (to[1], -1)] {
            let row = columns * down.place(y);
            changes[row + across.place(from[0])] += change;
            changes[row + across.place(to[0])] -= change;
        }
    }
    let mut numbers = vec![0; columns];
    for (&y, changes) in down.cuts.iter().zip(changes.chunks_exact(columns)) {
        let mut sum = 0;
        for ((&x, change), number) in across.cuts.iter().zip(changes).zip(&mut numbers) {
            sum += change;
            *number += sum;
            if all.has([x, y]) && *number != 1 {
                return Some(([x, y], *number));
            }
        }
    }
    None
}

fn cell_met([i, j]: [i64; 2], number: i64) -> String {
    format!("cell ({i}, {j}) of the frame is met by {number} rectangles\n")
}

fn unit_covered([x, y]: [i64; 2], number: i64) -> String {
    format!("unit ({x}, {y}) of the frame is covered {number} times\n")
}

fn outside([x, y]: [i64; 2]) -> String {
    format!("unit ({x}, {y}), which is outside the frame, is covered\n")
}

/// The clipped frame of a record, and the units of each rectangle of its plan. No rectangle may be
/// empty, so that each is one of those that are counted.
fn shown(record: &Record, entries: &[Entry]) -> Result<(Frame, Vec<Area>), String> {
    let rectangles = entries.iter().filter(|entry| entry[0] == RECTANGLE);
    let rectangles: Vec<Area> = rectangles.map(covered).collect();
    match rectangles.iter().position(Area::is_empty) {
        Some(n) => Err(format!("rectangle {n} ends before it begins\n")),
        None => Ok((Frame::clipped(record), rectangles)),
    }
}

/// SPECIFICATION 7.12, counted for each block that no side of a rectangle cuts.
pub fn by_cuts(record: &Record, entries: &[Entry]) -> Result<(), String> {
    let (frame, rectangles) = shown(record, entries)?;
    let all_units = frame.all_units();
    if let Some(unit) = rectangles.iter().find_map(|r| r.beyond(&all_units)) {
        return Err(outside(unit));
    }
    let met: Vec<Area> = rectangles.iter().map(|r| frame.met(r)).collect();
    if let Some((cell, number)) = not_once(&frame.all_cells(), &met) {
        return Err(cell_met(cell, number));
    }
    match not_once(&all_units, &rectangles) {
        Some((unit, number)) => Err(unit_covered(unit, number)),
        None => Ok(()),
    }
}

/// SPECIFICATION 7.12 in its own words, at each unit and each cell.
pub fn by_points(record: &Record, entries: &[Entry]) -> Result<(), String> {
    let (frame, rectangles) = shown(record, entries)?;
    let all_units = frame.all_units();
    let mut covered = rectangles.iter().flat_map(|r| r.points());
    if let Some(unit) = covered.find(|&unit| !all_units.has(unit)) {
        return Err(outside(unit));
    }
    for cell in frame.all_cells().points() {
        let units = frame.units_of(cell);
        let meets = |r: &&Area| units.points().any(|unit| r.has(unit));
        let number = rectangles.iter().filter(meets).count() as i64;
        if number != 1 {
            return Err(cell_met(cell, number));
        }
    }
    for unit in all_units.points() {
        let number = rectangles.iter().filter(|r| r.has(unit)).count() as i64;
        if number != 1 {
            return Err(unit_covered(unit, number));
        }
    }
    Ok(())
}

/// Whether a frame is counted at each unit and each cell as well.
fn few_points(record: &Record, entries: &[Entry]) -> bool {
    let rectangles = entries.iter().filter(|entry| entry[0] == RECTANGLE).count();
    Frame::clipped(record).number() * rectangles as i64 <= FEW
}

/// SPECIFICATION 7.12 on the entries of a finished copy plan.
pub fn cells_once(record: &Record, entries: &[Entry]) -> Result<(), String> {
    by_cuts(record, entries)?;
    if few_points(record, entries) {
        by_points(record, entries)?;
    }
    Ok(())
}

/// The image of a copy object, and what its strips may take.
struct Image {
    columns: u64,
    rows: u64,
    /// Words of texture memory.
    capacity: u64,
    texels_per_word: u64,
}

impl Image {
    fn of(record: &Record) -> Image {
        let [fmt, siz] = [22, 23].map(|at| record.object[at]);
        Image {
            columns: u64::from(half(record, 2) / 4),
            rows: u64::from(half(record, 10) / 4),
            capacity: if fmt == 2 || siz == 3 { 256 } else { 512 },
            texels_per_word: 16 >> siz,
        }
    }
}

/// A load by its entry, in columns and rows of the image, both ends inclusive.
struct Load {
    columns: [u64; 2],
    rows: [u64; 2],
    /// Words that are read for each row.
    words: u64,
    /// That of tile 7; nothing where no entry has set it.
    line: Option<u64>,
}

fn loads(entries: &[Entry]) -> Vec<Load> {
    let mut line = None;
    let mut loads = Vec::new();
    for entry in entries {
        if entry[0] == TILE && entry[1] == 7 {
            line = Some(entry[4]);
        }
        if entry[0] == LOAD {
            let [uls, ult, lrs, lrt] = [2, 3, 4, 5].map(|n| entry[n] / 4);
            loads.push(Load {
                columns: [uls, lrs],
                rows: [ult, lrt],
                words: entry[6],
                line,
            });
        }
    }
    loads
}

impl Load {
    /// Line times rows, of rows that are in order.
    fn size(&self) -> Option<u64> {
        Some(self.line? * (self.rows[1] - self.rows[0] + 1))
    }

    /// The condition that fails, if one does.
    fn wrong(&self, image: &Image) -> Option<String> {
        let within = |[first, last]: [u64; 2], number: u64| first <= last && last < number;
        let ([us, ls], [ut, lt]) = (self.columns, self.rows);
        let (columns, rows, capacity) = (image.columns, image.rows, image.capacity);
        if !within(self.columns, columns) {
            return Some(format!("columns {us} to {ls} of {columns}"));
        }
        if !within(self.rows, rows) {
            return Some(format!("rows {ut} to {lt} of {rows}"));
        }
        match self.size() {
            None => Some("no line of tile 7".to_string()),
            Some(size) if size > capacity => Some(format!("{size} words of {capacity}")),
            Some(_) => None,
        }
    }

    fn fills(&self, capacity: u64, image: &Image) -> bool {
        image.capacity == capacity && self.size() == Some(capacity)
    }

    fn reads_beyond(&self, image: &Image) -> bool {
        self.columns[0] + self.words * image.texels_per_word > image.columns
    }
}

/// SPECIFICATION 7.13 on the entries of a finished copy plan. Nothing is asked of the bytes that
/// fill a row's last word.
pub fn loads_inside(record: &Record, entries: &[Entry]) -> Result<(), String> {
    let image = Image::of(record);
    for (n, load) in loads(entries).iter().enumerate() {
        if let Some(wrong) = load.wrong(&image) {
            return Err(format!("load {n} has {wrong}\n"));
        }
    }
    Ok(())
}

/// Whether a plan is one that the two statements speak of.
pub fn finished_copy(record: &Record, answer: &Answer) -> bool {
    record.opcode == COPY && answer.end.verdict == 0
}

/// A record's plan held against the two statements, and counted, if it is a finished copy plan.
pub fn counted(record: &Record, answer: &Answer, counts: &mut Counts) -> Result<(), String> {
    if !finished_copy(record, answer) {
        return Ok(());
    }
    let entries = &answer.plan.entries;
    cells_once(record, entries)?;
    loads_inside(record, entries)?;
    let (frame, rectangles) = shown(record, entries)?;
    let mut add = |count: Count, number: u64| counts[count as usize] += number;
    add(Count::Plans, 1);
    if frame.number() == 0 {
        add(Count::Empty, 1);
        return Ok(());
    }
    let differ = |axis: usize| {
        let mut pairs = rectangles.windows(2);
        pairs.any(|pair| pair[0].from[axis] != pair[1].from[axis])
    };
    let partial = frame.corner.iter().any(|unit| unit % CELL != 0);
    for (count, holds) in [
        (Count::Flipped, half(record, 26) == 1),
        (Count::Across, differ(0)),
        (Count::Down, differ(1)),
        (Count::Partial, partial),
        (Count::Widest, frame.cells[0] == WIDEST),
        (Count::Large, frame.number() >= LARGE),
        (Count::EachPoint, few_points(record, entries)),
    ] {
        add(count, u64::from(holds));
    }
    add(Count::Rectangles, rectangles.len() as u64);
    add(Count::Cells, frame.number() as u64);
    count_loads(record, entries, counts);
    Ok(())
}

fn count_loads(record: &Record, entries: &[Entry], counts: &mut Counts) {
    let image = Image::of(record);
    for load in loads(entries) {
        for (count, holds) in [
            (Count::Loads, true),
            (Count::Fills512, load.fills(512, &image)),
            (Count::Fills256, load.fills(256, &image)),
            (Count::Beyond, load.reads_beyond(&image)),
        ] {
            counts[count as usize] += u64::from(holds);
        }
    }
}
