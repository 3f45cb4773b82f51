//! A plan as a table by strips: what was asked for, a row for each rectangle, and how it ended.

use crate::command::Failure;
use crate::fields::{address, counted, grouped, texels};
use crate::input::Subject;
use crate::io::{Io, Style};
use crate::pages;
use crate::study::capacity;
use std::ops::Range;
use visorlongan::{
    count, drift, Drift, End, Entry, Kind, Load, Mode, Object, Planner, Quarters, Rect, Request,
    Verdict,
};

/// The rectangles of a scaled plan, measured; there are at most 1,023.
#[derive(Default)]
pub struct Measured {
    pub drifts: Vec<Drift>,
    proved: bool,
}

impl Measured {
    pub fn of(request: &Request) -> Measured {
        if Mode::of(request.opcode) != Some(Mode::Scaled) {
            return Measured::default();
        }
        let mut words = vec![0; count(request).rectangles as usize * Drift::WORDS];
        let measured = drift(request, &mut words);
        Measured {
            proved: measured.proved,
            drifts: measured.collect(),
        }
    }

    /// The rectangle whose lines are the farthest from their place; the first of several.
    fn worst(&self) -> Option<&Drift> {
        let far = |drift: &&Drift| drift.distance.unsigned_abs();
        self.drifts.iter().rev().max_by_key(far)
    }
}

/// Prints the table as the plan goes, and answers how the plan ended.
pub fn print(subject: &Subject, io: &mut Io) -> Result<End, Failure> {
    let request = subject.request();
    let measured = Measured::of(&request);
    let mode = Mode::of(request.opcode).unwrap_or(Mode::Copy);
    let columns = columns(mode);
    let mut planner = Planner::new(&request);
    let (mut loads, mut strips) = (Loads::default(), 0);
    introduce(subject, io)?;
    for entry in planner.by_ref() {
        match entry {
            Entry::Tile(tile) if tile.index == 7 => loads.line = tile.line.into(),
            Entry::Load(load) => loads.add(&load),
            Entry::Rect(rect) => {
                if strips == 0 {
                    headings(columns, io)?;
                }
                let cells = match mode {
                    Mode::Copy => copy_cells(strips + 1, &rect, &loads, flipped(subject)),
                    Mode::Scaled => scaled_cells(measured.drifts.get(strips), &rect, &loads),
                };
                writeln!(io.out, "{}", row(columns, &cells))?;
                strips += 1;
                loads.clear();
            }
            Entry::Image(_) | Entry::Tile(_) | Entry::Size(_) => {}
        }
    }
    let end = planner.end().unwrap_or_else(|| count(&request));
    writeln!(io.out)?;
    conclude(subject, &end, &measured, io)?;
    Ok(end)
}

/// What the loads of a strip add up to.
#[derive(Default)]
struct Loads {
    /// The `line` of the tile that is loaded.
    line: u64,
    count: u64,
    rows: u64,
    /// The greatest rows x line of one of them, as an end counts them (10.2).
    words: u64,
    bytes: u64,
    first: Option<Load>,
}

impl Loads {
    fn add(&mut self, load: &Load) {
        self.count += 1;
        self.rows += load.rows;
        self.words = self.words.max(load.rows * self.line);
        self.bytes += load.length;
        self.first = self.first.or(Some(*load));
    }

    /// The tile keeps its line until it is set again.
    fn clear(&mut self) {
        *self = Loads {
            line: self.line,
            ..Loads::default()
        };
    }

    fn start(&self) -> String {
        self.first
            .map_or("none".to_string(), |load| address(load.start))
    }
}

/// A column: its heading, what stands under it, and its width.
type Column = (&'static str, &'static str, usize);

const COPY: &[Column] = &[
    ("strip", "number", 7),
    ("lines", "on screen", 11),
    ("columns", "on screen", 11),
    ("columns", "of image", 13),
    ("rows", "of image", 13),
    ("words", "of TMEM", 8),
    ("bytes", "read", 9),
    ("address", "first byte read", 19),
];

const SCALED: &[Column] = &[
    ("strip", "number", 7),
    ("lines", "on screen", 11),
    ("columns", "on screen", 11),
    ("first row", "of image", 10),
    ("drift", "1/1,024 row", 12),
    ("loads", "", 6),
    ("rows", "loaded", 7),
    ("words", "of TMEM", 8),
    ("bytes", "read", 9),
    ("address", "first byte read", 19),
];

fn columns(mode: Mode) -> &'static [Column] {
    match mode {
        Mode::Copy => COPY,
        Mode::Scaled => SCALED,
    }
}

fn row(columns: &[Column], cells: &[String]) -> String {
    let cell = |((.., width), text): (&Column, &String)| format!("{text:>width$}");
    columns.iter().zip(cells).map(cell).collect()
}

fn headings(columns: &[Column], io: &mut Io) -> Result<(), Failure> {
    let upper: Vec<String> = columns.iter().map(|column| column.0.to_string()).collect();
    let lower: Vec<String> = columns.iter().map(|column| column.1.to_string()).collect();
    let upper = io.styled(Style::Heading, &row(columns, &upper));
    let lower = io.styled(Style::Faint, &row(columns, &lower));
    writeln!(io.out, "\n{upper}\n{lower}")?;
    Ok(())
}

/// The first and the last of a range.
fn ends(range: &Range<i32>) -> String {
    match range.is_empty() {
        true => "none".to_string(),
        false => format!("{}..{}", range.start, range.end - 1),
    }
}

fn copy_cells(number: usize, rect: &Rect, loads: &Loads, flipped: bool) -> Vec<String> {
    let pixels = rect.pixels();
    // What is shown are the last columns of the load: it begins at a whole word.
    let last = loads.first.map_or(0, |load| i64::from(load.lrs / 4));
    let first = last + 1 - pixels.x.len() as i64;
    let (left, right) = if flipped {
        (last, first)
    } else {
        (first, last)
    };
    let last_row = rect.row + pixels.y.len().saturating_sub(1) as u64;
    vec![
        number.to_string(),
        ends(&pixels.y),
        ends(&pixels.x),
        format!("{left}..{right}"),
        format!("{}..{last_row}", rect.row),
        loads.words.to_string(),
        loads.bytes.to_string(),
        loads.start(),
    ]
}

fn scaled_cells(drift: Option<&Drift>, rect: &Rect, loads: &Loads) -> Vec<String> {
    let pixels = rect.pixels();
    let told = |number: Option<i64>| number.map_or("none".to_string(), |n| n.to_string());
    vec![
        told(drift.map(|drift| drift.strip)),
        ends(&pixels.y),
        ends(&pixels.x),
        rect.row.to_string(),
        told(drift.map(|drift| drift.distance)),
        loads.count.to_string(),
        loads.rows.to_string(),
        loads.words.to_string(),
        loads.bytes.to_string(),
        loads.start(),
    ]
}

fn object(subject: &Subject) -> Option<(Mode, Object)> {
    let mode = Mode::of(subject.opcode)?;
    Some((mode, Object::decode(&subject.object, mode).ok()?))
}

fn flipped(subject: &Subject) -> bool {
    object(subject).is_some_and(|(_, object)| object.image_flip & 1 != 0)
}

/// The request in people's units.
pub fn introduce(subject: &Subject, io: &mut Io) -> Result<(), Failure> {
    let (scissor, at) = (subject.scissor, address(subject.address));
    let scissor = format!(
        "scissor ({}, {}) to ({}, {})",
        scissor.ulx, scissor.uly, scissor.lrx, scissor.lry
    );
    let Some((mode, object)) = object(subject) else {
        let bytes = counted(subject.object.len() as u64, "byte", "bytes");
        let opcode = subject.opcode;
        writeln!(
            io.out,
            "opcode {opcode}, an object of {bytes}, image at {at}, {scissor}"
        )?;
        return Ok(());
    };
    let kind = io.styled(Style::Heading, &kind(subject, &object));
    let size = size(object.image_w, object.image_h);
    let texels = texels(object.image_fmt, object.image_siz);
    let (x, y) = (f64::from(object.image_x), f64::from(object.image_y));
    let flip = flip(mode, object.image_flip);
    writeln!(io.out, "{kind}")?;
    writeln!(
        io.out,
        "image {size} texels, {texels}, at {at}, shown from ({x}, {y}){flip}"
    )?;
    let size = self::size(object.frame_w, object.frame_h);
    let (x, y) = (f64::from(object.frame_x), f64::from(object.frame_y));
    writeln!(io.out, "frame {size} pixels at ({x}, {y}), {scissor}")?;
    Ok(())
}

fn size(width: Quarters, height: Quarters) -> String {
    format!("{} x {}", f64::from(width), f64::from(height))
}

fn flip(mode: Mode, image_flip: u16) -> &'static str {
    match (mode, image_flip) {
        (Mode::Copy, 2..) => ", flip above 1",
        (_, flip) if flip & 1 == 1 => ", flipped left and right",
        _ => "",
    }
}

/// Which of the two kinds of backgrounds it is, and what only that one has.
fn kind(subject: &Subject, object: &Object) -> String {
    match object.kind {
        Kind::Copy { tmem_h, .. } => {
            let rows = f64::from(tmem_h);
            let what = if rows == 1.0 { "row" } else { "rows" };
            format!("copy background, strips of up to {rows} {what}")
        }
        Kind::Scaled {
            scale_w,
            scale_h,
            image_y_orig,
        } => {
            let [across, down] = [scale_w, scale_h].map(|scale| grouped(scale.0));
            let origin = f64::from(image_y_orig);
            let filter = if subject.render_mode & 8 != 0 {
                ", bilinear filter"
            } else {
                ""
            };
            format!(
                "scaled background: a pixel is {across}/1,024 of a texel wide and {down}/1,024 \
                 high; origin at row {origin}{filter}"
            )
        }
    }
}

/// How the plan ended, in words.
pub fn conclude(
    subject: &Subject,
    end: &End,
    measured: &Measured,
    io: &mut Io,
) -> Result<(), Failure> {
    let counts = [
        counted(end.entries, "entry", "entries"),
        counted(end.rectangles, "rectangle", "rectangles"),
    ];
    writeln!(
        io.out,
        "{}{}",
        counts.join(", "),
        largest_load(subject, end)
    )?;
    if let Some(told) = drift_told(measured) {
        writeln!(io.out, "{told}")?;
    }
    if end.verdict == Verdict::Finished {
        let nothing = nothing_drawn(end);
        let told = verdict(end.verdict);
        writeln!(io.out, "{}{nothing}", io.styled(Style::Good, &told))?;
    } else {
        let told = format!("REFUSED, {}", stop(subject, end, measured));
        refused(end.verdict, &told, io)?;
    }
    Ok(())
}

/// Says what was refused by a verdict, and where more of that verdict is said.
pub fn refused(verdict: Verdict, told: &str, io: &mut Io) -> Result<(), Failure> {
    let number = verdict.number();
    writeln!(io.out, "{}", io.styled(Style::Bad, told))?;
    writeln!(io.out, "`visor explain {number}` says what to look at")?;
    Ok(())
}

/// A verdict's number, name and sentence.
pub fn verdict(verdict: Verdict) -> String {
    let (number, name) = (verdict.number(), pages::name(verdict));
    format!("verdict {number}, {name}: {verdict}")
}

/// The verdict of a plan that was refused, with the place where it stopped.
pub fn stop(subject: &Subject, end: &End, measured: &Measured) -> String {
    let (number, name) = (end.verdict.number(), pages::name(end.verdict));
    let (place, sentence) = (stopped(subject, end, measured), end.verdict.sentence());
    format!("verdict {number}, {name}, {place}: {sentence}")
}

fn largest_load(subject: &Subject, end: &End) -> String {
    match object(subject) {
        Some((mode, object)) if end.tile_words > 0 => {
            let capacity = capacity(mode, object.image_fmt, object.image_siz);
            let words = end.tile_words;
            format!("; the largest load fills {words} of {capacity} words of TMEM")
        }
        _ => String::new(),
    }
}

fn drift_told(measured: &Measured) -> Option<String> {
    let worst = measured.worst()?;
    let outside = measured
        .drifts
        .iter()
        .filter(|drift| !drift.is_near())
        .count();
    let [distance, behind, ahead] = [worst.distance, worst.behind, worst.ahead].map(grouped);
    let limits = match (measured.proved, outside) {
        (true, _) => "which are proved for this plan".to_string(),
        (false, 0) => "which are not proved for this plan; no strip leaves its own".to_string(),
        (false, n) => format!(
            "which are not proved for this plan; {} its own",
            counted(n as u64, "strip leaves", "strips leave")
        ),
    };
    let strip = worst.strip;
    Some(format!(
        "drift: at worst {distance}/1,024 of a row, in strip {strip} with limits {behind} and \
         {ahead}, {limits}"
    ))
}

/// Why a finished plan draws nothing.
fn nothing_drawn(end: &End) -> &'static str {
    match (end.entries, end.rectangles) {
        (0, _) => " Nothing of the frame is left to draw.",
        (_, 0) => " What is left of the frame is less than one line high.",
        _ => "",
    }
}

/// Where a refused plan stopped.
fn stopped(subject: &Subject, end: &End, measured: &Measured) -> String {
    let entries = counted(end.entries, "entry", "entries");
    let strip = match (
        end.entries,
        Mode::of(subject.opcode),
        measured.drifts.last(),
    ) {
        (0, ..) => return "before the first entry".to_string(),
        (_, Some(Mode::Scaled), Some(last)) => format!("behind strip {}", last.strip),
        (_, Some(Mode::Scaled), None) => "before the first rectangle".to_string(),
        _ => format!("in strip {}", grouped(end.rectangles as i64 + 1)),
    };
    format!("after {entries}, {strip}")
}
