//! Plans by their pixels: the example's loop draws them on a small machine, and each pixel shows the
//! texel that the engine for single cells says, or a row within the limits on drift. Copy plans also
//! by their entries alone: each cell of the clipped frame is met once and shows by its rectangle and
//! load what the engine says, and loads lie inside the image.

#[allow(dead_code)]
#[path = "../examples/fast3d.rs"]
mod fast3d;
mod random;
#[allow(dead_code)]
#[path = "../visor/reading.rs"]
mod reading;

use fast3d::machine::Machine;
use fast3d::{bg_1cyc, bg_copy, Ctx};
use random::Random;
use reading::{columns, is_too_wide, Reading};
use std::ops::Range;
use visorlongan::{
    sample, Bank, Buffer, Entry, Kind, Load, Mode, Object, Quarters, Rect, Request, Sample,
    Scissor, SetTile, Verdict,
};

const ADDRESS: u64 = 1 << 20;

/// Fields of two bytes by their offsets, as the object has them.
fn object(fields: &[(usize, i64)], fmt: u8, siz: u8) -> [u8; 40] {
    let mut bytes = [0; 40];
    for &(at, number) in fields {
        bytes[at..at + 2].copy_from_slice(&(number as u16).to_be_bytes());
    }
    bytes[22..24].copy_from_slice(&[fmt, siz]);
    bytes
}

fn decoded(object: &[u8], mode: Mode) -> Object {
    Object::decode(object, mode).expect("40 bytes")
}

/// The half bytes before a texel of the image, by column and row; a row's bytes are whole ones.
fn texel(columns: u64, siz: u8, column: u64, row: u64) -> u64 {
    let stride = (columns << siz) / 2;
    2 * (ADDRESS + stride * row) + (column << siz)
}

// ---- copied plans

/// The words of texture memory that one load may fill.
fn capacity(fmt: u8, siz: u8) -> i64 {
    if fmt == 2 || siz == 3 {
        256
    } else {
        512
    }
}

/// Cells that are not drawn once and with the texel that the engine says, and pixels drawn elsewhere.
/// What stands of a plan that was refused may leave cells out.
fn copy_faults(machine: &Machine, copied: &Copied) -> usize {
    let [left, top, ..] = copied.frame().map(|number| number.div_euclid(4));
    let object = &copied.object;
    let columns = object.image_w.whole() as u64;
    let (mut faults, mut inside) = (machine.outside, 0);
    for ([cell, line], [column, row]) in copied.cells() {
        let pixel = machine.pixel((left + cell) as i32, (top + line) as i32);
        let right = match pixel.drawn {
            0 => !copied.finished,
            1 => pixel.shows == Some(texel(columns, object.image_siz, column, row)),
            _ => false,
        };
        faults += usize::from(!right);
        inside += usize::from(pixel.drawn > 0);
    }
    let drawn = machine.pixels().filter(|(.., pixel)| pixel.drawn > 0);
    faults + drawn.count() - inside
}

/// The texels of a row that one word of a tile's line has room for.
fn per_word(siz: u8) -> i64 {
    if siz == 3 {
        4
    } else {
        16 >> siz
    }
}

/// An object whose strips mostly fit texture memory; one in fifty is as wide as the screen.
fn random_copy(r: &mut Random) -> ([u8; 40], Scissor) {
    let wide = r.once_in(50);
    let (fmt, siz) = (r.from(0, 4), if wide { 0 } else { r.from(0, 3) });
    let (fmt, siz) = (fmt as u8, siz as u8);
    let columns = if wide {
        r.from(900, 1_100)
    } else {
        r.from(1, 200)
    };
    let fits = (capacity(fmt, siz) / (columns / per_word(siz) + 2)).max(1);
    let rows = if r.once_in(6) {
        r.from(1, 200)
    } else {
        r.from(1, fits)
    };
    let tmem_h = 4 * rows + r.from(0, 3);
    let size_w = r.from(1, 2_000);
    let product = tmem_h * size_w;
    let (frame_x, frame_w) = if wide {
        (r.from(-20, 20), 4_092)
    } else {
        (r.from(-200, 200), r.from(1, 500))
    };
    let fields = [
        (0, r.from(0, 8_000)),
        (2, columns * 4 + r.from(0, 3)),
        (4, frame_x),
        (6, frame_w),
        (8, r.from(0, 8_000)),
        (10, r.from(4, 400)),
        (12, r.from(-100, 100)),
        (14, if wide { r.from(1, 16) } else { r.from(1, 400) }),
        (20, 0xfff4),
        (26, r.from(0, 1)),
        (30, tmem_h),
        (32, product & 0xffff),
        (36, size_w),
        (38, product >> 16),
    ];
    let right = if wide { 1_023 } else { r.from(20, 160) };
    let [ulx, uly, lrx, lry] = [r.from(0, 10), r.from(0, 10), right, r.from(10, 120)];
    let scissor = Scissor::new(ulx as i32, uly as i32, lrx as i32, lry as i32);
    (object(&fields, fmt, siz), scissor)
}

/// What is rare among those: strips that fill texture memory, or flipped ones of more than 1,024
/// columns.
fn rare_copy(r: &mut Random) -> ([u8; 40], Scissor) {
    let wide = r.once_in(2);
    let (fmt, siz) = (r.from(0, 4), if wide { 0 } else { r.from(0, 3) });
    let (fmt, siz) = (fmt as u8, siz as u8);
    let line = if wide { 66 } else { 16 << r.from(0, 2) };
    let rows = capacity(fmt, siz) / line;
    let fields = [
        (0, r.from(0, 1_100)),
        (2, 4 * line * per_word(siz)),
        (4, r.from(-8, 8)),
        (6, 4_092),
        (8, r.from(0, 8_000)),
        (10, 8 * rows),
        (14, 240),
        (20, 0xfff4),
        (26, if wide { 1 } else { r.from(0, 1) }),
        (30, 4 * rows),
        (32, 4 * rows),
        (36, 1),
    ];
    (object(&fields, fmt, siz), Scissor::new(0, 0, 1_023, 60))
}

/// A copied background with its plan, which is finished or has a strip that is too big.
struct Copied {
    bytes: [u8; 40],
    scissor: Scissor,
    object: Object,
    entries: Vec<Entry>,
    finished: bool,
}

impl Copied {
    fn of((bytes, scissor): ([u8; 40], Scissor)) -> Copied {
        let mut buffer = Buffer::new();
        let request = Request::copy(&bytes, scissor, ADDRESS);
        let plan = buffer.plan(&request, &mut Bank::default());
        Copied {
            bytes,
            scissor,
            object: decoded(&bytes, Mode::Copy),
            entries: plan.entries().collect(),
            finished: match plan.end.verdict {
                Verdict::Finished => true,
                Verdict::TooBig => false,
                other => panic!("{other:?} of {bytes:?}"),
            },
        }
    }

    /// The clipped frame: its left and top in quarters of a pixel, and its cells across and down.
    fn frame(&self) -> [i64; 4] {
        let (object, s) = (&self.object, self.scissor);
        let reach = |from: i32, length: i32, low: i32, high: i32| {
            let first = from.max(low * 4);
            let end = (from + length).min(high * 4);
            [first.into(), i64::from((end - first) / 4).max(0)]
        };
        let [left, width] = reach(object.frame_x.0, object.frame_w.0, s.ulx, s.lrx);
        let [top, height] = reach(object.frame_y.0, object.frame_h.0, s.uly, s.lry);
        [left, top, width, height]
    }

    /// What the engine says of a cell of the clipped frame.
    fn sampled(&self, cell: i64, line: i64) -> Sample {
        sample(&self.bytes, self.scissor, cell as u64, line as u64)
    }

    /// Each cell that the engine has, line by line, with the image's column and row that it shows.
    fn cells(&self) -> impl Iterator<Item = ([i64; 2], [u64; 2])> + '_ {
        let shown = |cell, line| match self.sampled(cell, line) {
            Sample::Texel { column, row } => Some(([cell, line], [column, row])),
            Sample::Outside => None,
            Sample::Refused(verdict) => panic!("{verdict:?} of {:?}", self.bytes),
        };
        let lines = (0..).take_while(move |line| shown(0, *line).is_some());
        lines.flat_map(move |line| (0..).map_while(move |cell| shown(cell, line)))
    }

    fn rects(&self) -> impl Iterator<Item = Rect> + '_ {
        self.entries.iter().filter_map(|entry| match entry {
            Entry::Rect(rect) => Some(*rect),
            _ => None,
        })
    }

    /// The loads, each with the line that the entries before it have given its tile.
    fn loads(&self) -> impl Iterator<Item = (Load, u16)> + '_ {
        let mut lines = [0; 8];
        self.entries.iter().filter_map(move |entry| match entry {
            Entry::Tile(tile) => {
                lines[usize::from(tile.index)] = tile.line;
                None
            }
            Entry::Load(load) => Some((*load, lines[usize::from(load.index)])),
            _ => None,
        })
    }

    /// The rectangles, each with the load before it.
    fn readings(&self) -> impl Iterator<Item = Reading> + '_ {
        let mut last = None;
        self.entries.iter().filter_map(move |entry| match entry {
            Entry::Load(load) => {
                last = Some(*load);
                None
            }
            Entry::Rect(rect) => Some(Reading {
                load: last.expect("a load before each rectangle"),
                rect: *rect,
            }),
            _ => None,
        })
    }

    /// Whether it has a load of which nothing is claimed: what that shows is not the engine's.
    fn too_wide(&self) -> bool {
        self.loads()
            .any(|(load, _)| is_too_wide(&self.object, &load))
    }
}

#[test]
fn copied_pixels_are_the_engine_s() {
    let mut r = Random(1);
    let (mut finished, mut stopped, mut wide, mut drawn) = (0, 0, 0, 0);
    let mut kinds = [[0; 4]; 5];
    while finished < 4_000 {
        let copied = Copied::of(random_copy(&mut r));
        if copied.too_wide() {
            wide += 1;
            continue;
        }
        let (bytes, scissor) = (&copied.bytes, copied.scissor);
        let mut cx = Ctx::new(1_024, 128);
        let whole = bg_copy(bytes, scissor, ADDRESS, &mut cx).is_ok();
        assert_eq!(whole, copied.finished);
        let faults = copy_faults(&cx.rdp, &copied);
        assert_eq!(faults, 0, "{bytes:?} {scissor:?}");
        drawn += cx.rdp.pixels().filter(|(.., p)| p.drawn > 0).count();
        let object = copied.object;
        kinds[usize::from(object.image_fmt)][usize::from(object.image_siz)] += 1;
        finished += usize::from(whole);
        stopped += usize::from(!whole);
    }
    println!("{finished} finished and {stopped} stopped copy plans, {drawn} pixels; {wide} with a wide flipped load left out");
    assert!(kinds.iter().flatten().all(|count| *count > 50), "{kinds:?}");
    assert!(
        stopped > 30 && wide > 0 && drawn > 4_000_000,
        "{stopped} {wide} {drawn}"
    );
}

// ---- copied plans by their entries

/// How many rectangles meet each cell of a clipped frame, and how many cover each of its unit
/// squares, which are a quarter wide and high.
struct Met {
    frame: [i64; 4],
    cells: Vec<u32>,
    squares: Vec<u32>,
    /// The unit squares that are covered outside the frame.
    elsewhere: i64,
}

impl Met {
    fn of(frame: [i64; 4], rects: impl Iterator<Item = Rect>) -> Met {
        let area = (frame[2] * frame[3]) as usize;
        let mut met = Met {
            frame,
            cells: vec![0; area],
            squares: vec![0; 16 * area],
            elsewhere: 0,
        };
        rects.for_each(|rect| met.add(&rect));
        met
    }

    /// The ends of a rectangle are inclusive and name cells: it covers four quarters from there on.
    fn add(&mut self, rect: &Rect) {
        let [left, top, width, height] = self.frame;
        let covered = |first: i32, last: i32, edge: i64| {
            let first = i64::from(first) - edge;
            first..(i64::from(last) + 4 - edge).max(first)
        };
        let within = |all: &Range<i64>, cells: i64| {
            all.start.clamp(0, 4 * cells)..all.end.clamp(0, 4 * cells)
        };
        let area = |x: &Range<i64>, y: &Range<i64>| (x.end - x.start) * (y.end - y.start);
        let across = covered(rect.ulx, rect.lrx, left);
        let down = covered(rect.uly, rect.lry, top);
        let (x, y) = (within(&across, width), within(&down, height));
        self.elsewhere += area(&across, &down) - area(&x, &y);
        // A cell is met by whatever covers a square of it, and counted with the first of them.
        let begins = |n: i64, range: &Range<i64>| n % 4 == 0 || n == range.start;
        for line in y.clone() {
            for column in x.clone() {
                self.squares[(line * 4 * width + column) as usize] += 1;
                if begins(line, &y) && begins(column, &x) {
                    self.cells[(line / 4 * width + column / 4) as usize] += 1;
                }
            }
        }
    }

    /// What is not as it should be, in words: the first cell that is not met by one rectangle, the
    /// first unit square that is not covered once, or what is covered elsewhere.
    fn fault(&self) -> Option<String> {
        let [.., width, height] = self.frame;
        let first = |counts: &[u32], across: i64| {
            let (n, count) = counts.iter().enumerate().find(|(_, n)| **n != 1)?;
            Some((n as i64 % across, n as i64 / across, *count))
        };
        let cell = first(&self.cells, width).map(|(x, y, count)| {
            format!("cell ({x}, {y}) of {width} by {height} is met by {count} rectangles")
        });
        let square = || {
            let (x, y, count) = first(&self.squares, 4 * width)?;
            Some(format!("unit square ({x}, {y}) is covered {count} times"))
        };
        let elsewhere = || {
            let count = self.elsewhere;
            (count > 0).then(|| format!("{count} unit squares outside the frame are covered"))
        };
        cell.or_else(square).or_else(elsewhere)
    }
}

/// What is wrong with a load, in words: its columns and rows lie inside the image, and its tile's
/// line times its rows fits texture memory.
fn load_fault(object: &Object, load: &Load, line: u16) -> Option<String> {
    let outside = |what: &str, first: u16, last: u16, count: i32| {
        let (first, last) = (first / 4, last / 4);
        let inside = first <= last && i32::from(last) < count;
        (!inside).then(|| format!("{what} {first} to {last} are loaded, of {count}"))
    };
    let rows = i64::from(load.lrt / 4) - i64::from(load.ult / 4) + 1;
    let (words, most) = (
        rows * i64::from(line),
        capacity(object.image_fmt, object.image_siz),
    );
    outside("columns", load.uls, load.lrs, object.image_w.whole())
        .or_else(|| outside("rows", load.ult, load.lrt, object.image_h.whole()))
        .or_else(|| (words > most).then(|| format!("a load fills {words} of {most} words")))
}

impl Copied {
    /// What a finished plan does not keep of the promise that each cell of the clipped frame is
    /// drawn once, nothing else is, nothing but the image is loaded, and each cell shows what the
    /// engine says.
    fn fault(&self) -> Option<String> {
        self.loads()
            .find_map(|(load, line)| load_fault(&self.object, &load, line))
            .or_else(|| Met::of(self.frame(), self.rects()).fault())
            .or_else(|| self.readings().find_map(|reading| self.misread(&reading)))
    }

    /// The first cell of a rectangle that shows by its load what is not loaded, or something else
    /// than the engine says, in words. That is no fault of a load of which nothing is claimed.
    fn misread(&self, reading: &Reading) -> Option<String> {
        let Reading { rect, .. } = reading;
        let [left, top, ..] = self.frame();
        let (cell, line) = (i64::from(rect.ulx) - left, i64::from(rect.uly) - top);
        let wrong = |(i, j): (i32, i32)| {
            let (cell, line) = (cell / 4 + i64::from(i), line / 4 + i64::from(j));
            let read = Sample::Texel {
                column: reading.column(i),
                row: reading.row(j),
            };
            let said = self.sampled(cell, line);
            let fault = match reading.is_loaded([i, j]) {
                false => "which is not loaded".to_string(),
                true if read != said => format!("and not {}", named(said)),
                true => return None,
            };
            let read = named(read);
            Some(format!("cell ({cell}, {line}) shows {read}, {fault}"))
        };
        let [across, down] = [rect.lrx - rect.ulx, rect.lry - rect.uly].map(|reach| reach / 4);
        let mut cells = (0..=down).flat_map(|j| (0..=across).map(move |i| (i, j)));
        match is_too_wide(&self.object, &reading.load) {
            true => None,
            false => cells.find_map(wrong),
        }
    }

    /// Whether a load fills the whole capacity.
    fn is_full(&self) -> bool {
        let most = capacity(self.object.image_fmt, self.object.image_siz);
        self.loads()
            .any(|(load, line)| load.rows as i64 * i64::from(line) == most)
    }
}

fn named(sample: Sample) -> String {
    match sample {
        Sample::Texel { column, row } => format!("column {column}, row {row}"),
        other => format!("{other:?}"),
    }
}

/// A kind of plan, and how it is told.
type Sort = (&'static str, fn(&Copied) -> bool);

/// Plans that must occur among those judged.
const OCCUR: [Sort; 8] = [
    ("begin inside a pixel across", |c| {
        c.rects().any(|rect| rect.ulx % 4 != 0)
    }),
    ("begin inside a pixel down", |c| {
        c.rects().any(|rect| rect.uly % 4 != 0)
    }),
    ("have an empty frame", |c| c.frame()[2] * c.frame()[3] == 0),
    ("are flipped", |c| {
        c.object.image_flip == 1 && c.rects().next().is_some()
    }),
    ("wrap across", |c| {
        c.rects().any(|rect| i64::from(rect.ulx) > c.frame()[0])
    }),
    ("wrap down", |c| {
        let next = c.rects().skip(1);
        c.rects().zip(next).any(|(a, b)| b.row < a.row)
    }),
    ("have a load of the whole capacity", Copied::is_full),
    (
        "have a flipped load of more than 1,024 columns",
        Copied::too_wide,
    ),
];

#[test]
fn every_cell_is_met_once() {
    let mut r = Random(1);
    let (mut plans, mut cells, mut loads) = (0, 0, 0);
    let mut occurred = [0; OCCUR.len()];
    while plans < 4_000 {
        let rare = r.once_in(40);
        let copied = Copied::of(if rare {
            rare_copy(&mut r)
        } else {
            random_copy(&mut r)
        });
        if !copied.finished {
            continue;
        }
        if let Some(fault) = copied.fault() {
            panic!("{fault}: {:?} {:?}", copied.bytes, copied.scissor);
        }
        for (count, (_, told)) in occurred.iter_mut().zip(OCCUR) {
            *count += usize::from(told(&copied));
        }
        let [.., width, height] = copied.frame();
        (plans, cells) = (plans + 1, cells + width * height);
        loads += copied.loads().count();
    }
    println!("{plans} finished copy plans, {cells} cells, {loads} loads");
    for (count, (kind, _)) in occurred.iter().zip(OCCUR) {
        println!("{count} of them {kind}");
        assert!(*count > 20, "{count} {kind}");
    }
}

/// 20 by 6 cells that begin inside a pixel, of an image of 16 by 4 texels that wraps both ways: two
/// rectangles beside each other, three times.
fn six_rectangles() -> Copied {
    let image = [(0, 12 * 32), (2, 64), (10, 16), (20, 0xfff4)];
    let frame = [(4, 2), (6, 80), (14, 24)];
    let memory = [(30, 8), (32, 8), (36, 1)];
    let fields = [&image[..], &frame, &memory].concat();
    Copied::of((object(&fields, 0, 2), Scissor::new(0, 0, 320, 240)))
}

/// The rectangle, the load or the tile that a strip of a copy plan has, from strip 0: behind the
/// texture image five entries each.
fn rect(entries: &mut [Entry], strip: usize) -> &mut Rect {
    match &mut entries[5 * strip + 5] {
        Entry::Rect(rect) => rect,
        other => panic!("{other:?}"),
    }
}

fn load(entries: &mut [Entry], strip: usize) -> &mut Load {
    match &mut entries[5 * strip + 4] {
        Entry::Load(load) => load,
        other => panic!("{other:?}"),
    }
}

fn loaded_tile(entries: &mut [Entry], strip: usize) -> &mut SetTile {
    match &mut entries[5 * strip + 1] {
        Entry::Tile(tile) => tile,
        other => panic!("{other:?}"),
    }
}

type Edit = fn(&mut Vec<Entry>);

/// Rectangles that are not as they should be, and what is said of each.
const WRONG_RECTS: [(Edit, &str); 11] = [
    // Wider by a cell, and by a quarter.
    (
        |e| rect(e, 0).lrx += 4,
        "cell (4, 0) of 20 by 6 is met by 2 rectangles",
    ),
    (
        |e| rect(e, 4).lrx += 1,
        "cell (4, 4) of 20 by 6 is met by 2 rectangles",
    ),
    // Wider, higher and lower than the frame.
    (
        |e| rect(e, 3).lrx += 1,
        "8 unit squares outside the frame are covered",
    ),
    (
        |e| rect(e, 0).uly -= 4,
        "64 unit squares outside the frame are covered",
    ),
    (
        |e| rect(e, 5).lry += 4,
        "256 unit squares outside the frame are covered",
    ),
    // Narrower by a quarter, so that its cells are met but not covered.
    (
        |e| rect(e, 1).lrx -= 1,
        "unit square (79, 0) is covered 0 times",
    ),
    // Left out, and given twice.
    (
        |e| e.truncate(30),
        "cell (4, 4) of 20 by 6 is met by 0 rectangles",
    ),
    (
        |e| e.extend_from_within(30..),
        "cell (4, 4) of 20 by 6 is met by 2 rectangles",
    ),
    // Shifted by a quarter.
    (
        |e| {
            rect(e, 2).ulx += 1;
            rect(e, 2).lrx += 1;
        },
        "cell (4, 2) of 20 by 6 is met by 2 rectangles",
    ),
    // Two that meet in the middle of a cell.
    (
        |e| {
            rect(e, 0).lrx += 2;
            rect(e, 1).ulx += 2;
        },
        "cell (4, 0) of 20 by 6 is met by 2 rectangles",
    ),
    // Ends that are exclusive, as those of scaled plans.
    (
        |e| {
            for strip in 0..6 {
                rect(e, strip).lrx += 4;
                rect(e, strip).lry += 4;
            }
        },
        "cell (4, 0) of 20 by 6 is met by 2 rectangles",
    ),
];

/// Loads likewise.
const WRONG_LOADS: [(Edit, &str); 6] = [
    // A column and a row too far, and the first ones behind the last.
    (
        |e| load(e, 0).lrs += 4,
        "columns 12 to 16 are loaded, of 16",
    ),
    (|e| load(e, 2).lrt += 4, "rows 2 to 4 are loaded, of 4"),
    (
        |e| load(e, 0).lrs = 44,
        "columns 12 to 11 are loaded, of 16",
    ),
    (|e| load(e, 3).ult = 16, "rows 4 to 3 are loaded, of 4"),
    // Rows of a word too many, and a row too many of such that fill texture memory.
    (
        |e| loaded_tile(e, 5).line = 257,
        "a load fills 514 of 512 words",
    ),
    (
        |e| {
            loaded_tile(e, 4).line = 256;
            load(e, 4).lrt += 4;
        },
        "a load fills 768 of 512 words",
    ),
];

/// Rectangles and loads that show another texel, or one that is not loaded.
const WRONG_READINGS: [(Edit, &str); 9] = [
    // A column further, a column before the load's first, and flipped.
    (
        |e| rect(e, 0).uls = 32,
        "cell (0, 0) shows column 13, row 0, and not column 12, row 0",
    ),
    (
        |e| rect(e, 1).uls = -32,
        "cell (5, 0) shows column 0, row 0, and not column 1, row 0",
    ),
    (
        |e| rect(e, 3).uls = -16 * 32,
        "cell (4, 2) shows column 15, row 2, and not column 0, row 2",
    ),
    // Other columns loaded, and other rows.
    (
        |e| {
            load(e, 2).uls -= 4;
            load(e, 2).lrs -= 4;
        },
        "cell (0, 2) shows column 11, row 2, and not column 12, row 2",
    ),
    (
        |e| {
            load(e, 4).ult += 4;
            load(e, 4).lrt += 4;
        },
        "cell (0, 4) shows column 12, row 1, and not column 12, row 0",
    ),
    // A column and a row too few loaded, all else as it should be.
    (
        |e| load(e, 0).lrs -= 4,
        "cell (3, 0) shows column 15, row 0, which is not loaded",
    ),
    (
        |e| load(e, 3).lrt -= 4,
        "cell (4, 3) shows column 0, row 3, which is not loaded",
    ),
    // A load left out, so that the one before it is shown; and two rectangles in each other's place.
    (
        |e| {
            e.remove(9);
        },
        "cell (4, 0) shows column 12, row 0, and not column 0, row 0",
    ),
    (
        |e| e.swap(25, 30),
        "cell (4, 4) shows column 12, row 0, and not column 0, row 0",
    ),
];

#[test]
fn what_is_wrong_with_a_plan_is_told() {
    assert_eq!(six_rectangles().fault(), None);
    let wrong = WRONG_RECTS.into_iter().chain(WRONG_LOADS);
    for (edit, told) in wrong.chain(WRONG_READINGS) {
        let mut copied = six_rectangles();
        edit(&mut copied.entries);
        assert_eq!(copied.fault().as_deref(), Some(told));
    }
    // A whole load of texture memory is none too many.
    let mut copied = six_rectangles();
    loaded_tile(&mut copied.entries, 0).line = 256;
    assert_eq!((copied.fault(), copied.is_full()), (None, true));
}

/// Entries that draw another picture, and how many pixels of it are wrong.
const WRONG_PIXELS: [(Edit, usize); 8] = [
    (|e| rect(e, 0).uls = 32, 8),
    (|e| rect(e, 3).ult = 32, 32),
    (|e| load(e, 1).start += 2, 32),
    (|e| load(e, 2).stride += 2, 4),
    (|e| loaded_tile(e, 5).line += 1, 16),
    // Of each line a cell is not drawn, and 15 show another texel; and one pixel is drawn elsewhere.
    (
        |e| {
            rect(e, 3).ulx += 4;
            rect(e, 3).lrx += 4;
        },
        34,
    ),
    // A cell of each line is drawn twice. The last rectangle is not drawn.
    (|e| rect(e, 0).lrx += 4, 2),
    (|e| e.truncate(30), 32),
];

/// The entries of a plan on the machine, each with the tiles that it is meant for.
fn drawn(entries: &[Entry]) -> Machine {
    let mut machine = Machine::new(320, 240);
    for entry in entries {
        machine.tiles.apply(entry);
        match entry {
            Entry::Load(load) => machine.load(load),
            Entry::Rect(rect) => machine.draw(rect),
            _ => {}
        }
    }
    machine
}

#[test]
fn wrong_pixels_are_told() {
    let copied = six_rectangles();
    assert_eq!(copy_faults(&drawn(&copied.entries), &copied), 0);
    for (edit, faults) in WRONG_PIXELS {
        let mut entries = copied.entries.clone();
        edit(&mut entries);
        assert_eq!(copy_faults(&drawn(&entries), &copied), faults);
    }
}

/// The smallest flipped load of which nothing is claimed: it has 1,025 columns. What is not flipped
/// is claimed as wide as it may be.
#[test]
fn a_wide_flipped_load_shows_another_column() {
    let image = [(2, 4 * 1_040), (6, 4_092), (10, 4), (14, 4), (20, 0xfff4)];
    let fields = |flip| {
        [
            &image[..],
            &[(0, 64), (26, flip), (30, 4), (32, 4), (36, 1)],
        ]
        .concat()
    };
    let [plain, flipped] = [0, 1]
        .map(|flip| Copied::of((object(&fields(flip), 0, 0), Scissor::new(0, 0, 1_023, 240))));
    let read = |copied: &Copied| -> Vec<(u16, u64)> {
        let first = |reading: Reading| (columns(&reading.load), reading.column(0));
        copied.readings().map(first).collect()
    };
    assert_eq!(read(&plain), [(1_025, 2)]);
    assert_eq!(plain.fault(), None);
    assert_eq!(read(&flipped), [(1_025, 1_023)]);
    assert_eq!(named(flipped.sampled(0, 0)), "column 1024, row 0");
}

// ---- scaled plans

/// A scaled frame after clipping, in quarters of a pixel.
struct Clip {
    /// What is cut off where the image's columns begin: on the right where it is flipped.
    skipped: i64,
    top: i64,
    width: i64,
    height: i64,
}

fn clip(object: &Object, scissor: Scissor, scale_w: i64, scale_h: i64) -> Clip {
    let drawn = |image: Quarters, scale: i64| (i64::from(image.0) * 1024 / scale - 1) & !3;
    let (frame_w, frame_h) = (i64::from(object.frame_w.0), i64::from(object.frame_h.0));
    let width = frame_w.min(drawn(object.image_w, scale_w));
    let height = frame_h.min(drawn(object.image_h, scale_h));
    let flip = object.image_flip & 1 == 1;
    let x = i64::from(object.frame_x.0) + if flip { frame_w - width } else { 0 };
    let y = i64::from(object.frame_y.0);
    let [ulx, uly, lrx, lry] =
        [scissor.ulx, scissor.uly, scissor.lrx, scissor.lry].map(|edge| i64::from(edge) * 4);
    let (left, right) = ((ulx - x).max(0), (x + width - lrx).max(0));
    let (top, bottom) = ((uly - y).max(0), (y + height - lry).max(0));
    Clip {
        skipped: if flip { right } else { left },
        top,
        width: width - left - right,
        height: height - top - bottom,
    }
}

/// What a scaled plan's lines and columns should show, from the object and the scissor.
struct Exact {
    scale_w: i64,
    scale_h: i64,
    /// Rows of a strip.
    image_rows: i64,
    lines: i64,
    /// The place of the first line, and the origin, in thirty-seconds of a row.
    first: i64,
    origin: i64,
    /// Whole images that the first column lies beyond the image's right end.
    carry: i64,
    /// A row's bytes; then where in it the first column is: whole words in bytes, and thirty-seconds.
    stride: i64,
    x_offset: i64,
    s: i64,
    /// Thirty-seconds of a texel across the frame, where it is flipped.
    flipped: Option<i64>,
}

fn exact(object: &Object, scissor: Scissor, bilerp: i64) -> Exact {
    let Kind::Scaled {
        scale_w,
        scale_h,
        image_y_orig,
    } = object.kind
    else {
        panic!("a scaled object")
    };
    let (scale_w, scale_h) = (i64::from(scale_w.0), i64::from(scale_h.0));
    let clip = clip(object, scissor, scale_w, scale_h);
    let source_w = i64::from(object.image_w.0) * 8;
    let image_x = i64::from(object.image_x.0) + clip.skipped * scale_w / 128;
    let shift = 0x200 >> object.image_siz;
    let slice = (i64::from(object.frame_w.0) * scale_w / 128 + bilerp * 32).min(source_w);
    let (capacity, max_slice) = match (object.image_fmt, object.image_siz) {
        (_, 3) => (480, 0x2800),
        (2, _) => (256, slice),
        _ => (512, slice),
    };
    let line = (max_slice + shift - 1) / shift + 1;
    Exact {
        scale_w,
        scale_h,
        image_rows: capacity / line - bilerp,
        lines: clip.height / 4,
        first: i64::from(object.image_y.0) + clip.top * scale_h / 128,
        origin: image_y_orig.0.into(),
        carry: image_x / source_w,
        stride: source_w / shift * 8,
        x_offset: image_x % source_w / shift * 8,
        s: image_x % source_w % shift,
        flipped: (object.image_flip & 1 == 1).then_some(clip.width * scale_w / 128),
    }
}

impl Exact {
    /// The number of the strip that begins with this line, counted from the clipped frame's first.
    fn strip(&self, line: i64) -> i64 {
        let frame_rows = (self.image_rows << 20) / self.scale_h;
        let lines = (32 * (self.first - self.origin)).div_euclid(self.scale_h);
        (1024 * (lines + line + 1) + frame_rows - 1).div_euclid(frame_rows) - 1
    }

    /// How far a line samples ahead of its exact place, in 1,024ths of a row and apart from whole
    /// image heights, from the limit behind on.
    fn ahead(&self, rect: &Rect, image_h: i64, j: i64, line: i64) -> i64 {
        let sampled = 1024 * rect.row as i64 + 32 * i64::from(rect.ult) + self.scale_h * j;
        let place = 32 * (self.first + 32 * self.carry) + self.scale_h * line;
        let whole_row = self.origin.rem_euclid(32) == 0;
        let behind = self.scale_h + if whole_row { 30 } else { 1022 };
        (sampled - place + behind).rem_euclid(256 * image_h) - behind
    }

    /// Half bytes from the image's first to the texel of a pixel's column, in its own row; none
    /// where the row ends before it and the next one goes on.
    fn column(&self, siz: u8, i: i64) -> Option<i64> {
        let place = match self.flipped {
            Some(width) => !((-(self.s + width) * 32 + i * self.scale_w) >> 10),
            None => (self.s * 32 + i * self.scale_w) >> 10,
        };
        let ends = (place + 1) << siz;
        let fits = ends <= 2 * (self.stride - self.x_offset);
        fits.then_some((place << siz) + 2 * self.x_offset)
    }
}

fn random_scaled(r: &mut Random) -> ([u8; 40], Scissor, u32) {
    let (fmt, siz) = (r.from(0, 4), r.from(0, 3));
    let columns = 16 * r.from(1, 24);
    let scale = |r: &mut Random| {
        if r.once_in(4) {
            1024
        } else {
            r.from(200, 5_000)
        }
    };
    let image_y = r.from(0, 3_000);
    let between_rows = r.from(0, 31) * r.from(0, 1);
    let origin = 32 * (r.from(-4_000, image_y) / 32) - between_rows;
    let fields = [
        (0, r.from(0, 2 * columns * 32)),
        (2, columns * 4),
        (4, r.from(-200, 200)),
        (6, r.from(4, 600)),
        (8, image_y),
        (10, 4 * r.from(1, 200)),
        (12, r.from(-100, 200)),
        (14, r.from(4, 600)),
        (20, if r.once_in(2) { 0xfff4 } else { 0x0033 }),
        (26, r.from(0, 1)),
        (28, scale(r)),
        (30, scale(r)),
        (32, origin >> 16),
        (34, origin),
    ];
    let [ulx, uly] = [r.from(0, 60), r.from(0, 60)].map(|edge| edge as i32);
    let scissor = Scissor::new(
        ulx,
        uly,
        ulx + r.from(1, 120) as i32,
        uly + r.from(1, 90) as i32,
    );
    (
        object(&fields, fmt as u8, siz as u8),
        scissor,
        8 * r.from(0, 1) as u32,
    )
}

/// Holds one line of a rectangle to the limits, and counts the pixels of it that show their row.
fn line_held(
    machine: &Machine,
    object: &Object,
    e: &Exact,
    rect: &Rect,
    j: i64,
    line: i64,
) -> usize {
    let image_h = i64::from(object.image_h.0);
    let d = e.ahead(rect, image_h, j, line);
    let k = e.strip(line - j);
    assert!(
        1024 * d <= e.scale_h * (1024 + k),
        "{object:?} line {line}: {d} ahead in strip {k}"
    );
    // A strip of 32-bit texels has one row loaded, as in the original.
    let down = (32 * i64::from(rect.ult) + j * e.scale_h) >> 10;
    if object.image_siz == 3 && down > 0 {
        return 0;
    }
    let row = (rect.row as i64 + down) % (image_h / 4);
    let pixels = rect.pixels();
    let mut held = 0;
    for (i, x) in (0..).zip(pixels.x) {
        let Some(column) = e.column(object.image_siz, i) else {
            continue;
        };
        // The original reads rows before the image now and then (docs/DIFFERENCES.md): a whole
        // image before the right ones.
        let shown = 2 * (ADDRESS as i64 + e.stride * row) + column;
        let before = shown - 2 * e.stride * (image_h / 4);
        let pixel = machine.pixel(x, pixels.y.start + j as i32);
        let right = pixel.shows == Some(shown as u64);
        let early = pixel.shows == Some(before as u64);
        assert!(
            pixel.drawn == 1 && (right || early),
            "{object:?} {x} line {line}: {pixel:?}"
        );
        held += usize::from(right);
    }
    held
}

#[test]
fn scaled_pixels_are_within_the_limits() {
    let mut r = Random(2);
    let (mut plans, mut lines, mut pixels) = (0, 0, 0);
    while plans < 3_000 {
        let (bytes, scissor, mode) = random_scaled(&mut r);
        let object = decoded(&bytes, Mode::Scaled);
        let request = Request::scaled(&bytes, scissor, mode, ADDRESS);
        let mut buffer = Buffer::new();
        let plan = buffer.plan(&request, &mut Bank::default());
        if plan.end.rectangles == 0 || plan.end.verdict != Verdict::Finished {
            continue;
        }
        let e = exact(&object, scissor, i64::from(mode / 8));
        let mut cx = Ctx::new(256, 256);
        cx.obj_render_mode = mode;
        bg_1cyc(&bytes, scissor, ADDRESS, &mut cx).expect("finished");
        let mut line = 0;
        for entry in &plan {
            let Entry::Rect(rect) = entry else { continue };
            for j in 0..rect.pixels().y.len() as i64 {
                pixels += line_held(&cx.rdp, &object, &e, &rect, j, line);
                line += 1;
            }
        }
        assert_eq!((cx.rdp.outside, line), (0, e.lines), "{object:?}");
        lines += line;
        plans += 1;
    }
    println!("{plans} scaled plans, {lines} lines, {pixels} pixels");
    assert!(lines > 60_000 && pixels > 1_500_000, "{lines} {pixels}");
}

// ---- what goes wrong with the bank that the whole plan leaves

/// The plan drawn with the tiles of its end throughout, and how many pixels differ from the plan
/// drawn with each entry's own.
fn wrong_with_the_last_bank(request: &Request) -> usize {
    let mut buffer = Buffer::new();
    let mut last = Bank::default();
    let plan = buffer.plan(request, &mut last);
    let mut wrong = Machine::new(320, 240);
    let mut right = Machine::new(320, 240);
    wrong.tiles = last;
    for (entry, tiles) in plan.steps(Bank::default()) {
        right.tiles = tiles;
        for machine in [&mut wrong, &mut right] {
            match entry {
                Entry::Load(load) => machine.load(&load),
                Entry::Rect(rect) => machine.draw(&rect),
                _ => {}
            }
        }
    }
    assert_eq!(right.tiles, last);
    wrong
        .pixels()
        .zip(right.pixels())
        .filter(|(a, b)| a != b)
        .count()
}

#[test]
fn the_bank_of_the_end_draws_another_picture() {
    let both = [(2, 1280), (6, 1280), (10, 960), (14, 960), (20, 0xfff4)];
    let copy = [&both[..], &[(0, 3200), (30, 24), (32, 24), (36, 1)]].concat();
    let scaled = [&both[..], &[(8, 3200), (28, 1024), (30, 1024), (34, 3200)]].concat();
    let screen = Scissor::new(0, 0, 320, 240);
    let copy = object(&copy, 0, 2);
    assert_eq!(
        wrong_with_the_last_bank(&Request::copy(&copy, screen, ADDRESS)),
        24_000
    );
    let scaled = object(&scaled, 0, 2);
    assert_eq!(
        wrong_with_the_last_bank(&Request::scaled(&scaled, screen, 0, ADDRESS)),
        1_276
    );
}
