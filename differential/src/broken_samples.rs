//! Engines, readings and plans that are not as SPECIFICATION 16 says: what engine.rs and sampled.rs
//! must find of them.

use crate::case::Case;
use crate::engine::{cells_agree, shows, Engine, Reply, Strip, OUTSIDE};
use crate::entry::{Entry, LOAD, RECTANGLE};
use crate::plan::Sink;
use crate::record::{Object, Record, COPY, OBJECT_BYTES};
use crate::run::{run, Answer, Settings};
use crate::sampled::{held, wide_loads, COUNTED};

/// A frame of 20 by 16 cells, of which the scissor leaves 17 by 14: 3 are skipped on the left and 2
/// at the top. The image has 13 columns and 10 rows, and is shown from column 10 and row 6 on. All
/// numbers have a part below a cell or a texel. Strips have 4 rows, and 3, 13 and 1 columns; in a
/// flipped frame 11 and 6.
fn clipped(flip: u16) -> Record {
    let object = Object {
        image_x: 245,
        image_w: 53,
        frame_x: -14,
        frame_w: 83,
        image_y: 149,
        image_h: 43,
        frame_y: -9,
        frame_h: 66,
        load: 0xfff4,
        siz: 2,
        flip,
        tail: [0, 19, 19, 0, 1, 0],
        ..Default::default()
    };
    Record::on_screen(&object, COPY)
}

type Answers = fn(&Engine, [u64; 2]) -> Reply;

/// How an engine answers, and what is found then: of a frame that is not flipped, of a flipped one,
/// of a flip of 2, which 5 refuses, in this order.
const ENGINES: [(&str, Answers, &str); 26] = [
    ("nothing changed", Engine::answers, ""),
    (
        "the skipped cells left out",
        |e, cell| {
            let skipped = [0, e.skipped[1]];
            Engine { skipped, ..*e }.answers(cell)
        },
        "flip 0: cell (0, 0) shows texel (10, 6), and [0, 0, 7, 6] is answered",
    ),
    (
        "the skipped lines left out",
        |e, cell| {
            let skipped = [e.skipped[0], 0];
            Engine { skipped, ..*e }.answers(cell)
        },
        "flip 0: cell (0, 0) shows texel (10, 6), and [0, 0, 10, 4] is answered",
    ),
    (
        "the skipped cells rounded up",
        |e, cell| {
            let skipped = [e.skipped[0] + 1, e.skipped[1]];
            Engine { skipped, ..*e }.answers(cell)
        },
        "flip 0: cell (0, 0) shows texel (10, 6), and [0, 0, 11, 6] is answered",
    ),
    (
        "the skipped lines rounded up",
        |e, cell| {
            let skipped = [e.skipped[0], e.skipped[1] + 1];
            Engine { skipped, ..*e }.answers(cell)
        },
        "flip 0: cell (0, 0) shows texel (10, 6), and [0, 0, 10, 7] is answered",
    ),
    (
        "image_x / 32 rounded up",
        |e, cell| {
            let start = [e.start[0] + 1, e.start[1]];
            Engine { start, ..*e }.answers(cell)
        },
        "flip 0: cell (0, 0) shows texel (10, 6), and [0, 0, 11, 6] is answered",
    ),
    (
        "image_y / 32 rounded up",
        |e, cell| {
            let start = [e.start[0], e.start[1] + 1];
            Engine { start, ..*e }.answers(cell)
        },
        "flip 0: cell (0, 0) shows texel (10, 6), and [0, 0, 10, 7] is answered",
    ),
    (
        "no modulo across",
        |e, cell| {
            let image = [i64::MAX, e.image[1]];
            Engine { image, ..*e }.answers(cell)
        },
        "flip 0: cell (3, 0) shows texel (0, 6), and [0, 0, 13, 6] is answered",
    ),
    (
        "no modulo down",
        |e, cell| {
            let image = [e.image[0], i64::MAX];
            Engine { image, ..*e }.answers(cell)
        },
        "flip 0: cell (0, 4) shows texel (10, 0), and [0, 0, 10, 10] is answered",
    ),
    (
        "flip without the − 1",
        |e, cell| {
            let frame_columns = e.frame_columns + 1;
            Engine {
                frame_columns,
                ..*e
            }
            .answers(cell)
        },
        "flip 1: cell (0, 0) shows texel (10, 6), and [0, 0, 11, 6] is answered",
    ),
    (
        "flip by the clipped frame",
        |e, cell| {
            let frame_columns = e.cells[0];
            Engine {
                frame_columns,
                ..*e
            }
            .answers(cell)
        },
        "flip 1: cell (0, 0) shows texel (10, 6), and [0, 0, 7, 6] is answered",
    ),
    (
        "flip without the skipped cells",
        |e, cell| {
            let skipped = [if e.flipped { 0 } else { e.skipped[0] }, e.skipped[1]];
            Engine { skipped, ..*e }.answers(cell)
        },
        "flip 1: cell (0, 0) shows texel (10, 6), and [0, 0, 0, 6] is answered",
    ),
    (
        "no flip",
        |e, cell| {
            Engine {
                flipped: false,
                ..*e
            }
            .answers(cell)
        },
        "flip 1: cell (1, 0) shows texel (9, 6), and [0, 0, 11, 6] is answered",
    ),
    (
        "column and row exchanged",
        |e, cell| {
            let [number, kind, column, row] = e.answers(cell);
            [number, kind, row, column]
        },
        "flip 0: cell (0, 0) shows texel (10, 6), and [0, 0, 6, 10] is answered",
    ),
    (
        "column and line exchanged",
        |e, [column, line]| e.answers([line, column]),
        "flip 0: cell (1, 0) shows texel (11, 6), and [0, 0, 10, 7] is answered",
    ),
    (
        "a column late outside",
        |e, cell| {
            let cells = [e.cells[0] + 1, e.cells[1]];
            Engine { cells, ..*e }.answers(cell)
        },
        "flip 0: cell (17, 0) should be answered [0, 1, 0, 0], is [0, 0, 1, 6]",
    ),
    (
        "a line late outside",
        |e, cell| {
            let cells = [e.cells[0], e.cells[1] + 1];
            Engine { cells, ..*e }.answers(cell)
        },
        "flip 0: cell (0, 14) should be answered [0, 1, 0, 0], is [0, 0, 10, 0]",
    ),
    (
        "a column early outside",
        |e, cell| {
            let cells = [e.cells[0] - 1, e.cells[1]];
            Engine { cells, ..*e }.answers(cell)
        },
        "flip 0: cell (16, 0) shows texel (0, 6), and [0, 1, 0, 0] is answered",
    ),
    (
        "one cell in the middle outside",
        |e, cell| match cell {
            [8, 7] => OUTSIDE,
            _ => e.answers(cell),
        },
        "flip 0: cell (8, 7) shows texel (5, 3), and [0, 1, 0, 0] is answered",
    ),
    (
        "the last cell outside",
        |e, cell| match cell {
            [16, 13] => OUTSIDE,
            _ => e.answers(cell),
        },
        "flip 0: cell (16, 13) shows texel (0, 9), and [0, 1, 0, 0] is answered",
    ),
    (
        "columns and lines of 16 bits",
        |e, cell| e.answers(cell.map(|n| n % 65_536)),
        "flip 0: cell (0, 65547) should be answered [0, 1, 0, 0], is [0, 0, 10, 7]",
    ),
    (
        "outside before a refusal",
        |e, cell| {
            let refused = None;
            match (Engine { refused, ..*e }).answers(cell) {
                OUTSIDE => OUTSIDE,
                _ => e.answers(cell),
            }
        },
        "flip 2: cell (0, 14) should be answered [0, 2, 5, 0], is [0, 1, 0, 0]",
    ),
    (
        "no refusal",
        |e, cell| {
            let refused = None;
            Engine { refused, ..*e }.answers(cell)
        },
        "flip 2: cell (0, 0) should be answered [0, 2, 5, 0], is [0, 0, 10, 6]",
    ),
    (
        "another verdict",
        |e, cell| {
            let refused = e.refused.map(|verdict| verdict - 1);
            Engine { refused, ..*e }.answers(cell)
        },
        "flip 2: cell (0, 0) should be answered [0, 2, 5, 0], is [0, 2, 4, 0]",
    ),
    (
        "1 returned of a cell",
        |e, cell| {
            let [_, kind, one, two] = e.answers(cell);
            [u64::from(kind == 0), kind, one, two]
        },
        "flip 0: cell (0, 0) shows texel (10, 6), and [1, 0, 10, 6] is answered",
    ),
    (
        "1 returned of a refusal",
        |e, cell| {
            let [_, kind, one, two] = e.answers(cell);
            [u64::from(kind == 2), kind, one, two]
        },
        "flip 2: cell (0, 0) should be answered [0, 2, 5, 0], is [1, 2, 5, 0]",
    ),
];

type Reading = fn(&Strip, [i64; 2]) -> [i64; 2];

/// How cells are read off a rectangle and its load, and what is found then: of the two frames, with
/// a `uls` that has a part below a column.
const READINGS: [(&str, Reading, &str); 10] = [
    ("nothing changed", shows, ""),
    (
        "the second column at −1",
        |strip, [i, j]| {
            let number = strip.uls.div_euclid(32) + i;
            [strip.first[0] + number.abs(), strip.first[1] + j]
        },
        "flip 1: cell (0, 0) shows texel (11, 6), and [0, 0, 10, 6] is answered",
    ),
    (
        "counted on below 0",
        |strip, [i, j]| {
            let number = strip.uls.div_euclid(32) + i;
            [strip.first[0] + number, strip.first[1] + j]
        },
        "flip 1: cell (0, 0) shows texel (-11, 6), and [0, 0, 10, 6] is answered",
    ),
    (
        "uls / 32 rounded toward 0",
        |strip, cell| {
            let uls = strip.uls / 32 * 32;
            shows(&Strip { uls, ..*strip }, cell)
        },
        "flip 1: cell (0, 0) shows texel (9, 6), and [0, 0, 10, 6] is answered",
    ),
    (
        "uls without its sign",
        |strip, cell| {
            let uls = strip.uls.rem_euclid(65_536);
            shows(&Strip { uls, ..*strip }, cell)
        },
        "flip 1: cell (0, 0) shows texel (2037, 6), and [0, 0, 10, 6] is answered",
    ),
    (
        "uls left out",
        |strip, cell| shows(&Strip { uls: 0, ..*strip }, cell),
        "flip 0: cell (0, 0) shows texel (8, 6), and [0, 0, 10, 6] is answered",
    ),
    (
        "the load's first column left out",
        |strip, cell| {
            let first = [0, strip.first[1]];
            shows(&Strip { first, ..*strip }, cell)
        },
        "flip 0: cell (0, 0) shows texel (2, 6), and [0, 0, 10, 6] is answered",
    ),
    (
        "the load's first row left out",
        |strip, cell| {
            let first = [strip.first[0], 0];
            shows(&Strip { first, ..*strip }, cell)
        },
        "flip 0: cell (0, 0) shows texel (10, 0), and [0, 0, 10, 6] is answered",
    ),
    (
        "cells counted from the frame's left",
        |strip, [i, j]| shows(strip, [i + strip.cells.from[0], j]),
        "flip 0: cell (3, 0) shows texel (3, 6), and [0, 0, 0, 6] is answered",
    ),
    (
        "lines counted from the frame's top",
        |strip, [i, j]| shows(strip, [i, j + strip.cells.from[1]]),
        "flip 0: cell (0, 4) shows texel (10, 4), and [0, 0, 10, 0] is answered",
    ),
];

type Change = fn(&mut Record, &mut Vec<Entry>);

/// What is changed in the record or its plan, and what is found then of the two frames. The first
/// three loads are entries 4, 9 and 14 of the plan, each with its rectangle behind it. Where a load only ends too
/// early, every cell is answered as it is shown, so that nothing but the load's columns and rows can
/// tell.
const PLANS: [(&str, Change, &str); 22] = [
    ("nothing changed", |_, _| {}, ""),
    (
        "a rectangle missing",
        |_, plan| _ = plan.remove(10),
        "flip 0: cell (3, 0) of the frame is met by 0 rectangles",
    ),
    (
        "a rectangle twice",
        |_, plan| plan.push(plan[10]),
        "flip 0: cell (3, 0) of the frame is met by 2 rectangles",
    ),
    (
        "a load behind its rectangle",
        |_, plan| plan.swap(4, 5),
        "flip 0: entry 4, a rectangle, has no load before it",
    ),
    (
        "a load missing",
        |_, plan| _ = plan.remove(9),
        "flip 0: cell (3, 0) shows texel (8, 6), and [0, 0, 0, 6] is answered",
    ),
    (
        "two loads exchanged",
        |_, plan| plan.swap(4, 9),
        "flip 0: cell (0, 0) shows texel (2, 6), and [0, 0, 10, 6] is answered",
    ),
    (
        "two rectangles exchanged",
        |_, plan| plan.swap(5, 10),
        "flip 0: cell (3, 0) shows texel (8, 6), and [0, 0, 0, 6] is answered",
    ),
    (
        "a load one column further right",
        |_, plan| plan[9][2] += 4,
        "flip 0: cell (3, 0) shows texel (1, 6), and [0, 0, 0, 6] is answered",
    ),
    (
        "a load one row further down",
        |_, plan| plan[9][3] += 4,
        "flip 0: cell (3, 0) shows texel (0, 7), and [0, 0, 0, 6] is answered",
    ),
    (
        "a rectangle that begins one column further right",
        |_, plan| plan[5][6] += 32,
        "flip 0: cell (0, 0) shows texel (11, 6), and [0, 0, 10, 6] is answered",
    ),
    (
        "flipped rectangles that begin one column further left",
        |_, plan| {
            let rectangles = plan.iter_mut().filter(|entry| entry[0] == RECTANGLE);
            for rectangle in rectangles.filter(|rectangle| (rectangle[6] as i64) < 0) {
                rectangle[6] -= 32;
            }
        },
        "flip 1: cell (0, 0) shows texel (11, 6), and [0, 0, 10, 6] is answered",
    ),
    (
        "another flip",
        |record, _| record.object[27] ^= 1,
        "flip 1: cell (1, 0) shows texel (11, 6), and [0, 0, 9, 6] is answered",
    ),
    (
        "a frame one cell wider",
        |record, _| record.object[7] += 4,
        "flip 0: cell (17, 0) of the frame is met by 0 rectangles",
    ),
    (
        "an image one column wider",
        |record, _| record.object[3] += 4,
        "flip 0: cell (3, 0) shows texel (0, 6), and [0, 0, 13, 6] is answered",
    ),
    (
        "an image that starts one row further down",
        |record, _| record.object[9] += 32,
        "flip 0: cell (0, 0) shows texel (10, 6), and [0, 0, 10, 7] is answered",
    ),
    (
        "a load of one column",
        |_, plan| plan[9][4] = plan[9][2],
        "flip 0: cell (4, 0) shows texel (1, 6) of a load of columns 0 to 0 and rows 6 to 9",
    ),
    (
        "a load one column short on the right",
        |_, plan| plan[9][4] -= 4,
        "flip 0: cell (15, 0) shows texel (12, 6) of a load of columns 0 to 11 and rows 6 to 9",
    ),
    (
        "a load that ends before its rectangle begins",
        |_, plan| plan[4][4] -= 12,
        "flip 0: cell (0, 0) shows texel (10, 6) of a load of columns 8 to 9 and rows 6 to 9",
    ),
    (
        "a flipped load one column short on the right",
        |record, plan| plan[4][4] -= 4 * u64::from(record.object[27]),
        "flip 1: cell (0, 0) shows texel (10, 6) of a load of columns 0 to 9 and rows 6 to 9",
    ),
    (
        "a load of one row",
        |_, plan| plan[9][5] = plan[9][3],
        "flip 0: cell (3, 1) shows texel (0, 7) of a load of columns 0 to 12 and rows 6 to 6",
    ),
    (
        "a load one row short",
        |_, plan| plan[9][5] -= 4,
        "flip 0: cell (3, 3) shows texel (0, 9) of a load of columns 0 to 12 and rows 6 to 8",
    ),
    (
        "the last load one row short",
        |_, plan| {
            let last = plan.iter_mut().rfind(|entry| entry[0] == LOAD);
            last.expect("a load")[5] -= 4;
        },
        "flip 0: cell (16, 13) shows texel (0, 9) of a load of columns 0 to 0 and rows 8 to 8",
    ),
];

/// A bound of each load one column or one row further.
fn further(plan: &mut [Entry], bound: usize) {
    for load in plan.iter_mut().filter(|entry| entry[0] == LOAD) {
        load[bound] += 4;
    }
}

/// Readings of loads that begin too late, and what is found then. Each reading goes back by as much,
/// so that every cell is answered as it is shown; by `shows` no cell shows what is before its load.
const LATE: [(&str, Reading, Change, &str); 2] = [
    (
        "loads that begin one column late",
        |strip, cell| {
            let [column, row] = shows(strip, cell);
            [column - 1, row]
        },
        |_, plan| further(plan, 2),
        "flip 0: cell (3, 0) shows texel (0, 6) of a load of columns 1 to 12 and rows 6 to 9",
    ),
    (
        "loads that begin one row late",
        |strip, cell| {
            let [column, row] = shows(strip, cell);
            [column, row - 1]
        },
        |_, plan| further(plan, 3),
        "flip 0: cell (0, 0) shows texel (10, 6) of a load of columns 8 to 12 and rows 7 to 9",
    ),
];

fn planned(record: &Record) -> Answer {
    run(record, &Settings::default(), Sink::Keep)
}

fn named(record: &Record, text: String) -> String {
    format!("flip {}: {text}", record.object[27])
}

/// What is found of the three records by an engine.
fn of_engine(answers: Answers) -> Result<(), String> {
    for record in [0, 1, 2].map(clipped) {
        let engine = Engine::of(&record, OBJECT_BYTES);
        let case = Case::fixed(record, OBJECT_BYTES);
        let changed = |cell| answers(&engine, cell);
        let held = held(&case, &planned(&record), changed, &mut [0; COUNTED.len()]);
        held.map_err(|text| named(&record, text))?;
    }
    Ok(())
}

/// What is found of the two frames by a reading, where records and plans are changed.
fn of_plan(reading: Reading, change: Change) -> Result<(), String> {
    for mut record in [0, 1].map(clipped) {
        let mut plan = planned(&record).plan.entries;
        change(&mut record, &mut plan);
        let engine = Engine::of(&record, OBJECT_BYTES);
        let agree = cells_agree(&record, &plan, reading, |cell| engine.answers(cell));
        agree.map_err(|text| named(&record, text))?;
    }
    Ok(())
}

/// A part below a column in each rectangle's `uls`, of which it is rounded down.
fn with_parts(_: &mut Record, plan: &mut Vec<Entry>) {
    for rectangle in plan.iter_mut().filter(|entry| entry[0] == RECTANGLE) {
        rectangle[6] += 31;
    }
}

fn told(what: &str, is: Result<(), String>, should: &str) -> Result<(), String> {
    let is = is.err().unwrap_or_default();
    if is.trim_end() == should {
        Ok(())
    } else {
        Err(format!("{what}: found {is:?} and not {should:?}\n"))
    }
}

/// Of each change that is found which should be.
pub fn found() -> Result<(), String> {
    for (what, answers, should) in ENGINES {
        told(what, of_engine(answers), should)?;
    }
    for (what, reading, should) in READINGS {
        told(what, of_plan(reading, with_parts), should)?;
    }
    for (what, change, should) in PLANS {
        told(what, of_plan(shows, change), should)?;
    }
    for (what, reading, change, should) in LATE {
        told(what, of_plan(reading, change), should)?;
    }
    wide_loads()
}
