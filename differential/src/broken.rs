//! Plans that are not as SPECIFICATION 7.12 and 7.13 say: what cells.rs must find of them.

use crate::cells::{by_cuts, by_points, cells_once, loads_inside};
use crate::entry::{Entry, RECTANGLE};
use crate::plan::Sink;
use crate::record::{Object, Record, COPY};
use crate::run::{run, Settings};

/// A frame of 40 by 40 cells whose left is 2 and whose top is 7, over an image of 32 by 40: strips
/// of 32 and 8 columns, of 32 and 8 rows. The load of the first fills its capacity. All sizes have a
/// part below a cell.
fn four_strips() -> Record {
    let object = Object {
        image_w: 131,
        image_h: 163,
        frame_x: 2,
        frame_w: 163,
        frame_y: 7,
        frame_h: 161,
        load: 0xfff4,
        siz: 3,
        tail: [0, 128, 128, 0, 1, 0],
        ..Default::default()
    };
    Record::on_screen(&object, COPY)
}

type Change = fn(&mut Record, &mut Vec<Entry>);

/// What is changed in the record or its plan, and what is found then. The plan's strips begin at
/// entries 1, 6, 11 and 16 with tile 7, and end with a load and a rectangle.
const CHANGES: [(&str, Change, &str); 27] = [
    (
        "a rectangle one cell wider",
        |_, plan| plan[5][4] += 4,
        "cell (32, 0) of the frame is met by 2 rectangles",
    ),
    (
        "a rectangle one cell taller",
        |_, plan| plan[5][5] += 4,
        "cell (0, 32) of the frame is met by 2 rectangles",
    ),
    (
        "the last rectangle one cell wider",
        |_, plan| plan[20][4] += 4,
        "unit (165, 166), which is outside the frame, is covered",
    ),
    (
        "a rectangle missing",
        |_, plan| _ = plan.remove(10),
        "cell (32, 0) of the frame is met by 0 rectangles",
    ),
    (
        "a rectangle twice",
        |_, plan| plan.push(plan[10]),
        "cell (32, 0) of the frame is met by 2 rectangles",
    ),
    (
        "one rectangle instead of another",
        |_, plan| plan[20] = plan[15],
        "cell (0, 32) of the frame is met by 2 rectangles",
    ),
    (
        "a rectangle's sides exchanged",
        |_, plan| plan[5].swap(2, 4),
        "rectangle 0 ends before it begins",
    ),
    (
        "a rectangle one unit further right",
        |_, plan| {
            plan[5][2] += 1;
            plan[5][4] += 1;
        },
        "cell (32, 0) of the frame is met by 2 rectangles",
    ),
    (
        "a rectangle one unit further up",
        |_, plan| {
            plan[5][3] -= 1;
            plan[5][5] -= 1;
        },
        "unit (2, 6), which is outside the frame, is covered",
    ),
    (
        "a rectangle half a cell wider, to the left",
        |_, plan| plan[10][2] -= 2,
        "cell (31, 0) of the frame is met by 2 rectangles",
    ),
    (
        "two rectangles that share a cell and no unit",
        |_, plan| {
            plan[5][4] -= 2;
            plan[10][2] -= 2;
        },
        "cell (31, 0) of the frame is met by 2 rectangles",
    ),
    (
        "a rectangle one unit narrower",
        |_, plan| plan[20][4] -= 1,
        "unit (161, 135) of the frame is covered 0 times",
    ),
    (
        "a column less in one rectangle and as many cells more in another",
        |_, plan| {
            plan[5][4] -= 4;
            plan[15][3] -= 4;
        },
        "cell (31, 0) of the frame is met by 0 rectangles",
    ),
    (
        "ends that are exclusive",
        |_, plan| {
            for rectangle in plan.iter_mut().filter(|entry| entry[0] == RECTANGLE) {
                rectangle[4] += 4;
                rectangle[5] += 4;
            }
        },
        "unit (165, 138), which is outside the frame, is covered",
    ),
    (
        "a frame one unit further left",
        |record, _| record.object[5] -= 1,
        "unit (161, 134), which is outside the frame, is covered",
    ),
    (
        "a frame one cell wider",
        |record, _| record.object[7] += 4,
        "cell (40, 0) of the frame is met by 0 rectangles",
    ),
    (
        "an empty frame",
        |record, _| record.scissor[2] = 0,
        "unit (2, 7), which is outside the frame, is covered",
    ),
    (
        "a line one word longer",
        |_, plan| plan[1][4] += 1,
        "load 0 has 288 words of 256",
    ),
    (
        "the same in an image of fmt 2",
        |record, plan| {
            record.object[22..24].copy_from_slice(&[2, 2]);
            plan[1][4] += 1;
        },
        "load 0 has 288 words of 256",
    ),
    (
        "the same in an image of 16-bit texels",
        |record, plan| {
            record.object[23] = 2;
            plan[1][4] = 17;
        },
        "load 0 has 544 words of 512",
    ),
    (
        "a later strip's line one word longer than the first's",
        |_, plan| plan[6][4] = plan[1][4] + 1,
        "load 1 has 288 words of 256",
    ),
    (
        "a load before tile 7 is set",
        |_, plan| plan[1][1] = 0,
        "load 0 has no line of tile 7",
    ),
    (
        "a row more than the capacity",
        |_, plan| plan[4][5] += 4,
        "load 0 has 264 words of 256",
    ),
    (
        "a column more than the image",
        |_, plan| plan[4][4] += 4,
        "load 0 has columns 0 to 32 of 32",
    ),
    (
        "a row more than the image",
        |_, plan| plan[14][5] += 4,
        "load 2 has rows 32 to 40 of 40",
    ),
    (
        "a load's sides exchanged",
        |_, plan| plan[4].swap(2, 4),
        "load 0 has columns 31 to 0 of 32",
    ),
    (
        "an image of one row less",
        |record, _| record.object[11] -= 4,
        "load 2 has rows 32 to 39 of 39",
    ),
];

/// The plan itself is as the statements say; of each change that is found which should be, and both
/// ways of counting cells find it or neither does.
pub fn found() -> Result<(), String> {
    let record = four_strips();
    let plan = run(&record, &Settings::default(), Sink::Keep).plan.entries;
    let held = |record: &Record, plan: &[Entry]| {
        cells_once(record, plan)?;
        loads_inside(record, plan)
    };
    held(&record, &plan)?;
    for (what, change, should) in CHANGES {
        let (mut record, mut plan) = (record, plan.clone());
        change(&mut record, &mut plan);
        let is = held(&record, &plan).err().unwrap_or_default();
        let [cuts, points] = [by_cuts, by_points].map(|by| by(&record, &plan).is_ok());
        if is.trim_end() != should || cuts != points {
            return Err(format!(
                "{what}: found {is:?} and not {should:?}; held by cuts {cuts}, by points {points}\n"
            ));
        }
    }
    Ok(())
}
