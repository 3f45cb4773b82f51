//! The lens: the lines around the seam that shows most, with the image row that each shows.

use super::pen::{Pen, BLUE, BOX, GREY, IMAGE_X, INK, LOWER, MAGENTA, ORANGE, SEAMS_X, WHITE};
use super::view::View;
use crate::paint::{Anchor, Rgb, Stroke};
use crate::picture::Picture;
use crate::study::{Strip, Study};
use visorlongan::Mode;

/// Lines that the lens shows.
const LINES: i32 = 16;

/// One line under the lens: the row that it shows, and the part of a row that it is beyond it.
struct Cell {
    line: i32,
    row: i64,
    part: i64,
}

pub fn draw(pen: &mut Pen, study: &Study, view: &View) {
    let copied = study.mode == Some(Mode::Copy);
    let Some(line) = worst(study) else {
        return;
    };
    let says = format!("which image row each line shows, around the seam at line {line}");
    pen.heading((IMAGE_X, LOWER), "LENS", 44.0, &says);
    let y = view.down(line);
    pen.line(
        (SEAMS_X - 5.0, y),
        (SEAMS_X + 1.0, y),
        Stroke::new(INK, 3.0),
    );
    let cells = cells(study, line);
    let names = Picture::places(study);
    let wide = BOX.0 / f64::from(LINES);
    let mut said = String::new();
    for (n, cell) in cells.iter().enumerate() {
        let x = IMAGE_X + n as f64 * wide;
        draw_cell(pen, x, wide, cell, &names, study, copied);
        if let Some(before) = n.checked_sub(1).map(|n| &cells[n]) {
            said = note(pen, x + wide / 2.0, &said, before, cell, study);
        }
        if cell.line == line {
            pen.line((x, LOWER + 8.0), (x, LOWER + 76.0), Stroke::new(INK, 2.5));
        }
    }
    let names = [(20.0, "line"), (47.0, "row"), (63.0, "1,024ths")];
    for (down, name) in &names[..if copied { 2 } else { 3 }] {
        pen.words((IMAGE_X - 6.0, LOWER + down), 10.0, GREY, Anchor::End, name);
    }
}

/// The line after the seam that shows most: the image's own edge in a copy, the greatest jump
/// otherwise.
fn worst(study: &Study) -> Option<i32> {
    let edge = study.level_edges.first().map(|edge| edge.at);
    let jump = study
        .seams
        .iter()
        .max_by_key(|seam| (seam.jump.abs(), -seam.line));
    match study.mode {
        Some(Mode::Copy) => edge.or(jump.map(|seam| seam.line)),
        _ => jump.map(|seam| seam.line),
    }
}

fn cells(study: &Study, middle: i32) -> Vec<Cell> {
    let bands = study.bands();
    let strip = |line: i32| bands.iter().find(|strip| strip.lines.contains(&line));
    let cell = |line: i32, strip: &Strip| Cell {
        line,
        row: study.row_of(strip, line).into(),
        part: strip.sampled(line).rem_euclid(1024),
    };
    let around = middle - LINES / 2..middle + LINES / 2;
    around
        .filter_map(|line| Some(cell(line, strip(line)?)))
        .collect()
}

fn draw_cell(
    pen: &mut Pen,
    x: f64,
    wide: f64,
    cell: &Cell,
    names: &Picture,
    study: &Study,
    copied: bool,
) {
    let middle = x + wide / 2.0;
    let colour = names.colour(study.columns() * 11 / 20, cell.row as u32);
    let dark = cell.row * 20 < i64::from(study.rows()) * 9;
    let ink = if dark { WHITE } else { Rgb::hex(0x0b2a22) };
    let border = Some(Stroke::new(WHITE, 0.5));
    pen.rect((x, LOWER + 26.0), (wide, 46.0), Some(colour), border);
    pen.words(
        (middle, LOWER + 20.0),
        10.0,
        GREY,
        Anchor::Middle,
        &cell.line.to_string(),
    );
    pen.bold(
        (middle, LOWER + 47.0),
        12.0,
        ink,
        Anchor::Middle,
        &cell.row.to_string(),
    );
    if !copied {
        pen.words(
            (middle, LOWER + 63.0),
            9.0,
            ink,
            Anchor::Middle,
            &format!("+{}", cell.part),
        );
    }
}

/// What a reader would see between two lines: a row again, rows left out, or the image's edge. The
/// same note is not written twice side by side. Answers the note.
fn note(pen: &mut Pen, x: f64, last: &str, before: &Cell, cell: &Cell, study: &Study) -> String {
    let rows = i64::from(study.rows().max(1));
    let step = (cell.row - before.row).rem_euclid(rows);
    let line_step = study.strips.first().map_or(1024, |strip| strip.step);
    // Lines of a scale above 1 leave rows out everywhere, those of one below show some again.
    let usual = (line_step + 1023).div_euclid(1024).max(1);
    let (down, colour, said) = match step {
        0 => (100.0, BLUE, "again".to_string()),
        _ if cell.row < before.row => (87.0, MAGENTA, "wraps".to_string()),
        n if n > usual => (87.0, ORANGE, format!("skips {}", n - usual)),
        _ => return String::new(),
    };
    if said != last {
        pen.bold((x, LOWER + down), 10.5, colour, Anchor::Middle, &said);
    }
    said
}
