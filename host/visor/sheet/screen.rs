//! The screen: each pixel in the colour of the texel that it shows, the strips' borders, the image's
//! own edges, and what of the frame is not drawn.

use super::pen::{
    ticks, Pen, DARK_RED, GREY, INK, LIGHT, MAGENTA, PALE_RED, RED, SCREEN_X, TOP, WHITE,
};
use super::view::View;
use crate::paint::{Anchor, Bitmap, Rgb, Stroke};
use crate::picture::Picture;
use crate::study::{Edge, Shown, Strip, Study};
use std::ops::Range;
use visorlongan::Verdict;

/// Borders closer than this hide the picture.
const CLOSEST: f64 = 3.5;

/// More borders than this are too many to write down, and more edges of the image.
const BORDERS: usize = 4_000;
pub const EDGES: usize = 48;

pub fn draw(pen: &mut Pen, study: &Study, picture: &Picture, view: &View) {
    let says = match view.zoomed(study) {
        true => "each pixel in the colour of the texel that it shows; enlarged",
        false => "each pixel in the colour of the texel that it shows",
    };
    pen.heading((SCREEN_X, TOP - 10.0), "SCREEN", 62.0, says);
    pen.fill((SCREEN_X, TOP), view.size(), Rgb::hex(0xf3f3f3));
    pen.pixels((SCREEN_X, TOP), view.size(), pixels(study, picture, view));
    scissor(pen, study, view);
    axes(pen, view);
    borders(pen, study, view);
    edges(pen, study, view);
    missing(pen, study, view);
    if let Some(strip) = study.strips.first() {
        let middle = f64::from(strip.lines.start + strip.lines.end) / 2.0 - f64::from(view.y);
        pen.start(
            (view.across(strip.columns.start), TOP + middle * view.unit),
            1.0,
        );
    }
    if study.end.verdict != Verdict::Finished {
        stop(pen, study, view);
    }
}

fn pixels(study: &Study, picture: &Picture, view: &View) -> Bitmap {
    let mut bitmap = Bitmap::new(view.width as usize, view.height as usize);
    for y in 0..view.height {
        for x in 0..view.width {
            let colour = match study.shown(view.x + x, view.y + y) {
                Shown::Nothing => continue,
                Shown::Texel { column, row } => picture.colour(column, row),
                // Dark squares, which no picture has.
                Shown::Other if (x / 2 + y / 2) % 2 == 0 => Rgb::hex(0x3a2440),
                Shown::Other => Rgb::hex(0x6a4a70),
            };
            bitmap.set(x as usize, y as usize, colour);
        }
    }
    bitmap
}

fn scissor(pen: &mut Pen, study: &Study, view: &View) {
    let [left, top, right, lower] = study.scissor;
    let across = |x: i32| view.across(x.clamp(view.x, view.x + view.width));
    let down = |y: i32| view.down(y.clamp(view.y, view.y + view.height));
    let (x, y) = (across(left), down(top));
    let size = ((across(right) - x).max(0.0), (down(lower) - y).max(0.0));
    pen.rect((x, y), size, None, Some(Stroke::dashed(INK, 1.2, 6.0, 4.0)));
}

fn axes(pen: &mut Pen, view: &View) {
    for line in ticks(view.y.into(), (view.y + view.height).into()) {
        let y = view.down(line as i32);
        pen.words(
            (SCREEN_X - 8.0, y + 4.0),
            11.0,
            GREY,
            Anchor::End,
            &line.to_string(),
        );
        pen.line((SCREEN_X - 5.0, y), (SCREEN_X, y), Stroke::new(LIGHT, 1.0));
    }
    for column in ticks(view.x.into(), (view.x + view.width).into()) {
        let at = (view.across(column as i32), view.foot() + 15.0);
        pen.words(at, 11.0, GREY, Anchor::Middle, &column.to_string());
    }
}

/// The upper borders of the strips but for those of the first row, where they leave the picture to
/// be seen.
fn borders(pen: &mut Pen, study: &Study, view: &View) {
    let first = study.strips.first().map(|strip| strip.lines.start);
    let apart = |strip: &&Strip| {
        let size =
            (strip.lines.end - strip.lines.start).min(strip.columns.end - strip.columns.start);
        Some(strip.lines.start) != first && f64::from(size.max(1)) * view.unit >= CLOSEST
    };
    let ends = study.strips.iter().filter(apart).map(|strip| {
        let y = view.down(strip.lines.start);
        (
            (view.across(strip.columns.start), y),
            (view.across(strip.columns.end), y),
        )
    });
    let ends: Vec<_> = ends.take(BORDERS + 1).collect();
    if ends.len() <= BORDERS {
        pen.lines(ends, Stroke::new(WHITE, 0.6));
    }
}

/// The image's own edges, with what lies on both sides of the first of each kind. So many that they
/// would hide the picture are only told in words.
fn edges(pen: &mut Pen, study: &Study, view: &View) {
    let (level, upright) = (&study.level_edges, &study.upright_edges);
    let (across, down) = reach(study);
    let (left, right) = (view.across(across.start), view.across(across.end));
    let (top, foot) = (view.down(down.start), view.down(down.end));
    let mut ends = Vec::new();
    if level.len() <= EDGES {
        let line = |edge: &Edge| ((left, view.down(edge.at)), (right, view.down(edge.at)));
        ends.extend(level.iter().map(line));
    }
    if upright.len() <= EDGES {
        let line = |edge: &Edge| ((view.across(edge.at), top), (view.across(edge.at), foot));
        ends.extend(upright.iter().map(line));
    }
    pen.lines(ends.clone(), Stroke::new(WHITE, 4.0));
    pen.lines(ends, Stroke::new(MAGENTA, 2.0));
    if let Some(edge) = upright.first() {
        let said = format!("image edge: column {} → {}", edge.before, edge.after);
        pen.label((view.across(edge.at) + 7.0, top + 8.0), MAGENTA, &said);
    }
    if let Some(edge) = level.first() {
        let said = format!("image edge: row {} → {}", edge.before, edge.after);
        // To the right, away from the other label, but not over the axis.
        let x = (right - 176.0).max(SCREEN_X + 4.0);
        pen.label((x, view.down(edge.at) + 7.0), MAGENTA, &said);
    }
}

/// The columns and lines from the first to the last that a strip has.
fn reach(study: &Study) -> (Range<i32>, Range<i32>) {
    let mut all: Option<(Range<i32>, Range<i32>)> = None;
    for strip in &study.strips {
        let (columns, lines) = all.get_or_insert((strip.columns.clone(), strip.lines.clone()));
        *columns = columns.start.min(strip.columns.start)..columns.end.max(strip.columns.end);
        *lines = lines.start.min(strip.lines.start)..lines.end.max(strip.lines.end);
    }
    all.unwrap_or((0..0, 0..0))
}

/// Lines and columns of the frame that are not drawn, in red, each with an arrow from outside.
fn missing(pen: &mut Pen, study: &Study, view: &View) {
    let (lines, columns) = study.not_drawn();
    if study.strips.is_empty() {
        return;
    }
    let (across, down) = study.frame();
    let wide = f64::from(across.end - across.start) * view.unit;
    let high = f64::from(down.end - down.start) * view.unit;
    // What a refusal has left out is much, and told by its own mark.
    let colour = match study.end.verdict {
        Verdict::Finished => RED,
        _ => PALE_RED,
    };
    for (first, count) in stretches(&lines) {
        let (y, size) = (view.down(first), (f64::from(count) * view.unit).max(3.5));
        pen.fill((view.across(across.start), y), (wide, size), colour);
        let x = SCREEN_X - 46.0;
        pen.polygon(
            vec![(x, y - 5.0), (x + 10.0, y + 2.0), (x, y + 9.0)],
            Some(RED),
            None,
        );
    }
    for (first, count) in stretches(&columns) {
        let (x, size) = (view.across(first), (f64::from(count) * view.unit).max(3.5));
        pen.fill((x, view.down(down.start)), (size, high), colour);
        let y = TOP - 8.0;
        pen.polygon(
            vec![(x - 4.0, y), (x + 6.0, y), (x + 1.0, y + 7.0)],
            Some(RED),
            None,
        );
    }
}

/// Numbers that follow one another, as the first and how many.
fn stretches(numbers: &[i32]) -> Vec<(i32, i32)> {
    let mut found: Vec<(i32, i32)> = Vec::new();
    for &number in numbers {
        match found.last_mut() {
            Some((first, count)) if *first + *count == number => *count += 1,
            _ => found.push((number, 1)),
        }
    }
    found
}

/// Where the next strip would begin on the screen.
pub fn next_place(study: &Study) -> (i32, i32) {
    let (columns, lines) = study.frame();
    match study.strips.last() {
        None => (columns.start, lines.start),
        Some(last) if last.columns.end < columns.end && study.end.verdict == Verdict::TooBig => {
            (last.columns.end, last.lines.start)
        }
        Some(last) => (columns.start, last.lines.end),
    }
}

/// Where a refused plan stopped: the rest of the frame in a red outline, and the verdict.
fn stop(pen: &mut Pen, study: &Study, view: &View) {
    let (columns, lines) = study.frame();
    let (x, y) = next_place(study);
    let (at_x, at_y) = (view.across(columns.start), view.down(y.min(lines.end)));
    let wide = f64::from(columns.end - columns.start) * view.unit;
    let high = (view.down(lines.end) - at_y).max(0.0);
    let stroke = Stroke::dashed(DARK_RED, 2.0, 5.0, 3.0);
    if wide > 0.0 {
        pen.rect((at_x, at_y), (wide, high), None, Some(stroke));
        pen.dot((view.across(x), at_y), DARK_RED);
    }
    let verdict = study.end.verdict;
    let said = match study.strips.len() {
        0 => format!("verdict {}: nothing is drawn", verdict.number()),
        _ => format!("verdict {}: stopped here", verdict.number()),
    };
    let label_y = (at_y + 8.0).clamp(TOP + 4.0, view.foot() - 24.0);
    pen.label((at_x.max(SCREEN_X) + 12.0, label_y), DARK_RED, &said);
}
