//! The image: its texels, the strips that are cut out of it, and what nothing samples.

use super::pen::{ticks, Pen, BOX, GREY, IMAGE_X, INK, TOP, WHITE};
use crate::fields::grouped;
use crate::paint::{Anchor, Bitmap, Rgb, Stroke};
use crate::picture::Picture;
use crate::study::{Shown, Strip, Study};

/// Outlines that are smaller hide the image, and more are too many to write down.
const SMALLEST: f64 = 3.0;
const OUTLINES: usize = 1_500;

/// Images that are thinner on the paper are drawn wider than they are.
const THINNEST: f64 = 24.0;

/// The texels of an image that at least one pixel shows, and the image's size on the paper.
pub struct Sampled {
    texels: Vec<(u32, u32)>,
    columns: u32,
    rows: u32,
    size: (f64, f64),
}

impl Sampled {
    pub fn of(study: &Study) -> Sampled {
        let mut texels: Vec<(u32, u32)> = study
            .screen
            .iter()
            .filter_map(|shown| match *shown {
                Shown::Texel { column, row } => Some((row, column)),
                _ => None,
            })
            .collect();
        texels.sort_unstable();
        texels.dedup();
        let (columns, rows) = (study.columns(), study.rows());
        let (wide, high) = (f64::from(columns.max(1)), f64::from(rows.max(1)));
        let unit = (BOX.0 / wide).min(BOX.1 / high);
        Sampled {
            texels,
            columns,
            rows,
            size: ((wide * unit).max(THINNEST), (high * unit).max(THINNEST)),
        }
    }

    /// How many texels nothing samples, of how many.
    pub fn left_out(&self) -> (u64, u64) {
        let all = u64::from(self.columns) * u64::from(self.rows);
        (all.saturating_sub(self.texels.len() as u64), all)
    }

    fn across(&self, column: f64) -> f64 {
        IMAGE_X + column / f64::from(self.columns.max(1)) * self.size.0
    }

    fn down(&self, row: f64) -> f64 {
        TOP + row / f64::from(self.rows.max(1)) * self.size.1
    }
}

pub fn draw(pen: &mut Pen, study: &Study, picture: &Picture, sampled: &Sampled) {
    let says = "white: strips; black: where the first begins, and its way";
    pen.heading((IMAGE_X, TOP - 10.0), "IMAGE", 54.0, says);
    if sampled.columns == 0 || sampled.rows == 0 {
        pen.words(
            (IMAGE_X, TOP + 20.0),
            12.0,
            GREY,
            Anchor::Start,
            "there is no image",
        );
        return;
    }
    pen.pixels((IMAGE_X, TOP), sampled.size, texels(picture, sampled));
    pen.rect(
        (IMAGE_X, TOP),
        sampled.size,
        None,
        Some(Stroke::new(INK, 1.2)),
    );
    for row in ticks(0, sampled.rows.into()) {
        let at = (IMAGE_X - 6.0, sampled.down(row as f64) + 4.0);
        pen.words(at, 11.0, GREY, Anchor::End, &grouped(row));
    }
    for column in ticks(0, sampled.columns.into()) {
        let at = (sampled.across(column as f64), TOP + sampled.size.1 + 15.0);
        pen.words(at, 11.0, GREY, Anchor::Middle, &grouped(column));
    }
    outlines(pen, study, sampled);
    if let Some(strip) = study.strips.first() {
        first(pen, study, strip, sampled);
    }
}

/// The image with what nothing samples striped grey. A large image has several texels in a cell.
fn texels(picture: &Picture, sampled: &Sampled) -> Bitmap {
    let (columns, rows) = (u64::from(sampled.columns), u64::from(sampled.rows));
    let (wide, high) = (columns.min(BOX.0 as u64), rows.min(BOX.1 as u64));
    let mut bitmap = Bitmap::new(wide as usize, high as usize);
    for y in 0..high {
        for x in 0..wide {
            let stripe = if (x + y) / 3 % 2 == 0 { 205 } else { 235 };
            bitmap.set(x as usize, y as usize, Rgb(stripe, stripe, stripe));
        }
    }
    for &(row, column) in &sampled.texels {
        let x = u64::from(column.min(sampled.columns - 1)) * wide / columns;
        let y = u64::from(row) * high / rows;
        bitmap.set(x as usize, y as usize, picture.colour(column, row));
    }
    bitmap
}

/// A strip's rows and columns of the image; one that runs over an edge has parts on both sides.
fn outlines(pen: &mut Pen, study: &Study, sampled: &Sampled) {
    let mut ends = Vec::new();
    for strip in study.strips.iter().take(OUTLINES + 1) {
        for (left, right) in column_parts(study, strip) {
            for (top, foot) in row_parts(study, strip) {
                let (x, y) = (sampled.across(left), sampled.down(top));
                let (to_x, to_y) = (sampled.across(right), sampled.down(foot));
                if to_y - y >= SMALLEST && to_x - x >= SMALLEST {
                    ends.push(((x, y), (to_x, y)));
                    ends.push(((x, y), (x, to_y)));
                }
            }
        }
    }
    if study.strips.len() <= OUTLINES {
        pen.lines(ends, Stroke::new(WHITE, 0.6));
    }
}

fn column_parts(study: &Study, strip: &Strip) -> Vec<(f64, f64)> {
    let Some((first, last)) = strip.ends else {
        return Vec::new();
    };
    let (from, to) = if study.flipped() {
        (last, first)
    } else {
        (first, last)
    };
    let (from, to, all) = (
        f64::from(from),
        f64::from(to) + 1.0,
        f64::from(study.columns()),
    );
    if from < to {
        vec![(from, to)]
    } else {
        vec![(0.0, to), (from, all)]
    }
}

fn row_parts(study: &Study, strip: &Strip) -> Vec<(f64, f64)> {
    let lines = (strip.lines.end - strip.lines.start) as f64;
    let (from, all) = (strip.row as f64, f64::from(study.rows()));
    let to = from + lines * strip.step as f64 / 1024.0;
    if to <= all {
        vec![(from, to)]
    } else {
        vec![(from, all), (0.0, (to - all).min(all))]
    }
}

fn first(pen: &mut Pen, study: &Study, strip: &Strip, sampled: &Sampled) {
    let Some((column, _)) = strip.ends else {
        return;
    };
    let way = if study.flipped() { -1.0 } else { 1.0 };
    let edge = f64::from(column) + if study.flipped() { 1.0 } else { 0.0 };
    let lines = f64::from(strip.lines.end - strip.lines.start) * strip.step as f64 / 1024.0;
    let row = (strip.row as f64 + lines / 2.0).min(f64::from(study.rows()));
    pen.start((sampled.across(edge), sampled.down(row)), way);
}
