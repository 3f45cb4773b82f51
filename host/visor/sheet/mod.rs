//! A plan on one sheet: the screen, the seams and the drift on one vertical axis; the image with its
//! strips; texture memory; a lens on the worst seam; and what there is to say, in words.

mod drift;
mod image;
mod lens;
mod memory;
mod pen;
mod screen;
mod view;
mod words;

pub use words::facts;

use crate::fields::counted;
use crate::font;
use crate::paint::{Anchor, Bitmap, Drawing, Rgb, Shape};
use crate::picture::Picture;
use crate::study::Study;
use image::Sampled;
use pen::{Pen, DARK_RED, GREEN, INK, SCREEN_X, WHITE, WIDTH, WORDS_STEP, WORDS_WIDTH, WORDS_Y};
use view::View;
use visorlongan::Verdict;
use words::Finding;

pub struct Sheet {
    pub drawing: Drawing,
    /// What there is to say, a sentence each.
    pub words: Vec<String>,
}

impl Sheet {
    pub fn of(study: &Study, picture: &Picture) -> Sheet {
        let (view, sampled) = (View::of(study), Sampled::of(study));
        let findings = words::findings(study, picture, &sampled);
        let mut pen = Pen::default();
        header(&mut pen, study);
        screen::draw(&mut pen, study, picture, &view);
        drift::draw(&mut pen, study, &view);
        image::draw(&mut pen, study, picture, &sampled);
        memory::draw(&mut pen, study);
        lens::draw(&mut pen, study, &view);
        let foot = write(&mut pen, &findings);
        Sheet {
            drawing: Drawing {
                width: WIDTH,
                height: foot,
                title: format!("{}: {}", study.name, study.end.verdict),
                shapes: pen.shapes,
            },
            words: findings.into_iter().map(|(_, text)| text).collect(),
        }
    }
}

/// The findings below each other, each with a dot of its colour; answers where the sheet ends.
fn write(pen: &mut Pen, findings: &[Finding]) -> f64 {
    let mut y = WORDS_Y;
    for (colour, text) in findings {
        pen.dot((SCREEN_X + 5.0, y - 4.5), *colour);
        for line in wrapped(text) {
            pen.words((SCREEN_X + 17.0, y), 13.0, INK, Anchor::Start, &line);
            y += WORDS_STEP;
        }
    }
    y.max(WORDS_Y + 3.0 * WORDS_STEP) + 8.0
}

/// A sentence in lines that leave the lens its place.
fn wrapped(text: &str) -> Vec<String> {
    let mut lines = vec![String::new()];
    for word in text.split(' ') {
        let line = lines.last_mut().expect("there is always a line");
        let longer = match line.is_empty() {
            true => word.to_string(),
            false => format!("{line} {word}"),
        };
        if line.is_empty() || font::width(&longer, 13.0, false) < WORDS_WIDTH {
            *line = longer;
        } else {
            lines.push(word.to_string());
        }
    }
    lines
}

fn header(pen: &mut Pen, study: &Study) {
    let end = study.end;
    let faint = Rgb::hex(0x444444);
    pen.fill((0.0, 0.0), (WIDTH, 2.0), INK);
    pen.bold(
        (24.0, 34.0),
        22.0,
        INK,
        Anchor::Start,
        &shortened(&study.name, 70),
    );
    pen.words(
        (24.0, 58.0),
        13.5,
        faint,
        Anchor::Start,
        &words::facts(study),
    );
    let (colour, said) = match end.verdict {
        Verdict::Finished => (GREEN, "verdict 0 complete".to_string()),
        verdict => (DARK_RED, format!("verdict {} refused", verdict.number())),
    };
    let loads = study.loads.len() as u64;
    let counts = [
        (end.entries, "entry", "entries"),
        (end.rectangles, "rectangle", "rectangles"),
        (loads, "load", "loads"),
    ];
    let counts = counts.map(|(count, one, many)| counted(count, one, many));
    let counts = counts.join(" · ");
    let left = WIDTH - 28.0 - font::width(&counts, 12.5, false).max(234.0);
    pen.words((left, 28.0), 12.5, faint, Anchor::Start, &counts);
    let largest = format!(
        "largest load {} of {} words",
        end.tile_words,
        study.capacity()
    );
    pen.words((left, 45.0), 12.5, faint, Anchor::Start, &largest);
    pen.rounded((left - 192.0, 14.0), (180.0, 30.0), colour, None);
    pen.bold((left - 102.0, 35.0), 14.0, WHITE, Anchor::Middle, &said);
}

/// A name that is too long for its place loses its beginning.
fn shortened(name: &str, most: usize) -> String {
    let count = name.chars().count();
    match count > most {
        true => format!("…{}", name.chars().skip(count - most).collect::<String>()),
        false => name.to_string(),
    }
}

/// The same drawing with coarser bitmaps, for files that would be too large: fewer colours first,
/// then fewer pixels.
pub fn coarser(drawing: &Drawing, times: u32) -> Drawing {
    let mut coarse = drawing.clone();
    for shape in &mut coarse.shapes {
        if let Shape::Pixels { bitmap, .. } = shape {
            *bitmap = coarser_bitmap(bitmap, times);
        }
    }
    coarse
}

fn coarser_bitmap(bitmap: &Bitmap, times: u32) -> Bitmap {
    // Five bits a colour, then four, then three, each later time with half as many pixels as well.
    let keep = 0xff_u8 << (2 + times).min(5);
    let step = 1 << times.saturating_sub(2).min(4);
    let (width, height) = (bitmap.width.div_ceil(step), bitmap.height.div_ceil(step));
    let mut coarse = Bitmap::new(width, height);
    for y in 0..height {
        for x in 0..width {
            if let Some(Rgb(r, g, b)) = bitmap.get(x * step, y * step) {
                coarse.set(x, y, Rgb(r & keep, g & keep, b & keep));
            }
        }
    }
    coarse
}
