//! Texture memory: a bar for each load.

use super::pen::{Pen, DARK_RED, DRIFT_W, DRIFT_X, GREY, LOWER, MEMORY_FOOT, SCREEN_X};
use crate::fields::grouped;
use crate::paint::{Anchor, Rgb, Stroke};
use crate::study::{LoadSeen, Study};

const HIGH: f64 = 40.0;
const WIDE: f64 = DRIFT_X + DRIFT_W - SCREEN_X;

/// Thinner bars run into one another: then a bar is for several loads.
const THINNEST: f64 = 2.0;

/// Bars are no wider, however few there are.
const WIDEST: f64 = 120.0;

pub fn draw(pen: &mut Pen, study: &Study) {
    let bars = WIDE / THINNEST;
    let each = (study.loads.len() as f64 / bars).ceil().max(1.0) as usize;
    let says = match each {
        1 => "one bar a load: the words that it fills; red: the capacity".to_string(),
        n => format!("one bar for {n} loads: the words of the largest; red: the capacity"),
    };
    pen.heading((SCREEN_X, LOWER), "TEXTURE MEMORY", 130.0, &says);
    let groups = study.loads.chunks(each);
    let wide = (WIDE / groups.len().max(1) as f64).min(WIDEST);
    for (n, loads) in groups.enumerate() {
        bar(pen, n as f64 * wide, wide, loads, study.capacity());
    }
    axis(pen, study.capacity());
}

/// The words of the largest of some loads, in a colour that tells strips apart.
fn bar(pen: &mut Pen, x: f64, wide: f64, loads: &[LoadSeen], capacity: u64) {
    let words = loads.iter().map(|load| load.words).max().unwrap_or(0);
    let high = words as f64 / capacity as f64 * HIGH;
    let colour = match loads[0].strip % 2 {
        _ if words > capacity => DARK_RED,
        0 => Rgb::hex(0x5f7396),
        _ => Rgb::hex(0x93a3bb),
    };
    let gap = (wide * 0.1).min(0.4);
    let at = (SCREEN_X + x + gap, MEMORY_FOOT - high);
    pen.fill(at, (wide - 2.0 * gap, high), colour);
}

fn axis(pen: &mut Pen, capacity: u64) {
    let (top, right) = (MEMORY_FOOT - HIGH, SCREEN_X + WIDE);
    let limit = Stroke::dashed(DARK_RED, 1.2, 5.0, 3.0);
    pen.line((SCREEN_X, top), (right, top), limit);
    let ground = Stroke::new(GREY, 1.0);
    pen.line((SCREEN_X, MEMORY_FOOT), (right, MEMORY_FOOT), ground);
    let (x, text) = (SCREEN_X - 6.0, grouped(capacity as i64));
    pen.words((x, top + 4.0), 11.0, DARK_RED, Anchor::End, &text);
    pen.words((x, MEMORY_FOOT + 4.0), 11.0, GREY, Anchor::End, "0");
}
