//! What the parts of a sheet draw with: its places, its colours, and short ways to add shapes.

use crate::paint::{Anchor, Bitmap, Point, Rgb, Shape, Stroke};

pub const INK: Rgb = Rgb::hex(0x222222);
pub const GREY: Rgb = Rgb::hex(0x666666);
pub const LIGHT: Rgb = Rgb::hex(0xcccccc);
pub const PAPER: Rgb = Rgb::hex(0xfafafa);
pub const WHITE: Rgb = Rgb::hex(0xffffff);
pub const GREEN: Rgb = Rgb::hex(0x1b7f3b);
pub const BAND: Rgb = Rgb::hex(0xe7f5ea);
pub const RED: Rgb = Rgb::hex(0xff1744);
pub const DARK_RED: Rgb = Rgb::hex(0xb3261e);
pub const PALE_RED: Rgb = Rgb::hex(0xfbe3e1);
pub const BLUE: Rgb = Rgb::hex(0x1f4fa3);
pub const ORANGE: Rgb = Rgb::hex(0xe07000);
pub const MAGENTA: Rgb = Rgb::hex(0xd0006f);

/// A sheet's size, and where its parts stand: screen, seams and drift side by side on one vertical
/// axis, the image to their right, texture memory and lens below.
pub const WIDTH: f64 = 1560.0;
pub const TOP: f64 = 92.0;
pub const BOX: (f64, f64) = (480.0, 360.0);
pub const SCREEN_X: f64 = 64.0;
pub const SEAMS_X: f64 = SCREEN_X + BOX.0 + 12.0;
pub const DRIFT_X: f64 = SEAMS_X + 88.0;
pub const DRIFT_W: f64 = 300.0;
pub const IMAGE_X: f64 = DRIFT_X + DRIFT_W + 70.0;
pub const LOWER: f64 = TOP + BOX.1 + 52.0;
pub const MEMORY_FOOT: f64 = LOWER + 56.0;
pub const WORDS_Y: f64 = MEMORY_FOOT + 26.0;
pub const WORDS_STEP: f64 = 19.0;
pub const WORDS_WIDTH: f64 = DRIFT_X + DRIFT_W - SCREEN_X;

#[derive(Default)]
pub struct Pen {
    pub shapes: Vec<Shape>,
}

impl Pen {
    pub fn words(&mut self, at: Point, size: f64, colour: Rgb, anchor: Anchor, text: &str) {
        self.write(at, size, false, colour, anchor, text);
    }

    pub fn bold(&mut self, at: Point, size: f64, colour: Rgb, anchor: Anchor, text: &str) {
        self.write(at, size, true, colour, anchor, text);
    }

    fn write(&mut self, at: Point, size: f64, bold: bool, colour: Rgb, anchor: Anchor, text: &str) {
        self.shapes.push(Shape::Text {
            at,
            size,
            bold,
            colour,
            anchor,
            text: text.to_string(),
        });
    }

    /// The name of a part, and what it shows.
    pub fn heading(&mut self, (x, y): Point, name: &str, gap: f64, says: &str) {
        self.bold((x, y), 12.0, INK, Anchor::Start, name);
        self.words((x + gap, y), 12.0, GREY, Anchor::Start, says);
    }

    pub fn fill(&mut self, at: Point, size: (f64, f64), colour: Rgb) {
        self.rect(at, size, Some(colour), None);
    }

    pub fn rect(&mut self, at: Point, size: (f64, f64), fill: Option<Rgb>, stroke: Option<Stroke>) {
        self.shapes.push(Shape::Rect {
            at,
            size,
            radius: 0.0,
            fill,
            stroke,
        });
    }

    pub fn rounded(&mut self, at: Point, size: (f64, f64), fill: Rgb, stroke: Option<Stroke>) {
        self.shapes.push(Shape::Rect {
            at,
            size,
            radius: 5.0,
            fill: Some(fill),
            stroke,
        });
    }

    pub fn line(&mut self, from: Point, to: Point, stroke: Stroke) {
        self.lines(vec![(from, to)], stroke);
    }

    pub fn lines(&mut self, ends: Vec<(Point, Point)>, stroke: Stroke) {
        if !ends.is_empty() {
            self.shapes.push(Shape::Lines { ends, stroke });
        }
    }

    pub fn polygon(&mut self, points: Vec<Point>, fill: Option<Rgb>, stroke: Option<Stroke>) {
        self.shapes.push(Shape::Polygon {
            points,
            fill,
            stroke,
        });
    }

    pub fn dot(&mut self, at: Point, fill: Rgb) {
        self.shapes.push(Shape::Circle {
            at,
            radius: 5.0,
            fill,
        });
    }

    pub fn pixels(&mut self, at: Point, size: (f64, f64), bitmap: Bitmap) {
        self.shapes.push(Shape::Pixels { at, size, bitmap });
    }

    /// A dot where something begins, and an arrow the way that it goes: right, or left where `way`
    /// is negative.
    pub fn start(&mut self, (x, y): Point, way: f64) {
        let tip = x + way * 53.0;
        self.line((x, y), (x + way * 44.0, y), Stroke::new(INK, 2.0));
        let back = tip - way * 9.0;
        self.polygon(
            vec![(back, y - 5.0), (tip, y), (back, y + 5.0)],
            Some(INK),
            None,
        );
        self.dot((x, y), INK);
    }

    /// A label with a border, for what is seen at a place; `(x, y)` is its upper left corner.
    pub fn label(&mut self, (x, y): Point, colour: Rgb, text: &str) {
        let width = 11.0 * 0.61 * text.chars().count() as f64 + 12.0;
        let border = Stroke::new(colour, 1.0);
        self.rounded((x, y), (width, 20.0), WHITE, Some(border));
        self.words((x + 6.0, y + 14.0), 11.0, colour, Anchor::Start, text);
    }
}

/// Places along an axis for some numbers, with room between them: at most eight of 0 to `count`.
pub fn ticks(first: i64, end: i64) -> Vec<i64> {
    let steps = [
        1, 2, 5, 10, 20, 40, 80, 100, 200, 400, 800, 1000, 2000, 4000, 8000,
    ];
    let span = end - first;
    let step = steps
        .into_iter()
        .find(|step| span / step <= 6)
        .unwrap_or(16_000);
    let from = first.div_euclid(step) * step;
    (0..)
        .map(|n| from + n * step)
        .take_while(|n| *n <= end)
        .filter(|n| *n >= first)
        .collect()
}

#[cfg(test)]
mod tests {
    use super::*;

    #[test]
    fn ticks_have_room() {
        assert_eq!(ticks(0, 240), [0, 40, 80, 120, 160, 200, 240]);
        assert_eq!(ticks(10, 12), [10, 11, 12]);
        assert!(ticks(0, 65_536).len() <= 8);
    }
}
