//! Which pixels of the screen a sheet shows, and where on the paper.

use super::pen::{BOX, SCREEN_X, TOP};
use crate::study::Study;

/// A window of the screen, and how large one of its pixels is on the paper.
pub struct View {
    pub x: i32,
    pub y: i32,
    pub width: i32,
    pub height: i32,
    pub unit: f64,
}

impl View {
    /// The whole screen, or where the frame is a small part of it the part around the frame.
    pub fn of(study: &Study) -> View {
        let (columns, lines) = study.frame();
        let (w, h) = (columns.end - columns.start, lines.end - lines.start);
        let mut zoom = 1;
        if w > 0 && h > 0 {
            zoom = (study.width / (w + 2)).min(study.height / (h + 2)).max(1);
        }
        // A frame of a quarter and more is left as it is on the screen.
        let zoom = if zoom < 4 { 1 } else { zoom };
        let (width, height) = (study.width / zoom, study.height / zoom);
        let place = |first: i32, size: i32, window: i32, screen: i32| {
            (first - (window - size) / 2).clamp(0, (screen - window).max(0))
        };
        View {
            x: place(columns.start, w, width, study.width),
            y: place(lines.start, h, height, study.height),
            width,
            height,
            unit: (BOX.0 / f64::from(width)).min(BOX.1 / f64::from(height)),
        }
    }

    pub fn zoomed(&self, study: &Study) -> bool {
        self.width < study.width
    }

    /// The place of a column's left edge, and of a line's upper one.
    pub fn across(&self, column: i32) -> f64 {
        SCREEN_X + f64::from(column - self.x) * self.unit
    }

    pub fn down(&self, line: i32) -> f64 {
        TOP + f64::from(line - self.y) * self.unit
    }

    /// The window's size on the paper.
    pub fn size(&self) -> (f64, f64) {
        (
            f64::from(self.width) * self.unit,
            f64::from(self.height) * self.unit,
        )
    }

    pub fn foot(&self) -> f64 {
        TOP + self.size().1
    }
}
