//! The clipped frame: what the scissor leaves of an object's frame.

use std::ops::Range;
use visorlongan::Object;

/// Its cells are as large as pixels and begin at its left and upper edge.
#[derive(Clone, Copy, Debug, PartialEq, Eq)]
pub struct Clipped {
    /// The left and the upper edge, in quarters of a pixel.
    pub left: i32,
    pub top: i32,
    /// Whole cells across and down; 0 where nothing is left.
    pub columns: i32,
    pub lines: i32,
}

impl Clipped {
    /// Of a scissor by its left, upper, right and lower edge in pixels.
    pub fn of(object: &Object, scissor: [i32; 4]) -> Clipped {
        let [ulx, uly, lrx, lry] = scissor.map(|edge| edge.clamp(0, 1023) * 4);
        let reach = |first: i32, length: i32, low: i32, high: i32| {
            let begin = first.max(low);
            let end = (first + length).min(high);
            (begin, (end - begin).div_euclid(4).max(0))
        };
        let (left, columns) = reach(object.frame_x.0, object.frame_w.0, ulx, lrx);
        let (top, lines) = reach(object.frame_y.0, object.frame_h.0, uly, lry);
        Clipped {
            left,
            top,
            columns,
            lines,
        }
    }

    /// The pixels in which its cells begin: columns and lines of the screen.
    pub fn pixels(&self) -> (Range<i32>, Range<i32>) {
        let reach = |begin: i32, cells: i32| {
            let first = begin.div_euclid(4);
            first..first + cells
        };
        (reach(self.left, self.columns), reach(self.top, self.lines))
    }
}
