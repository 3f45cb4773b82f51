//! What the rectangles of a copied plan show, read off the loads before them (SPECIFICATION 16.3).

use visorlongan::{Load, Object, Rect};

/// A rectangle of a copied plan, and the load before it.
#[derive(Clone, Copy, Debug, PartialEq, Eq)]
pub struct Reading {
    pub load: Load,
    pub rect: Rect,
}

impl Reading {
    /// Which cell of the rectangle begins at a place of the screen, in quarters of a pixel: i across
    /// and j down, from 0.
    pub fn cell(&self, [x, y]: [i32; 2]) -> Option<[i32; 2]> {
        let rect = &self.rect;
        let inside = (rect.ulx..=rect.lrx).contains(&x) && (rect.uly..=rect.lry).contains(&y);
        inside.then(|| [(x - rect.ulx) / 4, (y - rect.uly) / 4])
    }

    /// Which of the load's columns its cells i show: 0 is the first. Counting down from there, -1 is
    /// the first again, and -2 the second.
    pub fn number(&self, i: i32) -> i32 {
        i32::from(self.rect.uls).div_euclid(32) + i
    }

    /// The image's column that its cells i show.
    pub fn column(&self, i: i32) -> u64 {
        let number = self.number(i);
        let column = if number < 0 { -1 - number } else { number };
        u64::from(self.load.uls / 4) + column as u64
    }

    /// The image's row that its cells j show.
    pub fn row(&self, j: i32) -> u64 {
        u64::from(self.load.ult / 4) + j as u64
    }

    /// Whether the column that its cells i show is one of the load's. None is before the first.
    pub fn has_column(&self, i: i32) -> bool {
        self.column(i) <= (self.load.lrs / 4).into()
    }

    /// Whether the row that its cells j show is one of the load's.
    pub fn has_row(&self, j: i32) -> bool {
        self.row(j) <= (self.load.lrt / 4).into()
    }

    /// Whether what its cell (i, j) shows is loaded.
    pub fn is_loaded(&self, [i, j]: [i32; 2]) -> bool {
        self.has_column(i) && self.has_row(j)
    }
}

/// How many columns a load has.
pub fn columns(load: &Load) -> u16 {
    (load.lrs / 4 + 1).saturating_sub(load.uls / 4)
}

/// Whether a load is a flipped one of more than 1,024 columns. Nothing is claimed of what it shows:
/// i16 cuts its rectangle's uls, as in the original (SPECIFICATION 16.4, docs/DIFFERENCES.md).
pub fn is_too_wide(object: &Object, load: &Load) -> bool {
    object.image_flip == 1 && columns(load) > 1_024
}
