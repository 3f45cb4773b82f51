//! A drawing as a list of shapes, in the order in which they are painted. svg.rs writes it as text,
//! raster.rs as pixels.

/// Red, green, blue.
#[derive(Clone, Copy, Debug, PartialEq, Eq, Hash)]
pub struct Rgb(pub u8, pub u8, pub u8);

impl Rgb {
    /// A colour written as 0xrrggbb.
    pub const fn hex(number: u32) -> Rgb {
        Rgb((number >> 16) as u8, (number >> 8) as u8, number as u8)
    }
}

/// Pixels in rows; none where nothing is painted.
#[derive(Clone, Debug, PartialEq, Eq)]
pub struct Bitmap {
    pub width: usize,
    pub height: usize,
    pub pixels: Vec<Option<Rgb>>,
}

impl Bitmap {
    pub fn new(width: usize, height: usize) -> Bitmap {
        Bitmap {
            width,
            height,
            pixels: vec![None; width * height],
        }
    }

    /// The pixel there; none where nothing is painted, and none outside.
    pub fn get(&self, x: usize, y: usize) -> Option<Rgb> {
        if x < self.width && y < self.height {
            self.pixels[y * self.width + x]
        } else {
            None
        }
    }

    /// Paints a pixel; one outside is left out.
    pub fn set(&mut self, x: usize, y: usize, colour: Rgb) {
        if x < self.width && y < self.height {
            self.pixels[y * self.width + x] = Some(colour);
        }
    }
}

/// How a line is drawn. `dash` is a length drawn and a length left out.
#[derive(Clone, Copy, Debug, PartialEq)]
pub struct Stroke {
    pub colour: Rgb,
    pub width: f64,
    pub dash: Option<(f64, f64)>,
}

impl Stroke {
    pub const fn new(colour: Rgb, width: f64) -> Stroke {
        Stroke {
            colour,
            width,
            dash: None,
        }
    }

    pub const fn dashed(colour: Rgb, width: f64, on: f64, off: f64) -> Stroke {
        Stroke {
            colour,
            width,
            dash: Some((on, off)),
        }
    }
}

/// Which end of a text stands at its place.
#[derive(Clone, Copy, Debug, PartialEq, Eq)]
pub enum Anchor {
    Start,
    Middle,
    End,
}

/// A place, from the upper left corner.
pub type Point = (f64, f64);

#[derive(Clone, Debug, PartialEq)]
pub enum Shape {
    Rect {
        at: Point,
        size: (f64, f64),
        /// Of the rounded corners.
        radius: f64,
        fill: Option<Rgb>,
        stroke: Option<Stroke>,
    },
    /// Straight lines that are drawn alike, each from one place to another.
    Lines {
        ends: Vec<(Point, Point)>,
        stroke: Stroke,
    },
    Polygon {
        points: Vec<Point>,
        fill: Option<Rgb>,
        stroke: Option<Stroke>,
    },
    Circle {
        at: Point,
        radius: f64,
        fill: Rgb,
    },
    /// A line of text; `at` is on its baseline.
    Text {
        at: Point,
        size: f64,
        bold: bool,
        colour: Rgb,
        anchor: Anchor,
        text: String,
    },
    /// Pixels drawn into a rectangle, each as a rectangle of one colour.
    Pixels {
        at: Point,
        size: (f64, f64),
        bitmap: Bitmap,
    },
}

/// Shapes on white paper.
#[derive(Clone, Debug, PartialEq)]
pub struct Drawing {
    pub width: f64,
    pub height: f64,
    /// What the drawing shows, for those who cannot see it.
    pub title: String,
    pub shapes: Vec<Shape>,
}
