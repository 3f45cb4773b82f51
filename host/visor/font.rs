//! A sans-serif font of strokes. Heights are laid onto whole pixels, so that text is clear at small
//! sizes; along the line places stay as they are, so that letters stand evenly.

use crate::glyphs::{Glyph, GLYPHS, UNKNOWN};
use crate::paint::Point;

/// How wide a text is, in the unit of its size.
pub fn width(text: &str, size: f64, bold: bool) -> f64 {
    text.chars()
        .map(|letter| advance(glyph(letter), bold))
        .sum::<f64>()
        * size
}

/// How wide the strokes of a text are. Thinner than a pixel they would be pale; but very small
/// letters must not fill up.
pub fn weight(size: f64, bold: bool) -> f64 {
    let (share, least, most) = if bold {
        (0.15, 1.5, 0.18)
    } else {
        (0.095, 1.1, 0.14)
    };
    (share * size).max(f64::min(least, most * size))
}

/// The strokes of a text of this size in pixels, each a line through places, from where the text
/// starts on its baseline, which should be a whole pixel; y grows downwards.
pub fn strokes(text: &str, start: Point, size: f64, bold: bool) -> Vec<Vec<Point>> {
    let fit = Fit::new(size, bold);
    let mut strokes = Vec::new();
    let mut pen = 0.0;
    for letter in text.chars() {
        let glyph = glyph(letter);
        let origin = (start.0 + pen * size, start.1);
        strokes.extend(glyph.2.split('/').map(|stroke| fit.stroke(stroke, origin)));
        pen += advance(glyph, bold);
    }
    strokes
}

fn glyph(letter: char) -> &'static Glyph {
    let ascii = (letter as usize).wrapping_sub(32);
    let found = if ascii < 95 {
        GLYPHS.get(ascii)
    } else {
        GLYPHS[95..].iter().find(|glyph| glyph.0 == letter)
    };
    found.unwrap_or(&UNKNOWN)
}

/// Bold glyphs are wider, and stand farther apart for their heavier strokes.
const BOLD_STRETCH: f64 = 1.05;
const BOLD_GAP: f64 = 3.0;

/// In font sizes.
fn advance(glyph: &Glyph, bold: bool) -> f64 {
    if bold {
        (glyph.1 * BOLD_STRETCH + BOLD_GAP) / 100.0
    } else {
        glyph.1 / 100.0
    }
}

/// How the grid of the glyphs lies on the pixels.
struct Fit {
    size: f64,
    bold: bool,
    weight: f64,
    /// Heights on the grid, and how many pixels above the baseline they are.
    heights: [(f64, f64); 6],
    /// For every step of a turn how far it is from the corner towards both ends.
    turn: Vec<(f64, f64)>,
}

impl Fit {
    fn new(size: f64, bold: bool) -> Fit {
        let weight = weight(size, bold);
        let half = weight / 2.0;
        let steps = (1.2 * size.sqrt()).clamp(3.0, 24.0) as usize;
        let turn = (1..=steps).map(|step| {
            let angle = step as f64 / steps as f64 * std::f64::consts::FRAC_PI_2;
            (1.0 - angle.sin(), 1.0 - angle.cos())
        });
        let [small, capital, tall] = [0.547, 0.73, 0.76].map(|share| (share * size).round());
        Fit {
            size,
            bold,
            weight,
            heights: [
                (-21.0, half - (0.21 * size).round()),
                (0.0, half),
                (46.0, small - half),
                (64.0, capital - half),
                (67.0, tall - half),
                // A dot must not touch its letter.
                (70.0, tall.max(small + 1.0 + weight) - half),
            ],
            turn: turn.collect(),
        }
    }

    /// The nearest place where a stroke's edge is between two pixels.
    fn snap(&self, middle: f64) -> f64 {
        (middle - self.weight / 2.0).round() + self.weight / 2.0
    }

    fn x(&self, x: f64) -> f64 {
        let x = if self.bold {
            x * BOLD_STRETCH + BOLD_GAP / 2.0
        } else {
            x
        };
        x / 100.0 * self.size
    }

    /// Pixels above the baseline: between the known heights in proportion, on whole pixels.
    fn y(&self, y: f64) -> f64 {
        let above = self.heights.iter().position(|height| y <= height.0);
        let index = above.unwrap_or(5).max(1);
        let (low, high) = (self.heights[index - 1], self.heights[index]);
        if y == low.0 {
            return low.1;
        }
        if y == high.0 {
            return high.1;
        }
        self.snap(low.1 + (y - low.0) / (high.0 - low.0) * (high.1 - low.1))
    }

    /// A stroke of a glyph that starts at `origin`.
    fn stroke(&self, stroke: &str, origin: Point) -> Vec<Point> {
        let mut points = Vec::new();
        let mut corner = None;
        for place in stroke.split_whitespace() {
            let plain = place.trim_start_matches('~');
            let (x, y) = plain.split_once(',').unwrap_or_default();
            let at = |number: &str| f64::from(number.parse::<i16>().unwrap_or(0));
            let point = (origin.0 + self.x(at(x)), origin.1 - self.y(at(y)));
            if plain != place {
                corner = Some(point);
                continue;
            }
            match (corner.take(), points.last()) {
                (Some(corner), Some(&from)) => self.turn(&mut points, from, corner, point),
                _ => points.push(point),
            }
        }
        points
    }

    /// A quarter of the ellipse that touches the lines from the corner at both ends.
    fn turn(&self, points: &mut Vec<Point>, from: Point, corner: Point, to: Point) {
        points.extend(self.turn.iter().map(|(near, far)| {
            let place = |from: f64, corner: f64, to: f64| {
                corner + (from - corner) * near + (to - corner) * far
            };
            (place(from.0, corner.0, to.0), place(from.1, corner.1, to.1))
        }));
    }
}

#[cfg(test)]
mod tests {
    use super::*;

    #[test]
    fn glyphs_are_in_order_and_well_formed() {
        for (index, (letter, advance, strokes)) in GLYPHS.iter().enumerate() {
            assert!(index >= 95 || *letter as usize == 32 + index);
            assert!(!GLYPHS[..index].iter().any(|glyph| glyph.0 == *letter));
            assert!((20.0..=100.0).contains(advance));
            for stroke in strokes.split('/') {
                let places: Vec<&str> = stroke.split_whitespace().collect();
                // A turn needs a place before and behind it.
                assert!(places.first().is_none_or(|place| !place.starts_with('~')));
                assert!(places.last().is_none_or(|place| !place.starts_with('~')));
                assert!(*letter == ' ' || places.len() > 1);
                for place in places {
                    let (x, y) = place.trim_start_matches('~').split_once(',').unwrap();
                    let (x, y): (f64, f64) = (x.parse().unwrap(), y.parse().unwrap());
                    assert!(
                        (0.0..=*advance).contains(&x) && (-21.0..=70.0).contains(&y),
                        "{letter}"
                    );
                }
            }
        }
    }

    #[test]
    fn widths_are_those_of_dejavu_sans() {
        for digit in "0123456789".chars() {
            assert_eq!(width(&digit.to_string(), 1000.0, false), 636.0);
        }
        assert_eq!(width("", 12.0, true), 0.0);
        let text = "tiles, 640×480";
        assert!((width(text, 100.0, false) - 737.5).abs() < 0.1);
        assert!((width(text, 100.0, true) - 817.8).abs() < 10.0);
    }

    #[test]
    fn unknown_letters_are_boxes() {
        let drawn = strokes("\u{2603}\n", (0.0, 0.0), 20.0, false);
        assert_eq!(drawn.len(), 2);
        assert!(drawn.iter().all(|stroke| stroke.len() == 5));
    }

    #[test]
    fn heights_are_whole_pixels() {
        for size in 9..23 {
            for bold in [false, true] {
                let fit = Fit::new(size.into(), bold);
                let half = fit.weight / 2.0;
                for edge in [
                    fit.y(0.0) - half,
                    fit.y(46.0) + half,
                    fit.y(64.0) + half,
                    fit.y(-21.0) - half,
                ] {
                    assert!((edge - edge.round()).abs() < 1e-9);
                }
                // The dot of an i is parted from its stem.
                assert!(fit.y(70.0) - half >= fit.y(46.0) + half + 0.99);
            }
        }
    }
}
