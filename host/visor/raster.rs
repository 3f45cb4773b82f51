//! A drawing as pixels.

use crate::font;
use crate::paint::{Anchor, Bitmap, Drawing, Point, Rgb, Shape, Stroke};
use std::f64::consts::FRAC_PI_2;
use std::ops::Range;

const WHITE: Rgb = Rgb(255, 255, 255);
/// The most pixels a side, and in all.
const SIDE: f64 = 16_384.0;
const AREA: usize = 64_000_000;
/// No place is farther away than this, so that sums keep their precision.
const FAR: f64 = 1e6;
/// A dash and its gap that are shorter than this, in pixels and in widths of the line, are drawn
/// without gaps: nobody could tell them, and there may be millions.
const SHORT_DASH: f64 = 0.25;

/// Paints a drawing on white paper, `scale` pixels a unit.
pub fn paint(drawing: &Drawing, scale: f64) -> Bitmap {
    let side = |length: f64| (length * scale - 1e-6).ceil().clamp(1.0, SIDE) as usize;
    let width = side(drawing.width).max(1);
    let height = side(drawing.height).clamp(1, AREA / width);
    let mut canvas = Canvas::new(width, height, scale);
    for shape in &drawing.shapes {
        canvas.shape(shape);
    }
    canvas.bitmap
}

struct Canvas {
    bitmap: Bitmap,
    scale: f64,
    /// How much of every pixel the shape covers that is being painted; else 0. Rows are two longer
    /// than those of the bitmap, for the ends of edges.
    cover: Vec<f32>,
    /// The columns of `cover` that are in use, in every row.
    spans: Vec<Range<usize>>,
    /// The rows that are in use.
    rows: Range<usize>,
}

/// Joined to another range it leaves that as it is.
const NONE: Range<usize> = Range {
    start: usize::MAX,
    end: 0,
};

impl Canvas {
    fn new(width: usize, height: usize, scale: f64) -> Canvas {
        let mut bitmap = Bitmap::new(width, height);
        bitmap.pixels.fill(Some(WHITE));
        Canvas {
            bitmap,
            scale,
            cover: vec![0.0; (width + 2) * height],
            spans: vec![NONE; height],
            rows: NONE,
        }
    }

    fn shape(&mut self, shape: &Shape) {
        match shape {
            Shape::Rect {
                at,
                size,
                radius,
                fill,
                stroke,
            } => self.rect(*at, *size, *radius, *fill, *stroke),
            Shape::Lines { ends, stroke } => {
                for &(from, to) in ends {
                    let path = [self.place(from), self.place(to)];
                    self.line(&path, stroke);
                }
            }
            Shape::Polygon {
                points,
                fill,
                stroke,
            } => self.polygon(points, *fill, *stroke),
            Shape::Circle { at, radius, fill } => {
                let radius = limit(radius * self.scale);
                if positive(radius) {
                    let (x, y) = self.place(*at);
                    let corners = (x - radius, y - radius, x + radius, y + radius);
                    self.fill(&[rounded(corners, radius)], *fill);
                }
            }
            Shape::Text {
                at,
                size,
                bold,
                colour,
                anchor,
                text,
            } => self.text(*at, *size, *bold, *colour, *anchor, text),
            Shape::Pixels { at, size, bitmap } => self.pixels(*at, *size, bitmap),
        }
    }

    /// A place in pixels.
    fn place(&self, at: Point) -> Point {
        (limit(at.0 * self.scale), limit(at.1 * self.scale))
    }

    /// The sides of the paper together.
    fn most(&self) -> f64 {
        (self.bitmap.width + self.bitmap.height) as f64
    }

    /// In pixels; 0 for a stroke that could hide all others.
    fn stroke_width(&self, stroke: &Stroke) -> f64 {
        let width = stroke.width * self.scale;
        if width <= self.most() {
            width
        } else {
            0.0
        }
    }

    fn rect(
        &mut self,
        at: Point,
        size: (f64, f64),
        radius: f64,
        fill: Option<Rgb>,
        stroke: Option<Stroke>,
    ) {
        let (left, top) = self.place(at);
        let (right, bottom) = self.place((at.0 + size.0, at.1 + size.1));
        if !positive(right - left) || !positive(bottom - top) {
            return;
        }
        let radius = radius * self.scale;
        let grown = |by: f64| {
            let corners = (left - by, top - by, right + by, bottom + by);
            rounded(corners, if positive(radius) { radius + by } else { 0.0 })
        };
        if let Some(colour) = fill {
            self.fill(&[grown(0.0)], colour);
        }
        let Some(stroke) = stroke else {
            return;
        };
        let half = self.stroke_width(&stroke) / 2.0;
        if stroke.dash.is_some() {
            let mut path = grown(0.0);
            path.extend(path.first().copied());
            self.line(&path, &stroke);
        } else if positive(half) {
            let mut ring = vec![grown(half)];
            if right - left > 2.0 * half && bottom - top > 2.0 * half {
                // The other way round it is a hole.
                ring.push(grown(-half).into_iter().rev().collect());
            }
            self.fill(&ring, stroke.colour);
        }
    }

    fn polygon(&mut self, points: &[Point], fill: Option<Rgb>, stroke: Option<Stroke>) {
        let mut path: Vec<Point> = points.iter().map(|&at| self.place(at)).collect();
        if let Some(colour) = fill {
            self.fill(&[path.clone()], colour);
        }
        let Some(stroke) = stroke else {
            return;
        };
        path.extend(path.first().copied());
        if stroke.dash.is_some() {
            self.line(&path, &stroke);
            return;
        }
        let width = self.stroke_width(&stroke);
        for ends in path.windows(2) {
            self.cover_line(ends[0], ends[1], width);
        }
        self.blend(stroke.colour);
    }

    /// A line through these places, with dashes if the stroke has some. Its ends are cut straight.
    fn line(&mut self, path: &[Point], stroke: &Stroke) {
        let width = self.stroke_width(stroke);
        let (on, off) = stroke.dash.unwrap_or((1.0, 0.0));
        let (on, period) = (on * self.scale, (on + off) * self.scale);
        let dashed = on > 0.0 && positive(period - on) && period > SHORT_DASH * width.max(1.0);
        let mut passed = 0.0;
        for ends in path.windows(2) {
            let (from, to) = (ends[0], ends[1]);
            let Some(seen) = self.seen(from, to, width) else {
                passed += distance(from, to);
                continue;
            };
            let length = distance(from, to);
            let (mut start, stop) = (passed + seen.start * length, passed + seen.end * length);
            let along = |way: f64| between(from, to, (way - passed) / length);
            while dashed && start < stop {
                let first = (start / period).floor() * period;
                if start < first + on {
                    let end = stop.min(first + on);
                    self.bar(along(start), along(end), width, stroke.colour);
                }
                // Rounding must not keep it where it is.
                start = (first + period).max(start + SHORT_DASH / 2.0);
            }
            if !dashed {
                self.bar(from, to, width, stroke.colour);
            }
            passed += length;
        }
    }

    /// A straight line whose ends are cut straight.
    fn bar(&mut self, from: Point, to: Point, width: f64, colour: Rgb) {
        let share = width / 2.0 / distance(from, to);
        let (x, y) = ((to.1 - from.1) * share, (from.0 - to.0) * share);
        let corners = vec![
            (from.0 - x, from.1 - y),
            (to.0 - x, to.1 - y),
            (to.0 + x, to.1 + y),
            (from.0 + x, from.1 + y),
        ];
        self.fill(&[corners], colour);
    }

    fn text(&mut self, at: Point, size: f64, bold: bool, colour: Rgb, anchor: Anchor, text: &str) {
        let size = size * self.scale;
        let (x, y) = self.place(at);
        // Of letters larger than the paper nothing could be read.
        if !positive(size) || size > self.most() || !x.is_finite() || !y.is_finite() {
            return;
        }
        let width = font::width(text, size, bold);
        let start = match anchor {
            Anchor::Start => x,
            Anchor::Middle => x - width / 2.0,
            Anchor::End => x - width,
        };
        let weight = font::weight(size, bold);
        for stroke in font::strokes(text, (start, y.round()), size, bold) {
            for ends in stroke.windows(2) {
                self.cover_line(ends[0], ends[1], weight);
            }
        }
        self.blend(colour);
    }

    /// Paints the inside of closed lines; where they turn against each other, holes are left.
    fn fill(&mut self, outlines: &[Vec<Point>], colour: Rgb) {
        let finite = |point: &Point| point.0.is_finite() && point.1.is_finite();
        if !outlines.iter().flatten().all(finite) {
            return;
        }
        let (width, height) = (self.bitmap.width as f64, self.bitmap.height as f64);
        for outline in outlines {
            let outline = keep(outline, |point| point.0);
            let outline = keep(&outline, |point| width - point.0);
            let outline = keep(&outline, |point| point.1);
            let outline = keep(&outline, |point| height - point.1);
            for (index, &to) in outline.iter().enumerate() {
                let from = outline[(index + outline.len() - 1) % outline.len()];
                self.edge(from, to);
            }
        }
        self.sum();
        self.blend(colour);
    }

    /// Notes, row by row, an edge of a shape that lies right of it.
    fn edge(&mut self, from: Point, to: Point) {
        let (sign, high, low) = if from.1 < to.1 {
            (1.0, from, to)
        } else {
            (-1.0, to, from)
        };
        let slope = (low.0 - high.0) / (low.1 - high.1);
        let rows = high.1 as usize..(low.1.ceil() as usize).min(self.bitmap.height);
        let (mut x, mut y) = high;
        for row in rows {
            let next = low.1.min(row as f64 + 1.0);
            let end = if next == low.1 {
                low.0
            } else {
                high.0 + slope * (next - high.1)
            };
            if next > y {
                self.edge_in_row(row, x.min(end), x.max(end), sign * (next - y));
            }
            (x, y) = (end, next);
        }
    }

    /// Notes in `cover` by how much an edge of this height changes what is covered, from each
    /// column on.
    fn edge_in_row(&mut self, row: usize, left: f64, right: f64, height: f64) {
        let most = self.bitmap.width;
        let (first, last) = ((left as usize).min(most), (right as usize).min(most));
        self.touch(row, first..last + 2);
        let start = row * (most + 2);
        for column in first..=last {
            let (from, to) = (left.max(column as f64), right.min(column as f64 + 1.0));
            let share = if first == last {
                height
            } else {
                height * (to - from) / (right - left)
            };
            let inside = share * ((from + to) / 2.0 - column as f64);
            self.cover[start + column] += (share - inside) as f32;
            self.cover[start + column + 1] += inside as f32;
        }
    }

    /// From changes to coverage.
    fn sum(&mut self) {
        let stride = self.bitmap.width + 2;
        for row in self.rows.clone() {
            let mut sum = 0.0;
            let span = self.spans[row].clone();
            if span.is_empty() {
                continue;
            }
            for cover in &mut self.cover[row * stride..][span] {
                sum += *cover;
                *cover = sum.abs().min(1.0);
            }
        }
    }

    fn touch(&mut self, row: usize, columns: Range<usize>) {
        let span = &mut self.spans[row];
        *span = span.start.min(columns.start)..span.end.max(columns.end);
        self.rows = self.rows.start.min(row)..self.rows.end.max(row + 1);
    }

    /// The part of a line, from 0 to 1, that may touch the paper.
    fn seen(&self, from: Point, to: Point, width: f64) -> Option<Range<f64>> {
        let reach = width / 2.0 + 1.0;
        let across = part_within(from.0, to.0, -reach, self.bitmap.width as f64 + reach)?;
        let down = part_within(from.1, to.1, -reach, self.bitmap.height as f64 + reach)?;
        let seen = across.start.max(down.start)..across.end.min(down.end);
        (seen.start <= seen.end && positive(width)).then_some(seen)
    }

    /// Covers a straight line with round ends.
    fn cover_line(&mut self, from: Point, to: Point, width: f64) {
        let Some(seen) = self.seen(from, to, width) else {
            return;
        };
        let pen = Pen::new(from, to, width);
        let reach = width / 2.0 + 1.0;
        let (from, to) = (between(from, to, seen.start), between(from, to, seen.end));
        let (top, bottom) = (from.1.min(to.1) - reach, from.1.max(to.1) + reach);
        for row in clipped(top, bottom, self.bitmap.height) {
            // Only what is near in height can be near.
            let y = row as f64 + 0.5;
            let Some(near) = part_within(from.1, to.1, y - reach, y + reach) else {
                continue;
            };
            let ends = [near.start, near.end].map(|part| between(from, to, part).0);
            let (left, right) = (ends[0].min(ends[1]) - reach, ends[0].max(ends[1]) + reach);
            let columns = clipped(left, right, self.bitmap.width);
            if columns.is_empty() {
                continue;
            }
            self.touch(row, columns.clone());
            let covers = &mut self.cover[row * (self.bitmap.width + 2)..][columns.clone()];
            for (column, cover) in columns.zip(covers) {
                *cover = cover.max(pen.cover((column as f64 + 0.5, y)) as f32);
            }
        }
    }

    /// Paints what is covered, and forgets it.
    fn blend(&mut self, colour: Rgb) {
        let width = self.bitmap.width;
        for row in std::mem::replace(&mut self.rows, NONE) {
            let span = std::mem::replace(&mut self.spans[row], NONE);
            if span.is_empty() {
                continue;
            }
            let covers = &mut self.cover[row * (width + 2)..][span.clone()];
            let from = row * width + span.start.min(width);
            let pixels = &mut self.bitmap.pixels[from..(row + 1) * width];
            for (cover, pixel) in covers.iter().zip(pixels) {
                *pixel = Some(mix(*pixel, colour, *cover));
            }
            covers.fill(0.0);
        }
    }

    fn pixels(&mut self, at: Point, size: (f64, f64), source: &Bitmap) {
        let (left, top) = self.place(at);
        let (right, bottom) = self.place((at.0 + size.0, at.1 + size.1));
        if !positive(right - left) || !positive(bottom - top) {
            return;
        }
        let across = samples(left, right, source.width, self.bitmap.width);
        let down = samples(top, bottom, source.height, self.bitmap.height);
        for (y, rows) in &down {
            for (x, columns) in &across {
                let (colour, cover) = average(source, columns, rows);
                let pixel = &mut self.bitmap.pixels[y * self.bitmap.width + x];
                *pixel = Some(mix(*pixel, colour, cover));
            }
        }
    }
}

/// A straight line of some width with round ends.
struct Pen {
    from: Point,
    /// Its direction; of length 1.
    way: Point,
    length: f64,
    half: f64,
}

impl Pen {
    fn new(from: Point, to: Point, width: f64) -> Pen {
        let length = distance(from, to);
        let way = if length > 0.0 {
            ((to.0 - from.0) / length, (to.1 - from.1) / length)
        } else {
            (1.0, 0.0)
        };
        Pen {
            from,
            way,
            length,
            half: width / 2.0,
        }
    }

    /// How much of the pixel with this middle it covers.
    fn cover(&self, middle: Point) -> f64 {
        let (x, y) = (middle.0 - self.from.0, middle.1 - self.from.1);
        let along = x * self.way.0 + y * self.way.1;
        let aside = x * self.way.1 - y * self.way.0;
        let beyond = (-along).max(along - self.length).max(0.0);
        let distance = (aside * aside + beyond * beyond).sqrt();
        ((distance + 0.5).min(self.half) - (distance - 0.5).max(-self.half)).max(0.0)
    }
}

/// Above 0 and finite.
fn positive(length: f64) -> bool {
    length > 0.0 && length.is_finite()
}

fn limit(length: f64) -> f64 {
    length.clamp(-FAR, FAR)
}

fn distance(from: Point, to: Point) -> f64 {
    (to.0 - from.0).hypot(to.1 - from.1)
}

/// The place at this part of the way.
fn between(from: Point, to: Point, part: f64) -> Point {
    (
        from.0 + (to.0 - from.0) * part,
        from.1 + (to.1 - from.1) * part,
    )
}

/// The whole pixels from one place to another, of so many.
fn clipped(from: f64, to: f64, count: usize) -> Range<usize> {
    from.max(0.0) as usize..(to.ceil().max(0.0) as usize).min(count)
}

/// The part of the way between two numbers, from 0 to 1, that lies within bounds.
fn part_within(from: f64, to: f64, least: f64, most: f64) -> Option<Range<f64>> {
    if from.max(to) < least || from.min(to) > most || !(to - from).is_finite() {
        return None;
    }
    if from == to {
        return Some(0.0..1.0);
    }
    let (a, b) = ((least - from) / (to - from), (most - from) / (to - from));
    Some(a.min(b).max(0.0)..a.max(b).min(1.0))
}

/// The corners of a rectangle, clockwise, rounded if there is a radius.
fn rounded((left, top, right, bottom): (f64, f64, f64, f64), radius: f64) -> Vec<Point> {
    let most = (right - left).min(bottom - top) / 2.0;
    let radius = radius.min(most);
    if !positive(radius) {
        return vec![(left, top), (right, top), (right, bottom), (left, bottom)];
    }
    let steps = (4.0 * radius.sqrt()).clamp(4.0, 64.0) as usize;
    let middles = [
        (left + radius, top + radius),
        (right - radius, top + radius),
        (right - radius, bottom - radius),
        (left + radius, bottom - radius),
    ];
    let mut points = Vec::new();
    for (corner, (x, y)) in middles.into_iter().enumerate() {
        for step in 0..=steps {
            let angle = (corner as f64 + 2.0 + step as f64 / steps as f64) * FRAC_PI_2;
            points.push((x + radius * angle.cos(), y + radius * angle.sin()));
        }
    }
    points
}

/// The part of an outline where `inside` is not negative.
fn keep(outline: &[Point], inside: impl Fn(Point) -> f64) -> Vec<Point> {
    if outline.iter().all(|&point| inside(point) >= 0.0) {
        return outline.to_vec();
    }
    let mut kept = Vec::new();
    for (index, &to) in outline.iter().enumerate() {
        let from = outline[(index + outline.len() - 1) % outline.len()];
        let (before, after) = (inside(from), inside(to));
        if (before < 0.0) != (after < 0.0) {
            kept.push(between(from, to, before / (before - after)));
        }
        if after >= 0.0 {
            kept.push(to);
        }
    }
    kept
}

/// A colour over a pixel.
fn mix(pixel: Option<Rgb>, colour: Rgb, cover: f32) -> Rgb {
    let below = pixel.unwrap_or(WHITE);
    if cover <= 0.0 {
        return below;
    }
    let part = |from: u8, to: u8| {
        let (from, to) = (f32::from(from), f32::from(to));
        (from + (to - from) * cover + 0.5) as u8
    };
    Rgb(
        part(below.0, colour.0),
        part(below.1, colour.1),
        part(below.2, colour.2),
    )
}

/// The pixels of the source that a pixel of the paper shows, along one side, with their weights.
type Samples = Vec<(usize, f32)>;

/// For every pixel of the paper from `start` to `end` what it shows of `count` pixels: the nearest
/// one, or, if they are smaller than those of the paper, all that it touches.
fn samples(start: f64, end: f64, count: usize, paper: usize) -> Vec<(usize, Samples)> {
    let step = count as f64 / (end - start);
    // Pixels whose middles lie inside.
    let range = clipped((start - 0.5).ceil(), (end - 0.5).ceil(), paper);
    let shown = |at: usize| {
        if step <= 1.0 {
            let nearest = (at as f64 + 0.5 - start) * step;
            return vec![((nearest as usize).min(count - 1), 1.0)];
        }
        let from = ((at as f64 - start) * step).max(0.0);
        let to = ((at as f64 + 1.0 - start) * step).min(count as f64);
        let touched = from as usize..(to.ceil() as usize).min(count);
        let weight = |index: usize| to.min(index as f64 + 1.0) - from.max(index as f64);
        touched.map(|index| (index, weight(index) as f32)).collect()
    };
    if count == 0 {
        return Vec::new();
    }
    range.map(|at| (at, shown(at))).collect()
}

/// The mean colour of some pixels, and how much of them is painted.
fn average(source: &Bitmap, columns: &Samples, rows: &Samples) -> (Rgb, f32) {
    if let ([(x, _)], [(y, _)]) = (&columns[..], &rows[..]) {
        let pixel = source.pixels[y * source.width + x];
        return (
            pixel.unwrap_or(WHITE),
            if pixel.is_some() { 1.0 } else { 0.0 },
        );
    }
    let (mut sums, mut painted, mut all) = ([0.0; 3], 0.0, 0.0);
    for (y, down) in rows {
        for (x, across) in columns {
            let weight = down * across;
            all += weight;
            if let Some(Rgb(red, green, blue)) = source.pixels[y * source.width + x] {
                painted += weight;
                sums[0] += weight * f32::from(red);
                sums[1] += weight * f32::from(green);
                sums[2] += weight * f32::from(blue);
            }
        }
    }
    if painted <= 0.0 {
        return (WHITE, 0.0);
    }
    let [red, green, blue] = sums.map(|sum| (sum / painted + 0.5) as u8);
    (Rgb(red, green, blue), painted / all)
}

#[cfg(test)]
mod tests {
    use super::*;

    const BLUE: Rgb = Rgb(0, 0, 255);
    const RED: Rgb = Rgb(255, 0, 0);

    fn painted(shapes: Vec<Shape>, scale: f64) -> Bitmap {
        let drawing = Drawing {
            width: 40.0,
            height: 30.0,
            title: String::new(),
            shapes,
        };
        let bitmap = paint(&drawing, scale);
        assert!(bitmap.pixels.iter().all(Option::is_some));
        bitmap
    }

    fn rect(at: Point, size: (f64, f64), radius: f64) -> Shape {
        Shape::Rect {
            at,
            size,
            radius,
            fill: Some(BLUE),
            stroke: None,
        }
    }

    fn text(text: &str, size: f64, bold: bool, anchor: Anchor) -> Shape {
        Shape::Text {
            at: (20.0, 20.0),
            size,
            bold,
            colour: BLUE,
            anchor,
            text: text.into(),
        }
    }

    /// How dark a pixel is, from 0 (white) to 255.
    fn ink(bitmap: &Bitmap, x: usize, y: usize) -> u8 {
        255 - bitmap.get(x, y).unwrap_or(WHITE).0
    }

    fn inked(bitmap: &Bitmap) -> Vec<(usize, usize)> {
        let places = (0..bitmap.pixels.len()).map(|i| (i % bitmap.width, i / bitmap.width));
        places.filter(|&(x, y)| ink(bitmap, x, y) > 0).collect()
    }

    #[test]
    fn rectangles_cover_exactly() {
        let bitmap = painted(vec![rect((2.0, 3.0), (10.5, 4.0), 0.0)], 1.0);
        assert_eq!(bitmap.get(2, 3), Some(BLUE));
        assert_eq!(bitmap.get(11, 6), Some(BLUE));
        assert_eq!(ink(&bitmap, 12, 5), 127);
        assert_eq!(inked(&bitmap).len(), 11 * 4);
        assert_eq!((bitmap.width, bitmap.height), (40, 30));
        let twice = painted(vec![rect((2.0, 3.0), (10.5, 4.0), 0.0)], 2.0);
        assert_eq!((twice.width, twice.height), (80, 60));
        assert_eq!(inked(&twice).len(), 21 * 8);
    }

    #[test]
    fn corners_and_circles_are_round() {
        let bitmap = painted(vec![rect((2.0, 2.0), (20.0, 20.0), 6.0)], 1.0);
        assert_eq!(ink(&bitmap, 2, 2), 0);
        assert_eq!(ink(&bitmap, 12, 2), 255);
        assert!((1..255).contains(&ink(&bitmap, 3, 4)));
        let circle = Shape::Circle {
            at: (15.0, 15.0),
            radius: 10.0,
            fill: BLUE,
        };
        let bitmap = painted(vec![circle], 1.0);
        let sum: f64 = inked(&bitmap)
            .iter()
            .map(|&(x, y)| f64::from(ink(&bitmap, x, y)))
            .sum();
        assert!((sum / 255.0 - 314.16).abs() < 1.0);
    }

    #[test]
    fn outlines_leave_their_inside() {
        let outline = |dash| Shape::Rect {
            at: (5.5, 5.5),
            size: (20.0, 10.0),
            radius: 0.0,
            fill: None,
            stroke: Some(Stroke {
                colour: BLUE,
                width: 1.0,
                dash,
            }),
        };
        let bitmap = painted(vec![outline(None)], 1.0);
        assert_eq!(inked(&bitmap).len(), 2 * 21 + 2 * 9);
        assert!(inked(&bitmap)
            .iter()
            .all(|&(x, y)| ink(&bitmap, x, y) == 255));
        let dashed = painted(vec![outline(Some((3.0, 3.0)))], 1.0);
        assert!(inked(&dashed).len() < 45);
        assert_eq!(ink(&dashed, 7, 5), 255);
        assert_eq!(ink(&dashed, 10, 5), 0);
    }

    #[test]
    fn lines_have_their_width_and_dashes() {
        let line = |to, stroke| Shape::Lines {
            ends: vec![((2.0, 10.5), to)],
            stroke,
        };
        let bitmap = painted(vec![line((32.0, 10.5), Stroke::new(BLUE, 1.0))], 1.0);
        assert_eq!(inked(&bitmap), (2..32).map(|x| (x, 10)).collect::<Vec<_>>());
        let dashed = painted(
            vec![line((32.0, 10.5), Stroke::dashed(BLUE, 1.0, 2.0, 4.0))],
            1.0,
        );
        let on = |x: &usize| (x - 2) % 6 < 2;
        let drawn: Vec<_> = (2..32).filter(on).map(|x| (x, 10)).collect();
        assert_eq!(inked(&dashed), drawn);
        let slanted = painted(vec![line((32.0, 25.5), Stroke::new(BLUE, 2.0))], 1.0);
        let sum: f64 = inked(&slanted)
            .iter()
            .map(|&(x, y)| f64::from(ink(&slanted, x, y)))
            .sum();
        assert!((sum / 255.0 - 2.0 * 30f64.hypot(15.0)).abs() < 2.0);
    }

    #[test]
    fn text_leaves_ink_in_its_box() {
        for (anchor, left) in [(Anchor::Start, 20), (Anchor::Middle, 12), (Anchor::End, 4)] {
            for bold in [false, true] {
                let bitmap = painted(vec![text("4b", 12.0, bold, anchor)], 1.0);
                let places = inked(&bitmap);
                assert!(places.len() > 30);
                let width = font::width("4b", 12.0, bold);
                let right = left + width.ceil() as usize + 1;
                assert!(places
                    .iter()
                    .all(|&(x, y)| (left - 1..right).contains(&x) && (10..20).contains(&y)));
            }
        }
    }

    #[test]
    fn pixels_stay_crisp_or_are_averaged() {
        let mut bitmap = Bitmap::new(4, 2);
        for x in 0..4 {
            bitmap.set(x, 0, if x % 2 == 0 { BLUE } else { RED });
        }
        let pixels = |width, height| {
            let shape = Shape::Pixels {
                at: (3.0, 4.0),
                size: (width, height),
                bitmap: bitmap.clone(),
            };
            painted(vec![rect((0.0, 0.0), (40.0, 30.0), 0.0), shape], 1.0)
        };
        let large = pixels(16.0, 8.0);
        let expected = |x: usize, y: usize| {
            let red = (3..19).contains(&x) && (4..8).contains(&y) && (x - 3) / 4 % 2 == 1;
            Some(if red { RED } else { BLUE })
        };
        for (x, y) in (0..40).flat_map(|x| (0..30).map(move |y| (x, y))) {
            assert_eq!(large.get(x, y), expected(x, y));
        }
        let small = pixels(2.0, 2.0);
        assert_eq!(small.get(3, 4), Some(Rgb(128, 0, 128)));
        assert_eq!(small.get(3, 5), Some(BLUE));
        // Half of this pixel is unpainted.
        assert_eq!(pixels(2.0, 1.0).get(3, 4), Some(Rgb(64, 0, 192)));
    }

    #[test]
    fn parts_outside_are_left_out() {
        let points = vec![(10.0, -50.0), (100.0, 15.0), (10.0, 80.0), (-60.0, 15.0)];
        let polygon = Shape::Polygon {
            points,
            fill: Some(RED),
            stroke: Some(Stroke::new(BLUE, 3.0)),
        };
        let bitmap = painted(vec![polygon], 1.0);
        assert_eq!(bitmap.get(20, 15), Some(RED));
        // The dot of a large letter is parted from its stem.
        assert!(inked(&painted(vec![text("i", 60.0, false, Anchor::Start)], 1.0)).len() > 50);
    }

    /// One shape of every kind, made of two numbers.
    fn shapes_of(a: f64, b: f64) -> Vec<Shape> {
        let stroke = Stroke::dashed(BLUE, a, b, a);
        vec![
            Shape::Rect {
                at: (a, b),
                size: (b, a),
                radius: a,
                fill: Some(BLUE),
                stroke: Some(stroke),
            },
            Shape::Lines {
                ends: vec![((a, b), (b, 5.0)), ((1.0, a), (30.0, b))],
                stroke,
            },
            Shape::Polygon {
                points: vec![(a, b), (b, a), (5.0, 5.0)],
                fill: Some(RED),
                stroke: Some(Stroke::new(RED, b)),
            },
            Shape::Circle {
                at: (a, 3.0),
                radius: b,
                fill: BLUE,
            },
            text("strange", a, true, Anchor::Middle),
            Shape::Pixels {
                at: (a, a),
                size: (b, b),
                bitmap: Bitmap::new(3, 2),
            },
        ]
    }

    #[test]
    fn strange_numbers_do_no_harm() {
        let infinite = f64::INFINITY;
        let mut numbers = vec![0.0, 1e-300, 0.3, 17.0, 1e5, 1e300, infinite, f64::NAN];
        numbers.extend([-0.7, -1e5, -1e300, -infinite]);
        for &a in &numbers {
            for &b in &numbers {
                painted(shapes_of(a, b), 1.0);
            }
            let empty = Drawing {
                width: 0.0,
                height: f64::NAN,
                title: String::new(),
                shapes: shapes_of(a, 1.0),
            };
            assert_eq!(paint(&empty, a).pixels.len(), 1);
        }
    }
}
