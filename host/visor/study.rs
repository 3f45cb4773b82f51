//! A plan followed to its end on a small machine: its strips, its loads, and what each pixel shows.
//! Entries, verdict and drift are the library's; the machine only does what they say.

use crate::clipped::Clipped;
use crate::input::Subject;
use crate::machine::Machine;
use crate::reading::is_too_wide;
use std::ops::Range;
use visorlongan::{
    count, drift, Drift, End, Entry, Kind, Load, Mode, Object, Planner, Rect, Request,
};

/// What a pixel of the screen shows.
#[derive(Clone, Copy, Debug, PartialEq, Eq)]
pub enum Shown {
    /// It is not drawn.
    Nothing,
    /// A texel of the image.
    Texel { column: u32, row: u32 },
    /// It is drawn from something else: what texture memory held before, or bytes outside the image.
    Other,
}

/// One rectangle of the plan.
#[derive(Clone, Debug, PartialEq, Eq)]
pub struct Strip {
    /// Columns and lines of the screen.
    pub columns: Range<i32>,
    pub lines: Range<i32>,
    /// The image row that the first line shows.
    pub row: u64,
    /// The place that the first line samples, and the step from line to line, in 1,024ths of a row.
    pub at: i64,
    pub step: i64,
    /// In a scaled plan, its strip's number and how far its lines are from their exact place.
    pub drift: Option<Drift>,
    /// The image columns that its first and its last pixel show.
    pub ends: Option<(u32, u32)>,
}

impl Strip {
    /// The place that a line of the strip samples.
    pub fn sampled(&self, line: i32) -> i64 {
        self.at + self.step * i64::from(line - self.lines.start)
    }
}

/// One load: the strip that it is for, and the words of texture memory that it fills.
#[derive(Clone, Copy, Debug, PartialEq, Eq)]
pub struct LoadSeen {
    pub strip: usize,
    pub words: u64,
    /// Whether it is one of which nothing is claimed, in a copied plan.
    pub too_wide: bool,
    /// Whether its columns and rows lie inside the image. Those of a scaled plan are counted from
    /// other addresses than the image's, so that it says something of copied plans alone.
    pub inside: bool,
}

/// Pixels of the screen that are met by rectangles, counted as the machine draws them.
#[derive(Clone, Copy, Debug, Default, PartialEq, Eq)]
pub struct Met {
    /// The pixels of the clipped frame, and how many of them are met.
    pub frame: usize,
    pub inside: usize,
    /// Pixels met more than once.
    pub again: usize,
    /// Pixels met that are not the frame's.
    pub elsewhere: usize,
}

impl Met {
    /// Each pixel of the frame once, and no other.
    pub fn is_once(&self) -> bool {
        self.inside == self.frame && self.again + self.elsewhere == 0
    }
}

/// Where one row of strips ends and the next begins.
#[derive(Clone, Copy, Debug, PartialEq, Eq)]
pub struct Seam {
    /// The first line after it.
    pub line: i32,
    /// How far the sampled place is ahead of where the strip before would have gone on, in 1,024ths
    /// of a row, whole images apart.
    pub jump: i64,
}

/// Where the image's own edge lies between two lines or two columns of the screen.
#[derive(Clone, Copy, Debug, PartialEq, Eq)]
pub struct Edge {
    /// The first line or column after it.
    pub at: i32,
    /// The image's row or column on both sides.
    pub before: u32,
    pub after: u32,
}

pub struct Study {
    pub name: String,
    pub mode: Option<Mode>,
    pub object: Option<Object>,
    pub scissor: [i32; 4],
    pub bilinear: bool,
    pub address: u64,
    pub end: End,
    pub strips: Vec<Strip>,
    pub loads: Vec<LoadSeen>,
    /// The seams between rows of strips, and the image's own edges on the screen: lines before which
    /// its last rows lie and after which the first, and columns likewise.
    pub seams: Vec<Seam>,
    pub level_edges: Vec<Edge>,
    pub upright_edges: Vec<Edge>,
    /// Whether the limits on drift are proved for this plan.
    pub proved: bool,
    pub width: i32,
    pub height: i32,
    /// What each pixel shows, line by line, and what the rectangles meet.
    pub screen: Vec<Shown>,
    pub met: Met,
}

/// The words of texture memory that one load may fill, by format and size (7.4, 8.5).
pub fn capacity(mode: Mode, fmt: u8, siz: u8) -> u64 {
    match mode {
        Mode::Scaled if siz == 3 => 480,
        Mode::Copy if siz == 3 => 256,
        _ if fmt == 2 => 256,
        _ => 512,
    }
}

/// The bytes from one row of the image to the next, as the mode's loads have them.
pub fn row_bytes(mode: Mode, object: &Object) -> u64 {
    let siz = object.image_siz.min(3);
    let width = object.image_w.0 as u64;
    match mode {
        Mode::Copy => ((width / 4) << siz) / 2,
        Mode::Scaled => width * 8 / (512 >> siz) * 8,
    }
}

impl Study {
    pub fn of(subject: &Subject) -> Study {
        let request = subject.request();
        let mode = Mode::of(request.opcode);
        let scissor = request.scissor;
        let [right, lower] = [scissor.lrx, scissor.lry].map(|edge| edge.clamp(1, 1024));
        let mut study = Study {
            name: short_name(&subject.name),
            mode,
            object: mode.and_then(|mode| Object::decode(request.object, mode).ok()),
            scissor: [scissor.ulx, scissor.uly, scissor.lrx, scissor.lry],
            bilinear: mode == Some(Mode::Scaled) && request.render_mode & 8 != 0,
            address: request.address,
            end: count(&request),
            strips: Vec::new(),
            loads: Vec::new(),
            seams: Vec::new(),
            level_edges: Vec::new(),
            upright_edges: Vec::new(),
            proved: false,
            width: right.max(320),
            height: lower.max(240),
            screen: Vec::new(),
            met: Met::default(),
        };
        study.follow(&request);
        study
    }

    /// Does the plan's entries one by one, each with the tiles that it is meant for.
    fn follow(&mut self, request: &Request) {
        let mut machine = Machine::new(self.width, self.height);
        let mut planner = Planner::new(request);
        while let Some(entry) = planner.next() {
            match entry {
                Entry::Load(load) => {
                    machine.tiles = planner.bank();
                    machine.load(&load);
                    let line = machine.tiles.tiles[usize::from(load.index)].line;
                    self.loads.push(LoadSeen {
                        strip: self.strips.len(),
                        words: load.rows * u64::from(line),
                        too_wide: self.object.is_some_and(|o| is_too_wide(&o, &load)),
                        inside: self.has(&load),
                    });
                }
                // Its tile was set before the load that comes before it.
                Entry::Rect(rect) => {
                    machine.draw(&rect);
                    let strip = self.strip(&rect);
                    self.strips.push(strip);
                }
                Entry::Image(_) | Entry::Tile(_) | Entry::Size(_) => {}
            }
        }
        self.take_screen(&machine);
        self.take_drift(request);
        self.seams = self.found_seams();
        self.level_edges = self.found_level_edges();
        self.upright_edges = self.found_upright_edges();
    }

    fn strip(&self, rect: &Rect) -> Strip {
        let pixels = rect.pixels();
        Strip {
            columns: pixels.x,
            lines: pixels.y,
            row: rect.row,
            at: 1024 * rect.row as i64 + 32 * i64::from(rect.ult),
            step: self.line_step(),
            drift: None,
            ends: None,
        }
    }

    /// What a screen line covers of the image, in 1,024ths of a row.
    fn line_step(&self) -> i64 {
        match self.object.map(|object| object.kind) {
            Some(Kind::Scaled { scale_h, .. }) => scale_h.0.into(),
            _ => 1024,
        }
    }

    fn take_screen(&mut self, machine: &Machine) {
        let shown = |(x, y)| {
            let pixel = machine.pixel(x, y);
            match pixel.drawn {
                0 => Shown::Nothing,
                _ => pixel.shows.map_or(Shown::Other, |half| self.texel(half)),
            }
        };
        let places = (0..self.height).flat_map(|y| (0..self.width).map(move |x| (x, y)));
        self.screen = places.map(shown).collect();
        self.met = self.counted(machine);
        for n in 0..self.strips.len() {
            let (columns, line) = (self.strips[n].columns.clone(), self.strips[n].lines.start);
            let column = |x| match self.shown(x, line) {
                Shown::Texel { column, .. } => Some(column),
                _ => None,
            };
            self.strips[n].ends = column(columns.start).zip(column(columns.end - 1));
        }
    }

    fn counted(&self, machine: &Machine) -> Met {
        let (columns, lines) = self.frame();
        let mut met = Met {
            frame: columns.len() * lines.len(),
            elsewhere: machine.outside,
            ..Met::default()
        };
        for (x, y, pixel) in machine.pixels().filter(|(.., pixel)| pixel.drawn > 0) {
            let inside = columns.contains(&x) && lines.contains(&y);
            met.inside += usize::from(inside);
            met.elsewhere += usize::from(!inside);
            met.again += usize::from(pixel.drawn > 1);
        }
        met
    }

    /// Whether a load's columns and rows are whole ones of the image.
    fn has(&self, load: &Load) -> bool {
        let within = |first: u16, last: u16, count: u32| {
            let (first, last) = (first / 4, last / 4);
            first <= last && u32::from(last) < count
        };
        within(load.uls, load.lrs, self.columns()) && within(load.ult, load.lrt, self.rows())
    }

    /// The texel whose first half byte is there in the host's memory.
    fn texel(&self, half: u64) -> Shown {
        let (Some(object), Some(mode)) = (self.object, self.mode) else {
            return Shown::Other;
        };
        let line = 2 * row_bytes(mode, &object) as i64;
        let offset = half.wrapping_sub(self.address.wrapping_mul(2)) as i64;
        if offset < 0 {
            return Shown::Other;
        }
        // An image of one column of 4 bits has rows of no bytes: all its texels are the first.
        let (row, column) = match line {
            0 => (0, 0),
            _ => (offset / line, (offset % line) >> object.image_siz.min(3)),
        };
        if row >= i64::from(self.rows()) {
            return Shown::Other;
        }
        Shown::Texel {
            column: column as u32,
            row: row as u32,
        }
    }

    fn take_drift(&mut self, request: &Request) {
        if self.mode != Some(Mode::Scaled) {
            return;
        }
        let mut words = vec![0; self.strips.len() * Drift::WORDS];
        let measured = drift(request, &mut words);
        self.proved = measured.proved;
        for (strip, drift) in self.strips.iter_mut().zip(measured) {
            strip.drift = Some(drift);
        }
    }

    /// What a pixel shows; outside the screen it shows nothing.
    pub fn shown(&self, x: i32, y: i32) -> Shown {
        if x < 0 || y < 0 || x >= self.width || y >= self.height {
            return Shown::Nothing;
        }
        self.screen[(y * self.width + x) as usize]
    }

    /// Whole columns and rows of the image.
    pub fn columns(&self) -> u32 {
        self.object
            .map_or(0, |object| object.image_w.whole() as u32)
    }

    pub fn rows(&self) -> u32 {
        self.object
            .map_or(0, |object| object.image_h.whole() as u32)
    }

    pub fn flipped(&self) -> bool {
        self.object.is_some_and(|object| object.image_flip & 1 != 0)
    }

    pub fn capacity(&self) -> u64 {
        match (self.mode, self.object) {
            (Some(mode), Some(object)) => capacity(mode, object.image_fmt, object.image_siz),
            _ => 512,
        }
    }

    /// The loads that leave the image or overfill texture memory: none of a finished copy.
    pub fn wrong_loads(&self) -> usize {
        let wrong = |load: &&LoadSeen| !load.inside || load.words > self.capacity();
        self.loads.iter().filter(wrong).count()
    }

    /// The frame that the scissor leaves, where there is an object.
    fn clipped(&self) -> Option<Clipped> {
        let object = self.object?;
        Some(Clipped::of(&object, self.scissor))
    }

    /// Where that frame begins, across and down, in quarters of a pixel.
    pub fn begins(&self) -> [i32; 2] {
        self.clipped()
            .map_or([0; 2], |frame| [frame.left, frame.top])
    }

    /// The pixels of that frame: columns and lines.
    pub fn frame(&self) -> (Range<i32>, Range<i32>) {
        self.clipped().map_or((0..0, 0..0), |frame| frame.pixels())
    }

    /// Lines and columns of that frame in which nothing is drawn; none of a frame without a pixel.
    pub fn not_drawn(&self) -> (Vec<i32>, Vec<i32>) {
        let (columns, lines) = self.frame();
        if columns.is_empty() || lines.is_empty() {
            return (Vec::new(), Vec::new());
        }
        let mut drawn = (vec![false; 1024], vec![false; 1024]);
        for strip in &self.strips {
            mark(&mut drawn.0, &strip.lines);
            mark(&mut drawn.1, &strip.columns);
        }
        let missing = |range: Range<i32>, drawn: &[bool]| {
            range
                .filter(|n| !drawn.get(*n as usize).copied().unwrap_or(false))
                .collect()
        };
        (missing(lines, &drawn.0), missing(columns, &drawn.1))
    }

    /// The first strip of each row of strips, from top to bottom.
    pub fn bands(&self) -> Vec<&Strip> {
        let mut bands: Vec<&Strip> = Vec::new();
        for strip in &self.strips {
            if bands.last().is_none_or(|band| band.lines != strip.lines) {
                bands.push(strip);
            }
        }
        bands
    }

    fn found_seams(&self) -> Vec<Seam> {
        let period = 1024 * i64::from(self.rows().max(1));
        let bands = self.bands();
        let seam = |(before, after): (&&Strip, &&Strip)| {
            let raw = after.at - before.sampled(before.lines.end);
            Seam {
                line: after.lines.start,
                jump: (raw + period / 2).rem_euclid(period) - period / 2,
            }
        };
        bands.iter().zip(bands.iter().skip(1)).map(seam).collect()
    }

    /// How many seams show: those where a part of a row is left out or shown twice, and lines and
    /// columns at which the image's own edge lies.
    pub fn seams_that_show(&self) -> usize {
        let jumps = self.seams.iter().filter(|seam| seam.jump != 0).count();
        jumps + self.level_edges.len() + self.upright_edges.len()
    }

    /// The image row that a line of a strip shows.
    pub fn row_of(&self, strip: &Strip, line: i32) -> u32 {
        let row = strip.sampled(line).div_euclid(1024);
        row.rem_euclid(self.rows().max(1).into()) as u32
    }

    fn found_level_edges(&self) -> Vec<Edge> {
        let mut edges = Vec::new();
        let mut last = None;
        for strip in self.bands() {
            for line in strip.lines.clone() {
                let after = self.row_of(strip, line);
                if let Some(before) = last.filter(|before| after + self.rows() / 2 < *before + 1) {
                    edges.push(Edge {
                        at: line,
                        before,
                        after,
                    });
                }
                last = Some(after);
            }
        }
        edges
    }

    /// Where a strip does not go on with the column after its neighbour's.
    fn found_upright_edges(&self) -> Vec<Edge> {
        let step = if self.flipped() { -1 } else { 1 };
        let mut edges: Vec<Edge> = Vec::new();
        for (left, right) in self.strips.iter().zip(self.strips.iter().skip(1)) {
            let (Some((_, before)), Some((after, _))) = (left.ends, right.ends) else {
                continue;
            };
            let joined = i64::from(after) - i64::from(before) == step;
            if left.lines == right.lines && !joined {
                edges.push(Edge {
                    at: right.columns.start,
                    before,
                    after,
                });
            }
        }
        edges.sort_unstable_by_key(|edge| edge.at);
        edges.dedup_by_key(|edge| edge.at);
        edges
    }

    /// The least and the greatest distance of a line from its exact place.
    pub fn drift(&self) -> Option<(i64, i64)> {
        let distances = || {
            self.strips
                .iter()
                .filter_map(|strip| Some(strip.drift?.distance))
        };
        distances().min().zip(distances().max())
    }
}

/// A file's name without its folders: where it lies says nothing of the plan.
fn short_name(name: &str) -> String {
    name.rsplit('/').next().unwrap_or(name).to_string()
}

fn mark(drawn: &mut [bool], range: &Range<i32>) {
    for n in range.clone() {
        if let Some(place) = usize::try_from(n).ok().and_then(|n| drawn.get_mut(n)) {
            *place = true;
        }
    }
}

#[cfg(test)]
mod tests {
    use super::*;
    use visorlongan::{Scissor, Verdict};

    fn end(mode: Mode, fields: &[(usize, u16)], fmt: u8, siz: u8) -> End {
        let mut object = [0; 40];
        for (at, field) in [(20, 0xfff4)].iter().chain(fields) {
            object[*at..at + 2].copy_from_slice(&field.to_be_bytes());
        }
        object[22..24].copy_from_slice(&[fmt, siz]);
        let scissor = Scissor::new(0, 0, 1023, 1023);
        count(&match mode {
            Mode::Copy => Request::copy(&object, scissor, 4096),
            Mode::Scaled => Request::scaled(&object, scissor, 0, 4096),
        })
    }

    /// Strips one word wide: as high as the capacity they are planned, a row higher refused.
    #[test]
    fn a_copy_fills_the_capacity_and_no_more() {
        for (fmt, siz) in (0..5).flat_map(|fmt| (0..4).map(move |siz| (fmt, siz))) {
            let columns = [16, 8, 4, 4][usize::from(siz)];
            let capacity = capacity(Mode::Copy, fmt, siz);
            let ended = |rows: u16| {
                let (width, height) = (columns * 4, rows * 4);
                let fields = [
                    (2, width),
                    (6, width),
                    (10, height),
                    (14, height),
                    (30, height),
                ];
                let fields = [&fields[..], &[(32, height), (36, 1)]].concat();
                end(Mode::Copy, &fields, fmt, siz)
            };
            assert_eq!(ended(capacity as u16).tile_words, capacity, "{fmt} {siz}");
            let more = ended(capacity as u16 + 1);
            assert_eq!(more.verdict, Verdict::TooBig, "{fmt} {siz}");
        }
    }

    /// Scaled strips of two words a row fill all of it; of 32 bits a load has one row.
    #[test]
    fn a_scaled_strip_fills_the_capacity() {
        for (fmt, siz) in (0..5).flat_map(|fmt| (0..3).map(move |siz| (fmt, siz))) {
            let columns = [16, 8, 4][usize::from(siz)] * 4;
            let fields = [
                (2, columns * 2),
                (6, columns),
                (10, 2400),
                (14, 2400),
                (28, 1024),
                (30, 1024),
            ];
            let ended = end(Mode::Scaled, &fields, fmt, siz);
            assert_eq!(
                ended.tile_words,
                capacity(Mode::Scaled, fmt, siz),
                "{fmt} {siz}"
            );
        }
    }
}
