//! Sentences of docs/SPECIFICATION.md held against the recorded plans, and the lines of a scaled
//! plan.

use crate::cells;
use crate::engine::{cells_agree, shows, Engine};
use crate::entry::{Entry, IMAGE, LOAD, RECTANGLE, SIZE, TILE};
use crate::record::{Bank, Record, COPY, OBJECT_BYTES, SCALED};
use crate::run::{Answer, Settings};
use std::fmt::Write;

/// One drawn line of a scaled plan, in 1,024ths of an image row.
pub struct Line {
    pub number: i64,
    pub strip: i64,
    pub first_of_strip: bool,
    pub sampled: i64,
    pub exact: i64,
}

/// What the drift of a scaled plan depends on.
pub struct Drift {
    pub step: i64,
    pub period: i64,
    pub whole_image: bool,
    pub whole_origin: bool,
    pub at_or_below_origin: bool,
    pub strip_fits_image: bool,
    pub lines: Vec<Line>,
}

/// The sampled and exact positions (SPECIFICATION 11.5) for each line of a scaled plan.
pub fn drift(answer: &Answer) -> Option<Drift> {
    let bg = answer.object?;
    let slices = answer.plan.notes.slices?;
    let step = i64::from(bg.scale_h.max(1));
    let clipped = (slices.top * step).div_euclid(128);
    let start = i64::from(bg.image_y) + clipped;
    let mut lines = Vec::new();
    let mut drawn = 0;
    let rectangles = answer.plan.entries.iter().filter(|e| e[0] == RECTANGLE);
    for (entry, &strip) in rectangles.zip(&answer.plan.notes.strips) {
        let (uly, lry) = (entry[3] as i64, entry[5] as i64);
        let (ult, row) = (entry[7] as i64, entry[10] as i64);
        let count = (lry - uly).div_euclid(4);
        for j in 0..count {
            lines.push(Line {
                number: drawn + j,
                strip,
                first_of_strip: j == 0,
                sampled: 1024 * row + 32 * ult + step * j,
                exact: 32 * (start + 32 * slices.carry) + step * (j + drawn),
            });
        }
        drawn += count;
    }
    Some(Drift {
        step,
        period: 256 * i64::from(bg.image_h),
        whole_image: bg.image_h % 4 == 0,
        whole_origin: bg.image_y_orig % 32 == 0,
        at_or_below_origin: start >= i64::from(bg.image_y_orig),
        strip_fits_image: slices.image_rows <= slices.source_rows,
        lines,
    })
}

impl Drift {
    /// The nearest d: sampled − exact, brought to within half a period of 0.
    pub fn nearest(&self, line: &Line) -> i64 {
        let d = (line.sampled - line.exact).rem_euclid(self.period);
        if 2 * d > self.period {
            d - self.period
        } else {
            d
        }
    }

    /// How far behind SPECIFICATION 11.6 lets a line be.
    fn behind(&self) -> i64 {
        self.step + if self.whole_origin { 30 } else { 1022 }
    }

    /// Is there an m with d at least the limit behind and 1,024 × d at most h × (1,024 + k)?
    fn within_limits(&self, line: &Line) -> bool {
        let least = -self.behind();
        let d = least + (line.sampled - line.exact - least).rem_euclid(self.period);
        1024 * d <= self.step * (1024 + line.strip)
    }

    /// What is left to either limit, behind and ahead, where d is not in doubt.
    fn margins(&self, line: &Line) -> Option<(i64, i64)> {
        let d = self.nearest(line);
        let ahead = self.step * (1024 + line.strip) - 1024 * d;
        let clear =
            self.period > 8 * self.behind() && self.step * (1024 + line.strip) < 256 * self.period;
        clear.then_some((d + self.behind(), ahead))
    }
}

pub fn print_lines(drift: &Drift, out: &mut String) {
    writeln!(
        out,
        "    line   strip   begins     sampled       exact           d"
    )
    .unwrap();
    for line in &drift.lines {
        writeln!(
            out,
            "{:8}{:8}{:>9}{:12}{:12}{:12}",
            line.number,
            line.strip,
            if line.first_of_strip { "yes" } else { "" },
            line.sampled,
            line.exact,
            drift.nearest(line)
        )
        .unwrap();
    }
}

/// No sentence of the specification: by SPECIFICATION 8.24 some plans break it.
const UNSAID: &str =
    "(no sentence of the specification) scaled: a strip's only load starts inside the image";
const DRIFT: &str = "drift:";
/// Of either origin: "whole origin yes" and "whole origin no ".
const DRIFT_CLAIMED: [&str; 2] = ["drift: whole image rows yes", "at or below origin yes"];

/// A claim's count of plans tested and of plans that break it, with the first of these.
#[derive(Default)]
struct Tally {
    name: String,
    tested: u64,
    broken: u64,
    first: Option<(usize, Record)>,
    /// The least that was left to the limits behind and ahead.
    margins: Option<(i64, i64)>,
}

#[derive(Default)]
pub struct Claims {
    tallies: Vec<Tally>,
}

impl Claims {
    fn note(&mut self, name: &str, number: usize, record: &Record, holds: bool) -> &mut Tally {
        let place = match self.tallies.iter().position(|t| t.name == name) {
            Some(place) => place,
            None => {
                self.tallies.push(Tally {
                    name: name.to_string(),
                    ..Default::default()
                });
                self.tallies.len() - 1
            }
        };
        let tally = &mut self.tallies[place];
        tally.tested += 1;
        if !holds {
            tally.broken += 1;
            tally.first.get_or_insert((number, *record));
        }
        tally
    }

    pub fn check(&mut self, number: usize, record: &Record, settings: &Settings, answer: &Answer) {
        self.check_bank(number, record, settings, answer);
        if answer.plan.entries.iter().any(|e| e[0] == LOAD) {
            self.check_loads(number, record, answer);
        }
        if record.opcode == COPY {
            self.check_copy(number, record, answer);
        }
        if cells::finished_copy(record, answer) {
            self.check_cells(number, record, answer);
        }
        if record.opcode == SCALED && answer.plan.notes.slices.is_some() {
            self.check_scaled(number, record, answer);
        }
    }

    fn check_bank(&mut self, number: usize, record: &Record, settings: &Settings, answer: &Answer) {
        let verdict = answer.end.verdict;
        let replayed = replayed(&settings.bank, &answer.plan.entries);
        if verdict == 9 && answer.plan.refused_load {
            self.note(
                "bank after a refused load: only tile 7's size may differ",
                number,
                record,
                same_but_size(&replayed, &answer.bank),
            );
        } else {
            self.note(
                "bank is as after the entries that stand",
                number,
                record,
                replayed == answer.bank,
            );
        }
    }

    fn check_loads(&mut self, number: usize, record: &Record, answer: &Answer) {
        let entries = &answer.plan.entries;
        self.note(
            "load request's equations",
            number,
            record,
            loads_hold(entries),
        );
        self.note(
            "each load ends by 2^64 - 1",
            number,
            record,
            loads_end(entries),
        );
        self.note(
            "tile words are the largest rows × line",
            number,
            record,
            largest_load(entries) == answer.end.tile_words,
        );
    }

    fn check_copy(&mut self, number: usize, record: &Record, answer: &Answer) {
        let entries = &answer.plan.entries;
        if answer.end.rectangles > 0 {
            let holds = copy_rows_hold(entries);
            self.note(
                "copy: image row is the load's upper bound / 4",
                number,
                record,
                holds,
            );
        }
    }

    fn check_cells(&mut self, number: usize, record: &Record, answer: &Answer) {
        let entries = &answer.plan.entries;
        self.note(
            "copy, finished: one rectangle meets each cell, and nothing else is covered",
            number,
            record,
            cells::cells_once(record, entries).is_ok(),
        );
        self.note(
            "copy, finished: each load is inside the image and fits the capacity",
            number,
            record,
            cells::loads_inside(record, entries).is_ok(),
        );
        let engine = Engine::of(record, OBJECT_BYTES);
        let agree = cells_agree(record, entries, shows, |cell| engine.answers(cell));
        self.note(
            "copy, finished: each cell shows the engine's column and row, which its load has, but \
             in flipped loads of more than 1,024 columns",
            number,
            record,
            agree.is_ok(),
        );
    }

    fn check_scaled(&mut self, number: usize, record: &Record, answer: &Answer) {
        self.note(
            "at most 64 passes in a row draw no line",
            number,
            record,
            answer.plan.notes.most_empty_passes <= 64,
        );
        let (Some(drift), Some(slices)) = (drift(answer), answer.plan.notes.slices) else {
            return;
        };
        if answer.end.verdict == 0 {
            self.note(
                "finished: lines add up to clipped height / 4",
                number,
                record,
                drift.lines.len() as i64 == slices.height.div_euclid(4),
            );
        }
        if drift.lines.is_empty() {
            return;
        }
        let rows = only_load_offsets(&answer.plan.entries, record.address, slices.stride);
        let image = i128::from(slices.source_rows * slices.stride);
        self.note(
            "scaled: image row agrees with a strip's only load, modulo the image",
            number,
            record,
            rows.windows(2).all(|w| (w[0] - w[1]) % image == 0)
                && rows
                    .iter()
                    .all(|r| r.rem_euclid(image) <= i128::from(slices.stride)),
        );
        self.note(UNSAID, number, record, rows.iter().all(|&r| r >= 0));
        let yes = |b: bool| if b { "yes" } else { "no " };
        let name = format!(
            "drift: whole image rows {}, whole origin {}, at or below origin {}, R fits {}",
            yes(drift.whole_image),
            yes(drift.whole_origin),
            yes(drift.at_or_below_origin),
            yes(drift.strip_fits_image),
        );
        let holds = drift.lines.iter().all(|line| drift.within_limits(line));
        let tally = self.note(&name, number, record, holds);
        for (behind, ahead) in drift.lines.iter().filter_map(|line| drift.margins(line)) {
            let (a, b) = tally.margins.unwrap_or((behind, ahead));
            tally.margins = Some((a.min(behind), b.min(ahead)));
        }
    }

    /// Whether everything that the specification claims holds: of the drift, where its conditions
    /// (SPECIFICATION 11.1) are met.
    pub fn hold(&self) -> bool {
        let claimed = |name: &str| {
            let drift = DRIFT_CLAIMED.iter().all(|said| name.contains(said));
            name != UNSAID && (!name.starts_with(DRIFT) || drift)
        };
        self.tallies
            .iter()
            .all(|t| t.broken == 0 || !claimed(&t.name))
    }

    pub fn print(&mut self, out: &mut String) {
        self.tallies.sort_by(|a, b| a.name.cmp(&b.name));
        for tally in &self.tallies {
            writeln!(
                out,
                "{:10} tested {:10} broken  {}",
                tally.tested, tally.broken, tally.name
            )
            .unwrap();
            if let Some((behind, ahead)) = tally.margins {
                writeln!(
                    out,
                    "    least left: behind {behind}/1024, ahead {ahead}/1048576"
                )
                .unwrap();
            }
            if let Some((number, record)) = &tally.first {
                writeln!(out, "    first: record {number} {}", hex(record)).unwrap();
            }
        }
    }
}

pub fn hex(record: &Record) -> String {
    record
        .to_bytes()
        .iter()
        .map(|b| format!("{b:02x}"))
        .collect()
}

/// SPECIFICATION 5.3: a size also sets width and height, max(1, floor(difference / 4) + 1).
fn set_size(bank: &mut Bank, entry: &Entry) {
    let tile = &mut bank[entry[1] as usize];
    let [uls, ult, lrs, lrt] = [2, 3, 4, 5].map(|n| entry[n] as i64);
    let extent = |low: i64, high: i64| 1.max((high - low).div_euclid(4) + 1) as u16;
    tile.uls = uls as u16;
    tile.ult = ult as u16;
    tile.lrs = lrs as u16;
    tile.lrt = lrt as u16;
    tile.width = extent(uls, lrs);
    tile.height = extent(ult, lrt);
}

/// The bank after the entries, by the rules for tiles, sizes and loads (SPECIFICATION 5.2 to 5.5).
fn replayed(initial: &Bank, entries: &[Entry]) -> Bank {
    let mut bank = initial.clone();
    for entry in entries {
        match entry[0] {
            TILE => {
                let tile = &mut bank[entry[1] as usize];
                let parts = [2, 3, 6, 7, 8, 9, 10].map(|n| entry[n] as u8);
                [
                    tile.fmt,
                    tile.siz,
                    tile.palette,
                    tile.cms,
                    tile.cmt,
                    tile.masks,
                    tile.maskt,
                ] = parts;
                tile.line = entry[4] as u16;
                tile.tmem_addr = entry[5] as u16;
                tile.shifts = 0;
                tile.shiftt = 0;
            }
            SIZE | LOAD => set_size(&mut bank, entry),
            _ => {}
        }
    }
    bank
}

fn same_but_size(a: &Bank, b: &Bank) -> bool {
    let strip = |bank: &Bank| {
        let mut bank = bank.clone();
        let t = &mut bank[7];
        [t.uls, t.ult, t.lrs, t.lrt, t.width, t.height] = [0; 6];
        bank
    };
    strip(a) == strip(b)
}

/// Start plus length of each load (SPECIFICATION 6.4).
fn loads_end(entries: &[Entry]) -> bool {
    let mut loads = entries.iter().filter(|entry| entry[0] == LOAD);
    loads.all(|load| load[9].checked_add(load[10]).is_some())
}

/// The load request (SPECIFICATION 6.3), from the entries alone.
fn loads_hold(entries: &[Entry]) -> bool {
    let mut image = [0i128; 11];
    entries.iter().all(|entry| {
        let number = entry.map(i128::from);
        if entry[0] == IMAGE {
            image = number;
        }
        if entry[0] != LOAD {
            return true;
        }
        let [uls, ult, lrs, lrt] = [2, 3, 4, 5].map(|n| number[n] / 4);
        let (siz, width, address) = (image[2], image[3], image[4]);
        let power = 1i128 << siz;
        let columns = 0.max(lrs - uls);
        let rows = 1 + 0.max(lrt - ult);
        let words = columns / (16 / power) + 1;
        let stride = (width + 1) * power / 2;
        let start = address + uls * power / 2 + stride * ult;
        let length = (rows - 1) * stride + 8 * words;
        number[6..] == [words, rows, stride, start, length]
    })
}

fn largest_load(entries: &[Entry]) -> u64 {
    let mut line = 0;
    let mut largest = 0;
    for entry in entries {
        if entry[0] == TILE && entry[1] == 7 {
            line = entry[4];
        }
        if entry[0] == LOAD {
            largest = largest.max(entry[7] * line);
        }
    }
    largest
}

/// Each copy rectangle follows its load; sy × 4 is below 2^16, so the bound was not cut.
fn copy_rows_hold(entries: &[Entry]) -> bool {
    entries
        .windows(2)
        .filter(|pair| pair[1][0] == RECTANGLE)
        .all(|pair| pair[0][0] == LOAD && pair[1][10] * 4 == pair[0][3])
}

/// For strips of one load (image, load, rectangle): the load's address above that of the
/// rectangle's image row. It is the same for all of a plan, modulo the image, and at most a row.
fn only_load_offsets(entries: &[Entry], address: u64, stride: i64) -> Vec<i128> {
    entries
        .windows(4)
        .filter(|four| four[3][0] == RECTANGLE && [RECTANGLE, SIZE].contains(&four[0][0]))
        .map(|four| {
            assert_eq!(four[1][0], IMAGE);
            let row = i128::from(four[3][10]);
            i128::from(four[1][4]) - i128::from(address) - row * i128::from(stride)
        })
        .collect()
}
