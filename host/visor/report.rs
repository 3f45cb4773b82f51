//! What a report says of one request, and of all of them together.

use crate::fields::{counted, grouped};
use crate::paint::Bitmap;
use crate::picture::Picture;
use crate::sheet::facts;
use crate::study::{Shown, Study};
use crate::svg;
use visorlongan::{Drift, End, Verdict};

/// The thumbnail's longer side.
const THUMBNAIL: i32 = 80;

/// One request of a report.
pub struct Row {
    pub name: String,
    pub facts: String,
    pub end: End,
    pub capacity: u64,
    /// The rectangle that is furthest from its exact place.
    pub worst: Option<Drift>,
    pub proved: bool,
    pub seams_that_show: usize,
    pub lines_not_drawn: usize,
    pub columns_not_drawn: usize,
    /// A small screen, as an address that has it inside, where a page is wanted: a report may have
    /// a hundred thousand rows.
    pub thumbnail: Option<String>,
}

impl Row {
    pub fn of(study: &Study, page: bool) -> Row {
        let (lines, columns) = study.not_drawn();
        let drifts = study.strips.iter().filter_map(|strip| strip.drift);
        Row {
            name: study.name.clone(),
            facts: facts(study),
            end: study.end,
            capacity: study.capacity(),
            worst: drifts.max_by_key(|drift| drift.distance.abs()),
            proved: study.proved,
            seams_that_show: study.seams_that_show(),
            lines_not_drawn: lines.len(),
            columns_not_drawn: columns.len(),
            thumbnail: page.then(|| svg::data(&thumbnail(study))),
        }
    }

    pub fn refused(&self) -> bool {
        self.end.verdict != Verdict::Finished
    }

    pub fn not_drawn(&self) -> usize {
        self.lines_not_drawn + self.columns_not_drawn
    }
}

fn thumbnail(study: &Study) -> Bitmap {
    let picture = Picture::places(study);
    let side = study.width.max(study.height);
    let (width, height) = (
        study.width * THUMBNAIL / side,
        study.height * THUMBNAIL / side,
    );
    let mut bitmap = Bitmap::new(width as usize, height as usize);
    for y in 0..height {
        for x in 0..width {
            let pixel = study.shown(x * side / THUMBNAIL, y * side / THUMBNAIL);
            if let Shown::Texel { column, row } = pixel {
                bitmap.set(x as usize, y as usize, picture.colour(column, row));
            }
        }
    }
    bitmap
}

/// What there is to say of all rows, a line each.
pub fn summary(rows: &[Row]) -> Vec<String> {
    let refused = rows.iter().filter(|row| row.refused()).count();
    let mut said = vec![format!(
        "{} {}: {} planned, {} refused",
        grouped(rows.len() as i64),
        if rows.len() == 1 {
            "request"
        } else {
            "requests"
        },
        grouped((rows.len() - refused) as i64),
        grouped(refused as i64)
    )];
    for &verdict in Verdict::ALL {
        let count = rows.iter().filter(|row| row.end.verdict == verdict).count();
        if count > 0 {
            let (count, number) = (grouped(count as i64), verdict.number());
            said.push(format!("{count:>9} with verdict {number}: {verdict}"));
        }
    }
    said.extend(worst_drift(rows));
    said.extend(shown_seams(rows));
    said.extend(largest_load(rows));
    said.extend(not_drawn(rows));
    said
}

/// Of the plans for which the limits are proved; others may be off by whole images.
fn worst_drift(rows: &[Row]) -> Option<String> {
    let measured = || rows.iter().filter_map(|row| Some((row, row.worst?)));
    let proved = || measured().filter(|(row, _)| row.proved);
    let all = measured().count();
    if all == 0 {
        return None;
    }
    let of = format!(
        "limits are proved for {} of {}",
        grouped(proved().count() as i64),
        counted(all as u64, "scaled plan", "scaled plans")
    );
    let worst = proved().rev().max_by_key(|(_, drift)| drift.distance.abs());
    Some(worst.map_or(of.clone(), |(row, drift)| {
        format!(
            "worst drift: {:+}/1,024 of a row in {}, with limits of {} and {:+}; {of}",
            drift.distance, row.name, drift.behind, drift.ahead
        )
    }))
}

fn shown_seams(rows: &[Row]) -> Option<String> {
    let all: usize = rows.iter().map(|row| row.seams_that_show).sum();
    let most = rows
        .iter()
        .rev()
        .max_by_key(|row| row.seams_that_show)
        .filter(|_| all > 0)?;
    let with = rows.iter().filter(|row| row.seams_that_show > 0).count();
    Some(format!(
        "seams that show: {} in {} of the requests, most in {} ({})",
        grouped(all as i64),
        grouped(with as i64),
        most.name,
        grouped(most.seams_that_show as i64)
    ))
}

fn largest_load(rows: &[Row]) -> Option<String> {
    let row = rows.iter().rev().max_by_key(|row| row.end.tile_words)?;
    let words = row.end.tile_words;
    (words > 0).then(|| {
        format!(
            "largest load: {words} of {} words in {}",
            row.capacity, row.name
        )
    })
}

fn not_drawn(rows: &[Row]) -> Option<String> {
    let planned = || rows.iter().filter(|row| !row.refused());
    let with = planned().filter(|row| row.not_drawn() > 0).count();
    let most = planned()
        .rev()
        .max_by_key(|row| row.not_drawn())
        .filter(|_| with > 0)?;
    Some(format!(
        "lines and columns of the frame not drawn: in {} of those planned, most in {} ({} and {})",
        grouped(with as i64),
        most.name,
        grouped(most.lines_not_drawn as i64),
        grouped(most.columns_not_drawn as i64)
    ))
}
