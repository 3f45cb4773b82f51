//! The seams and the drift of each line, on the screen's vertical axis; of a copy, the image row of
//! each line.

use super::pen::{
    ticks, Pen, BAND, BLUE, DRIFT_W, DRIFT_X, GREEN, GREY, INK, LIGHT, MAGENTA, ORANGE, PALE_RED,
    PAPER, RED, SEAMS_X, TOP,
};
use super::screen::EDGES;
use super::view::View;
use crate::fields::grouped;
use crate::paint::{Anchor, Point, Rgb, Stroke};
use crate::study::{Edge, Seam, Strip, Study};
use visorlongan::{Drift, Mode};

pub fn draw(pen: &mut Pen, study: &Study, view: &View) {
    match study.mode {
        Some(Mode::Scaled) => {
            seams(pen, study, view);
            lines(pen, study, view);
        }
        _ => rows(pen, study, view),
    }
}

/// A tick for each seam, as long as its jump: to the right where the picture goes on too far, to the
/// left where it goes back.
fn seams(pen: &mut Pen, study: &Study, view: &View) {
    let (middle, seams) = (SEAMS_X + 34.0, &study.seams);
    pen.bold((middle, TOP - 10.0), 12.0, INK, Anchor::Middle, "SEAMS");
    pen.line(
        (middle, TOP),
        (middle, view.foot()),
        Stroke::new(LIGHT, 1.0),
    );
    let closest = seams
        .windows(2)
        .map(|pair| pair[1].line - pair[0].line)
        .min();
    let apart = closest.map_or(6.0, |lines| f64::from(lines) * view.unit);
    let ticks = |wanted: fn(&Seam) -> bool, reach: fn(i64) -> f64| -> Vec<(Point, Point)> {
        let ends = |seam: &Seam| {
            let y = view.down(seam.line);
            ((middle, y), (middle + reach(seam.jump), y))
        };
        seams.iter().filter(|seam| wanted(seam)).map(ends).collect()
    };
    let long = |jump: i64| (jump as f64 / 1024.0).clamp(-1.0, 1.0) * 30.0;
    let width = (apart * 0.7).clamp(0.5, 2.4);
    pen.lines(
        ticks(|seam| seam.jump == 0, |_| 3.0),
        Stroke::new(GREY, width.min(1.0)),
    );
    pen.lines(
        ticks(|seam| seam.jump > 0, long),
        Stroke::new(ORANGE, width),
    );
    pen.lines(ticks(|seam| seam.jump < 0, long), Stroke::new(BLUE, width));
    let foot = view.foot() + 15.0;
    pen.words((SEAMS_X + 4.0, foot), 10.5, BLUE, Anchor::Start, "back");
    pen.words((SEAMS_X + 66.0, foot), 10.5, ORANGE, Anchor::End, "on");
}

/// From distances to places on the paper.
struct Scale {
    low: f64,
    high: f64,
}

impl Scale {
    /// Wide enough for the limits, and for distances up to three times as far.
    fn of(drifts: &[(&Strip, Drift)]) -> Scale {
        let (mut low, mut high) = (-32.0_f64, 32.0_f64);
        for (_, drift) in drifts {
            let (behind, ahead) = (drift.behind as f64, drift.ahead as f64);
            let distance = drift.distance as f64 * 1.05;
            low = low.min(behind * 1.12).min(distance.max(behind * 3.0));
            high = high.max(ahead * 1.12).max(distance.min(ahead * 3.0));
        }
        Scale { low, high }
    }

    /// What lies further stands at the edge.
    fn place(&self, distance: i64) -> f64 {
        let part = (distance as f64 - self.low) / (self.high - self.low);
        DRIFT_X + part.clamp(0.0, 1.0) * DRIFT_W
    }
}

fn lines(pen: &mut Pen, study: &Study, view: &View) {
    let at = (DRIFT_X, TOP - 10.0);
    pen.heading(
        at,
        "DRIFT OF EACH LINE",
        148.0,
        "in 1,024ths of an image row",
    );
    paper(pen, view);
    let drifts: Vec<(&Strip, Drift)> = study
        .strips
        .iter()
        .filter_map(|strip| Some((strip, strip.drift?)))
        .collect();
    let (Some((first, _)), Some((lowest, last))) = (drifts.first(), drifts.last()) else {
        return;
    };
    let (top, foot) = (view.down(first.lines.start), view.down(lowest.lines.end));
    pen.fill((DRIFT_X, top), (DRIFT_W, foot - top), PALE_RED);
    let scale = Scale::of(&drifts);
    band(pen, study, view, &drifts, &scale);
    let zero = scale.place(0);
    pen.line((zero, TOP), (zero, view.foot()), Stroke::new(GREY, 1.0));
    distances(pen, view, &drifts, &scale);
    legend(pen, study.proved, view.foot() + 15.0, last, &scale);
}

fn paper(pen: &mut Pen, view: &View) {
    let border = Some(Stroke::new(LIGHT, 1.0));
    let size = (DRIFT_W, view.size().1);
    pen.rect((DRIFT_X, TOP), size, Some(PAPER), border);
}

/// The numbers below the axis, and what the colours mean.
fn legend(pen: &mut Pen, proved: bool, y: f64, limits: &Drift, scale: &Scale) {
    let numbers = [
        (0, GREY, "0".to_string()),
        (limits.behind, GREEN, limits.behind.to_string()),
        (limits.ahead, GREEN, format!("{:+}", limits.ahead)),
    ];
    for (distance, colour, text) in numbers {
        let at = (scale.place(distance), y);
        pen.words(at, 11.0, colour, Anchor::Middle, &text);
    }
    let said = match proved {
        true => "green: the proved limits",
        false => "green: limits not proved here",
    };
    let (left, right) = (DRIFT_X, DRIFT_X + DRIFT_W);
    pen.words((left, y + 17.0), 11.5, GREY, Anchor::Start, "◂ behind");
    pen.words((right, y + 17.0), 11.5, GREY, Anchor::End, "ahead ▸");
    let middle = ((left + right) / 2.0, y + 17.0);
    pen.words(middle, 11.5, GREEN, Anchor::Middle, said);
}

/// The limits: the same behind for all strips, a little more ahead for each further one.
fn band(pen: &mut Pen, study: &Study, view: &View, drifts: &[(&Strip, Drift)], scale: &Scale) {
    let (Some((first, limits)), Some((last, _))) = (drifts.first(), drifts.last()) else {
        return;
    };
    let mut points = vec![(scale.place(limits.behind), view.down(first.lines.start))];
    for (strip, drift) in drifts {
        let x = scale.place(drift.ahead);
        points.extend([
            (x, view.down(strip.lines.start)),
            (x, view.down(strip.lines.end)),
        ]);
    }
    points.push((scale.place(limits.behind), view.down(last.lines.end)));
    let edge = match study.proved {
        true => Stroke::new(GREEN, 1.2),
        false => Stroke::dashed(GREEN, 1.2, 4.0, 3.0),
    };
    pen.polygon(points, Some(BAND), Some(edge));
}

/// Each strip's distance as an upright line, thin ones between them; red where a limit is passed.
fn distances(pen: &mut Pen, view: &View, drifts: &[(&Strip, Drift)], scale: &Scale) {
    let upright = |near: bool| -> Vec<(Point, Point)> {
        let wanted = drifts.iter().filter(|(_, drift)| drift.is_near() == near);
        let ends = wanted.map(|(strip, drift)| {
            let x = scale.place(drift.distance);
            (
                (x, view.down(strip.lines.start)),
                (x, view.down(strip.lines.end)),
            )
        });
        ends.collect()
    };
    let between = drifts.windows(2).filter_map(|pair| {
        let y = view.down(pair[1].0.lines.start);
        let (before, after) = (
            scale.place(pair[0].1.distance),
            scale.place(pair[1].1.distance),
        );
        ((before - after).abs() > 0.5).then_some(((before, y), (after, y)))
    });
    pen.lines(between.collect(), Stroke::new(Rgb::hex(0x8fa7d1), 0.8));
    pen.lines(upright(true), Stroke::new(BLUE, 3.0));
    pen.lines(upright(false), Stroke::new(RED, 4.0));
}

/// A copy does not drift: the rows that its lines show.
fn rows(pen: &mut Pen, study: &Study, view: &View) {
    let at = (DRIFT_X, TOP - 10.0);
    pen.heading(at, "IMAGE ROW OF EACH LINE", 0.0, "");
    paper(pen, view);
    let rows = i64::from(study.rows().max(1));
    let place = |row: f64| DRIFT_X + row / rows as f64 * DRIFT_W;
    for row in ticks(0, rows) {
        let (x, foot) = (place(row as f64), view.foot());
        let stroke = Stroke::new(Rgb::hex(0xe4e4e4), 1.0);
        pen.line((x, TOP), (x, foot), stroke);
        let text = grouped(row);
        pen.words((x, foot + 15.0), 11.0, GREY, Anchor::Middle, &text);
    }
    let shown = |strip: &&Strip| {
        let lines = f64::from(strip.lines.end - strip.lines.start);
        let (from, to) = (view.down(strip.lines.start), view.down(strip.lines.end));
        let row = strip.row as f64;
        ((place(row), from), (place(row + lines), to))
    };
    let stroke = Stroke::new(Rgb::hex(0x16a085), 3.0);
    pen.lines(study.bands().iter().map(shown).collect(), stroke);
    row_edges(pen, study, view);
    let middle = (DRIFT_X + DRIFT_W / 2.0, view.foot() + 32.0);
    let said = "a copy never drifts: line after line shows row after row";
    pen.words(middle, 11.5, GREY, Anchor::Middle, said);
}

/// The lines at which the image's own edge lies, across from the screen.
fn row_edges(pen: &mut Pen, study: &Study, view: &View) {
    let edges = &study.level_edges;
    if edges.len() <= EDGES {
        let across = |edge: &Edge| {
            let y = view.down(edge.at);
            ((SEAMS_X, y), (DRIFT_X + DRIFT_W, y))
        };
        let stroke = Stroke::dashed(MAGENTA, 1.0, 3.0, 3.0);
        pen.lines(edges.iter().map(across).collect(), stroke);
    }
}
