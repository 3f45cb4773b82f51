//! What a sheet shows, in words.

use super::image::Sampled;
use super::pen::{BLUE, DARK_RED, GREY, MAGENTA, ORANGE, RED};
use super::screen::next_place;
use crate::fields::{counted, format_name, grouped, texel_bits};
use crate::paint::Rgb;
use crate::picture::Picture;
use crate::study::{Edge, Shown, Study};
use visorlongan::{Kind, Mode, Verdict};

pub type Finding = (Rgb, String);

/// The request in a line: mode, image, frame and scissor in pixels and texels.
pub fn facts(study: &Study) -> String {
    let (Some(mode), Some(object)) = (study.mode, study.object) else {
        return "a request that has no object to show".to_string();
    };
    let whole = |number: i32, part: i32| format!("{}", f64::from(number) / f64::from(part));
    let kind = match object.kind {
        Kind::Scaled {
            scale_w, scale_h, ..
        } => {
            format!("scaled {}/{} (1024 = 1:1)", scale_w.0, scale_h.0)
        }
        Kind::Copy { .. } => "copied".to_string(),
    };
    let [left, top, right, lower] = study.scissor;
    let mut said = format!(
        "{kind} · image {} × {} {} {} from ({}, {})",
        whole(object.image_w.0, 4),
        whole(object.image_h.0, 4),
        format_name(object.image_fmt),
        texel_bits(object.image_siz),
        whole(object.image_x.0, 32),
        whole(object.image_y.0, 32),
    );
    if study.flipped() {
        said.push_str(" · flipped");
    }
    said.push_str(&format!(
        " · frame {} × {} at ({}, {}) · scissor {left} {top} {right} {lower}",
        whole(object.frame_w.0, 4),
        whole(object.frame_h.0, 4),
        whole(object.frame_x.0, 4),
        whole(object.frame_y.0, 4),
    ));
    if mode == Mode::Scaled && study.bilinear {
        said.push_str(" · bilinear");
    }
    said
}

/// Everything worth saying, what is wrong first.
pub fn findings(study: &Study, picture: &Picture, sampled: &Sampled) -> Vec<Finding> {
    let mut said = Vec::new();
    refusal(study, &mut said);
    not_drawn(study, &mut said);
    match study.mode {
        Some(Mode::Scaled) => {
            drift(study, &mut said);
            seams(study, &mut said);
        }
        Some(Mode::Copy) => copied(study, &mut said),
        None => {}
    }
    edges(study, &mut said);
    others(study, &mut said);
    let (left_out, all) = sampled.left_out();
    if left_out > 0 && !study.strips.is_empty() {
        let (left_out, all) = (grouped(left_out as i64), grouped(all as i64));
        said.push((
            GREY,
            format!("{left_out} of {all} texels are not sampled (striped grey in the image)."),
        ));
    }
    if matches!(picture, Picture::Texels(_))
        && study.object.is_some_and(|object| object.image_fmt == 2)
    {
        said.push((GREY, "Texels of raw CI images are numbers of a palette; each number has a colour of its own here.".to_string()));
    }
    if study.bilinear {
        said.push((
            GREY,
            "The render mode blends neighbouring texels; the sheet shows the nearest one."
                .to_string(),
        ));
    }
    said
}

fn refusal(study: &Study, said: &mut Vec<Finding>) {
    let end = study.end;
    let Err(refusal) = end.result() else {
        if study.strips.is_empty() {
            said.push((RED, "The plan is complete, and draws nothing: the clipped frame has no whole line or pixel.".to_string()));
        }
        return;
    };
    let sentence = refusal.to_string();
    let mut letters = sentence.chars();
    let first = letters.next().map(|letter| letter.to_ascii_uppercase());
    said.push((DARK_RED, first.into_iter().chain(letters).collect()));
    let stopped = match end.verdict {
        Verdict::TooBig | Verdict::Piece | Verdict::Address => {
            let (x, y) = next_place(study);
            let drawn = study.strips.len() as u64;
            match drawn {
                0 => "It stopped in the first strip: nothing is drawn.".to_string(),
                _ => format!(
                    "It stopped in strip {}, whose first pixel would be {x}, {y}; what is drawn before it stands.",
                    grouped(drawn as i64 + 1)
                ),
            }
        }
        _ => "Nothing was planned, and no tile was set.".to_string(),
    };
    said.push((DARK_RED, stopped));
}

/// `Line 3`, `Lines 3 to 5`, `3 lines from 3 to 9`.
fn named(numbers: &[i32], one: &str, many: &str) -> String {
    match numbers {
        [number] => format!("{one} {number}"),
        [first, .., last] if (last - first) as usize + 1 == numbers.len() => {
            format!("{many} {first} to {last}")
        }
        [first, .., last] => format!("{} {many} from {first} to {last}", numbers.len()),
        [] => String::new(),
    }
}

fn not_drawn(study: &Study, said: &mut Vec<Finding>) {
    let (lines, columns) = study.not_drawn();
    if study.strips.is_empty() || lines.is_empty() && columns.is_empty() {
        return;
    }
    let parts = [
        named(&lines, "line", "lines"),
        named(&columns, "column", "columns"),
    ];
    let parts: Vec<&str> = parts
        .iter()
        .map(String::as_str)
        .filter(|part| !part.is_empty())
        .collect();
    let mut what = parts.join(" and ");
    if let Some(first) = what.get_mut(..1) {
        first.make_ascii_uppercase();
    }
    let verb = if lines.len() + columns.len() == 1 {
        "is"
    } else {
        "are"
    };
    let why = match (study.mode, study.end.verdict) {
        (Some(Mode::Scaled), Verdict::Finished) => {
            ": a scaled plan draws what the image gives, less one unit, in whole pixels."
        }
        _ => ".",
    };
    said.push((RED, format!("{what} of the frame {verb} not drawn{why}")));
}

fn drift(study: &Study, said: &mut Vec<Finding>) {
    let (Some((least, most)), Some(last)) = (
        study.drift(),
        study.strips.last().and_then(|strip| strip.drift),
    ) else {
        return;
    };
    let limits = match study.proved {
        true => format!(
            "the proved limits{} are {} and {:+}.",
            match origin_between_rows(study) {
                true => ", for an origin between two rows,",
                false => "",
            },
            last.behind,
            last.ahead
        ),
        false => format!(
            "limits of {} and {:+} are not proved here, as {}.",
            last.behind,
            last.ahead,
            unproved(study)
        ),
    };
    let outside = study
        .strips
        .iter()
        .filter(|strip| strip.drift.is_some_and(|drift| !drift.is_near()))
        .count();
    let found = match (least, most) {
        (0, 0) => format!("No drift: every line samples its exact place; {limits}"),
        _ => format!("Drift from {least:+} to {most:+} of 1,024; {limits}"),
    };
    said.push((BLUE, found));
    if outside > 0 {
        said.push((
            RED,
            format!(
                "{outside} of {} strips lie outside these limits.",
                study.strips.len()
            ),
        ));
    }
}

/// Which of the two conditions of 11.1 is not met, the first of them.
fn unproved(study: &Study) -> &'static str {
    match study.object.map(|object| object.image_h.0 % 4) {
        Some(0) => "the start lies above the origin",
        _ => "the image's height is no whole number of rows",
    }
}

fn origin_between_rows(study: &Study) -> bool {
    let kind = study.object.map(|object| object.kind);
    matches!(kind, Some(Kind::Scaled { image_y_orig, .. }) if image_y_orig.0 % 32 != 0)
}

fn seams(study: &Study, said: &mut Vec<Finding>) {
    let seams = &study.seams;
    let jumps: Vec<i64> = seams
        .iter()
        .map(|seam| seam.jump)
        .filter(|jump| *jump != 0)
        .collect();
    let (on, back) = (
        jumps.iter().filter(|jump| **jump > 0),
        jumps.iter().filter(|jump| **jump < 0),
    );
    let mut parts = Vec::new();
    if let Some(most) = jumps.iter().max().filter(|most| **most > 0) {
        parts.push(format!(
            "{} go on by up to {most}/1,024 of a row",
            on.count()
        ));
    }
    if let Some(least) = jumps.iter().min().filter(|least| **least < 0) {
        parts.push(format!(
            "{} go back by up to {}/1,024",
            back.count(),
            -least
        ));
    }
    match parts.is_empty() {
        true if seams.is_empty() => {}
        true => said.push((BLUE, format!("None of the {} seams shows.", seams.len()))),
        false => said.push((
            ORANGE,
            format!(
                "{} of {} seams show: {}.",
                jumps.len(),
                seams.len(),
                parts.join(", ")
            ),
        )),
    }
}

fn edges(study: &Study, said: &mut Vec<Finding>) {
    let places = [("x", &study.upright_edges), ("y", &study.level_edges)];
    let place = |(name, edges): &(&str, &Vec<Edge>)| {
        let at = edges.first()?.at;
        Some(match edges.len() {
            1 => format!("{name} = {at}"),
            2 => format!("{name} = {at} and once more"),
            n => format!("{name} = {at} and {} more times", grouped(n as i64 - 1)),
        })
    };
    let places: Vec<String> = places.iter().filter_map(place).collect();
    if !places.is_empty() {
        said.push((
            MAGENTA,
            format!(
                "The image's own edge crosses the picture at {}: a seam shows there unless the image tiles.",
                places.join(" and at ")
            ),
        ));
    }
}

/// What a copied plan meets of the clipped frame, and loads of the image. What is proved of a
/// finished one is counted here again, on the machine's own screen.
fn copied(study: &Study, said: &mut Vec<Finding>) {
    let finished = study.end.verdict == Verdict::Finished;
    let begins = inside_a_pixel(study);
    let pixel = if begins.is_some() { "cell" } else { "pixel" };
    match (finished, study.strips.len()) {
        (false, 0) => return,
        (false, _) => said.push(stand(study, pixel)),
        (true, 0) if study.met.is_once() => return,
        (true, _) => said.extend([once(study, pixel), loads(study)]),
    }
    said.extend(begins);
}

/// How many rectangles there are, and what they do.
fn rectangles(study: &Study, one: &str, more: &str) -> String {
    let count = study.strips.len() as u64;
    let verb = if count == 1 { one } else { more };
    format!("{} {verb}", counted(count, "rectangle", "rectangles"))
}

/// What the rectangles of a refused plan meet: nothing is proved of that.
fn stand(study: &Study, pixel: &str) -> Finding {
    let some = rectangles(study, "stands and meets", "stand and meet");
    let [met, all] = [study.met.inside, study.met.frame].map(|count| grouped(count as i64));
    (
        BLUE,
        format!("{some} {met} of {all} {pixel}s of the clipped frame."),
    )
}

const PROVED: &str = "as is proved of every finished copy plan";

fn once(study: &Study, pixel: &str) -> Finding {
    let met = study.met;
    if met.is_once() {
        let all = rectangles(study, "meets", "meet");
        let text = format!("{all} every {pixel} of the clipped frame once and no other, {PROVED}.");
        return (BLUE, text);
    }
    let [some, all, again, elsewhere] =
        [met.inside, met.frame, met.again, met.elsewhere].map(|count| grouped(count as i64));
    (
        RED,
        format!(
            "{some} of {all} {pixel}s of the clipped frame are met, {again} more than once, and \
             {elsewhere} elsewhere: each should be met once and no other, {PROVED}."
        ),
    )
}

/// The words that the largest load fills are at the head of the sheet.
fn loads(study: &Study) -> Finding {
    match study.wrong_loads() {
        0 => (
            BLUE,
            "The columns and rows of every load lie inside the image, as is proved too; bytes \
             that fill a row's last word may lie past the row's end."
                .to_string(),
        ),
        wrong => (
            RED,
            format!(
                "Loads that leave the image or overfill texture memory: {} of {}. There should be \
                 none, {PROVED}.",
                grouped(wrong as i64),
                grouped(study.loads.len() as i64)
            ),
        ),
    }
}

/// Where the clipped frame's cells are no pixels of the screen.
fn inside_a_pixel(study: &Study) -> Option<Finding> {
    let begins = study.begins();
    let [x, y] = begins.map(|quarters| f64::from(quarters) / 4.0);
    let text = format!(
        "The clipped frame begins inside a pixel, at ({x}, {y}): each cell of it is shown in the \
         pixel in which the cell begins."
    );
    let inside = begins.iter().any(|quarters| quarters % 4 != 0);
    inside.then_some((GREY, text))
}

fn others(study: &Study, said: &mut Vec<Finding>) {
    let count = study
        .screen
        .iter()
        .filter(|shown| **shown == Shown::Other)
        .count();
    if count > 0 {
        said.push((
            RED,
            format!(
                "{} pixels (dark squares) show what texture memory held before, or bytes outside the image.{}",
                grouped(count as i64),
                reason(study)
            ),
        ));
    }
}

/// Why a copied plan shows such pixels though its loads lie inside the image.
fn reason(study: &Study) -> &'static str {
    let halves =
        study.object.is_some_and(|object| object.image_siz == 0) && study.columns() % 2 == 1;
    let wide = study.loads.iter().any(|load| load.too_wide);
    match study.mode {
        Some(Mode::Copy) if halves => {
            " Rows of an odd number of 4-bit texels lie half a byte less apart than they are long."
        }
        Some(Mode::Copy) if wide => {
            " A flipped load of more than 1,024 columns is shown from another column, as in the original."
        }
        _ => "",
    }
}

#[cfg(test)]
mod tests {
    use super::*;
    use crate::input::Asked;
    use crate::study::Met;
    use visorlongan::copy_object;

    /// What is said of a picture of 320 by 240 texels of 16 bits, as it is copied and where the
    /// study had counted something else.
    fn said(change: fn(&mut Study)) -> Vec<Finding> {
        let bytes = copy_object(320, 240, 0, 2, 0).expect("an object");
        let mut study = Study::of(&Asked::default().object("title", &bytes, Mode::Copy));
        change(&mut study);
        let mut said = Vec::new();
        copied(&study, &mut said);
        said
    }

    #[test]
    fn another_count_is_red() {
        let as_it_is = said(|_| {});
        assert!(as_it_is.iter().all(|(colour, _)| *colour == BLUE));
        let red = |change, found: &str, place: usize| {
            let (colour, text) = said(change).swap_remove(place);
            assert!(colour == RED && text.starts_with(found), "{text}");
            assert!(text.ends_with(", as is proved of every finished copy plan."));
        };
        let left_out = "76,799 of 76,800 pixels of the clipped frame are met, 2 more than once, and 1 elsewhere: ";
        let counted = |study: &mut Study| {
            let frame = study.met.frame;
            study.met = Met {
                frame,
                inside: frame - 1,
                again: 2,
                elsewhere: 1,
            }
        };
        red(counted, left_out, 0);
        let wrong = "Loads that leave the image or overfill texture memory: 1 of 40. ";
        red(|study| study.loads[3].inside = false, wrong, 1);
        red(|study| study.loads[39].words = 513, wrong, 1);
    }
}
