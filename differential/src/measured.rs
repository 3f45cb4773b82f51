//! What `visor_drift` tells of a record, held against the Rust's own rectangles and variables.

use crate::case::Case;
use crate::entry::RECTANGLE;
use crate::guarded::{Buffers, Guarded};
use crate::plan::Slices;
use crate::proved::{self, DRIFT_WORDS, REQUEST_WORDS, TOLD_WORDS};
use crate::random::Random;
use crate::record::{OBJECT_BYTES, SCALED};
use crate::run::Answer;
use crate::{cases, Tally};

/// The variables of a scaled plan that is set up, and its object; nothing where the checks refuse
/// it, its frame is empty or it has no strips.
fn set_up(case: &Case, answer: &Answer) -> Option<(Slices, crate::hle::mem::ObjBg)> {
    if case.record.opcode != SCALED || answer.end.verdict == 6 {
        return None;
    }
    Some((answer.plan.notes.slices?, answer.object?))
}

/// Five words for each rectangle of the Rust's plan, by SPECIFICATION 11; whether the conditions of
/// 11.1 hold; and whether the origin lies between two rows.
#[derive(Default)]
struct Expected {
    rectangles: Vec<[u64; DRIFT_WORDS]>,
    apt: bool,
    between_rows: bool,
}

fn expected(case: &Case, answer: &Answer) -> Expected {
    let Some((slices, bg)) = set_up(case, answer) else {
        return Expected::default();
    };
    let (h, image_h) = (i64::from(bg.scale_h.max(1)), i64::from(bg.image_h));
    let origin = i64::from(bg.image_y_orig);
    let start = i64::from(bg.image_y) + (slices.top * h).div_euclid(128);
    let between_rows = origin.rem_euclid(32) != 0;
    let behind = -(h + if between_rows { 1022 } else { 30 });
    let mut rectangles = Vec::new();
    let mut line = 0;
    let entries = answer.plan.entries.iter().filter(|e| e[0] == RECTANGLE);
    for (entry, &k) in entries.zip(&answer.plan.notes.strips) {
        let [uly, lry, ult, row] = [3, 5, 7, 10].map(|n| entry[n] as i64);
        let above = if k <= slices.slice {
            slices.hidden >> 10
        } else {
            0
        };
        let rows = slices.image_rows * k + origin.div_euclid(32) + slices.carry + above;
        let sampled = 1024 * row + 32 * ult;
        let exact = 32 * (start + 32 * slices.carry) + h * line;
        let distance = sampled - exact + 256 * image_h * rows.div_euclid(slices.source_rows);
        let ahead = (h * (1024 + k)).div_euclid(1024);
        rectangles.push([line, k, distance, behind, ahead].map(|n| n as u64));
        line += (lry - uly) / 4;
    }
    Expected {
        rectangles,
        apt: image_h % 4 == 0 && start >= origin,
        between_rows,
    }
}

/// The limits of SPECIFICATION 11.6 on the Rust's own numbers, and how many rectangles are within
/// 1/1,024 of the limit behind.
fn near(rectangles: &[[u64; DRIFT_WORDS]]) -> Result<u64, String> {
    let mut nearest = 0;
    for (n, rectangle) in rectangles.iter().enumerate() {
        let [distance, behind, ahead] = [2, 3, 4].map(|word| rectangle[word] as i64);
        if !(behind..=ahead).contains(&distance) {
            let text = format!("rectangle {n} of the Rust: {distance}, not {behind} to {ahead}\n");
            return Err(text);
        }
        nearest += u64::from(distance <= behind + 1);
    }
    Ok(nearest)
}

/// One call into a buffer of so many words.
fn called(
    case: &Case,
    rectangles: &[[u64; DRIFT_WORDS]],
    apt: bool,
    (room, mark): (usize, u64),
    buffers: &mut Buffers,
) -> Result<(), String> {
    let Buffers { drift, told, .. } = buffers;
    drift.fill(room, mark);
    told.fill(TOLD_WORDS, mark);
    let status = proved::drift(
        &case.object,
        &case.request,
        drift.inside_mut(),
        told.inside_mut(),
    );
    let shown = &rectangles[..rectangles.len().min(room / DRIFT_WORDS)];
    let should = [shown.len() as u64, u64::from(apt)];
    if status != 0 || told.inside() != should {
        let told = told.inside();
        return Err(format!(
            "measured into {room} words: told {told:?} and not {should:?}, returned {status}\n"
        ));
    }
    let given = drift.inside().chunks_exact(DRIFT_WORDS);
    for (n, (should, is)) in shown.iter().zip(given).enumerate() {
        if is != should {
            let [should, is] = [&should[..], is].map(|w| w.iter().map(|&n| n as i64));
            let (should, is) = (should.collect::<Vec<_>>(), is.collect::<Vec<_>>());
            return Err(format!("rectangle {n}: Rust {should:?}, proved {is:?}\n"));
        }
    }
    let kept = drift.untouched_but(DRIFT_WORDS * shown.len()) && told.untouched_but(TOLD_WORDS);
    let text = "words beyond the rectangles, or around them, are changed\n";
    kept.then_some(()).ok_or_else(|| text.to_string())
}

/// A record's rectangles measured into buffers with room for all, for some and for none.
pub fn measured(
    case: &Case,
    answer: &Answer,
    random: &mut Random,
    buffers: &mut Buffers,
    tally: &mut Tally,
) -> Result<(), String> {
    let Expected {
        rectangles,
        apt,
        between_rows,
    } = expected(case, answer);
    let whole = DRIFT_WORDS * rectangles.len();
    let rooms = [
        whole + random.below(11) as usize,
        random.below(whole as u64 + 1) as usize,
        random.below(DRIFT_WORDS as u64) as usize,
    ];
    for room in rooms {
        called(case, &rectangles, apt, (room, random.next()), buffers)?;
    }
    tally.measured += rectangles.len() as u64;
    if apt {
        let kind = usize::from(between_rows);
        tally.apt[kind] += 1;
        tally.nearest[kind] += near(&rectangles)?;
    }
    Ok(())
}

/// The words of request and told that a call refuses.
const REFUSED: [(usize, usize); 7] = [
    (REQUEST_WORDS - 1, TOLD_WORDS),
    (REQUEST_WORDS + 1, TOLD_WORDS),
    (0, TOLD_WORDS),
    (REQUEST_WORDS, TOLD_WORDS - 1),
    (REQUEST_WORDS, TOLD_WORDS + 1),
    (REQUEST_WORDS, 0),
    (0, 0),
];

/// What stands in the buffers of a call that is refused.
const MARK: u64 = 77;

/// Calls of a plan with rectangles that the interface refuses: 1 is returned and nothing is changed.
pub fn refused_calls() -> Result<(), String> {
    let (mut drift, mut told) = (Guarded::new(), Guarded::new());
    for named in cases::all() {
        let case = Case::fixed(named.record, named.object_bytes);
        for (request, words) in REFUSED {
            let mut asked = case.request.to_vec();
            asked.resize(request, 0);
            let status = proved::drift(
                &case.object,
                &asked,
                drift.fill(10 * DRIFT_WORDS, MARK),
                told.fill(words, MARK),
            );
            let same = drift.untouched_but(0) && told.untouched_but(0);
            if status != 1 || !same {
                return Err(format!(
                    "drift, request {request}, told {words} words: returned {status}, {} changed\n",
                    if same { "nothing" } else { "something" }
                ));
            }
        }
    }
    Ok(())
}
