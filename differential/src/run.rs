//! Runs one case through the untouched and the noted planner and gives the specification's answer.

use crate::diag::{DiagKind, Diagnostic, MemoryAccess};
use crate::hle::mem::{MemoryError, MemoryErrorKind, ObjBg, ObjBgKind, Rdram};
use crate::hle::{rsp_s2dex2, rsp_s2dex2_noted};
use crate::machine::{CaseMemory, Machine, Planner};
use crate::plan::{End, Plan, Sink};
use crate::record::{Bank, Record, COPY, OBJECT_BYTES, SCALED};

/// How to run a case. The defaults are those of `bgplan`.
#[derive(Clone, Debug)]
pub struct Settings {
    pub bank: Bank,
    /// How many bytes of the object the planner is given.
    pub object_bytes: usize,
    /// Words of the plan buffer.
    pub capacity: u64,
}

impl Default for Settings {
    fn default() -> Self {
        Settings {
            bank: Bank::default(),
            object_bytes: OBJECT_BYTES,
            capacity: u64::MAX,
        }
    }
}

pub struct Answer {
    pub end: End,
    pub bank: Bank,
    pub plan: Plan,
    pub object: Option<ObjBg>,
}

/// What a planner left behind.
struct Outcome {
    finished: bool,
    emissions: usize,
    diagnostics: Vec<Diagnostic>,
    plan: Plan,
    bank: Bank,
}

fn memory<'r>(record: &'r Record, settings: &Settings) -> CaseMemory<'r> {
    let object = &record.object[..settings.object_bytes];
    CaseMemory::new(object, record.address)
}

fn call<'r>(planner: Planner<'r>, record: &'r Record, settings: &Settings, sink: Sink) -> Outcome {
    let plan = Plan::new(sink, settings.capacity / 11);
    let mut machine = Machine::new(settings.bank.clone(), plan);
    let emitted = machine.call(planner, record, memory(record, settings));
    Outcome {
        finished: emitted.is_some(),
        emissions: emitted.unwrap_or(0),
        diagnostics: machine.diagnostics,
        plan: machine.rsp.plan,
        bank: machine.rdp.tiles,
    }
}

/// The two runs must agree in everything but the image rows, which only the noted text tells.
fn assert_same(untouched: &Outcome, noted: &Outcome) {
    assert_eq!(untouched.finished, noted.finished);
    assert_eq!(untouched.emissions, noted.emissions);
    assert_eq!(untouched.diagnostics, noted.diagnostics);
    assert_eq!(untouched.plan.count, noted.plan.count);
    assert_eq!(untouched.plan.rectangles, noted.plan.rectangles);
    assert_eq!(untouched.plan.tile_words, noted.plan.tile_words);
    assert_eq!(untouched.plan.calls, noted.plan.calls);
    assert_eq!(untouched.plan.full, noted.plan.full);
    assert_eq!(untouched.plan.refused_span, noted.plan.refused_span);
    assert_eq!(untouched.bank, noted.bank);
}

/// Verdicts 4 to 9, from the one diagnostic and from where the planner was.
fn rust_verdict(outcome: &Outcome, copy: bool) -> u64 {
    assert_eq!(outcome.diagnostics.len(), 1);
    let started = outcome.plan.count > 0 || outcome.plan.full;
    match outcome.diagnostics[0].kind {
        DiagKind::UnsupportedCommandParameters { .. } => {
            match (outcome.plan.notes.object_passed, copy, started) {
                (false, _, _) => 4,
                (true, true, false) => 5,
                (true, false, false) => 6,
                (true, true, true) => 7,
                (true, false, true) => 8,
            }
        }
        DiagKind::MemoryRead {
            access: MemoryAccess::Texture,
            error:
                MemoryError {
                    kind: MemoryErrorKind::AddressOverflow,
                    ..
                },
        } => 9,
        other => panic!("unexpected diagnostic {other:?}"),
    }
}

/// Verdicts 4 and 5 by the wording of SPECIFICATION 4.4 and 4.5.
pub fn object_verdict(bg: &ObjBg, copy: bool) -> Option<u64> {
    if bg.image_w == 0
        || bg.image_h == 0
        || bg.frame_w == 0
        || bg.frame_h == 0
        || bg.image_siz > 3
        || bg.image_fmt > 4
        || (bg.image_load != 0x0033 && bg.image_load != 0xfff4)
    {
        return Some(4);
    }
    let product = u64::from(bg.tmem_size) * 65_536 + u64::from(bg.tmem_load_sh);
    let refused = copy
        && (bg.image_load != 0xfff4
            || bg.tmem_h < 4
            || bg.image_w < 4
            || bg.image_h < 4
            || bg.tmem_size_w == 0
            || product != u64::from(bg.tmem_h) * u64::from(bg.tmem_size_w)
            || bg.image_flip > 1);
    refused.then_some(5)
}

/// Verdicts 4, 5 and 6 by the wording of SPECIFICATION 4.4, 4.5 and 8.6, to hold against the
/// Rust's.
fn document_verdict(bg: &ObjBg, copy: bool, plan: &Plan) -> Option<u64> {
    // Absent slices: copy mode, or an empty frame, which answers before 6 is tried.
    let slices = plan.notes.slices;
    let refused = slices.is_some_and(|s| bg.image_h < 4 || s.image_rows <= 0 || s.stride == 0);
    object_verdict(bg, copy).or(refused.then_some(6))
}

pub fn run(record: &Record, settings: &Settings, sink: Sink) -> Answer {
    let refuse = |verdict| Answer {
        end: End {
            verdict,
            entries: 0,
            rectangles: 0,
            tile_words: 0,
        },
        bank: settings.bank.clone(),
        plan: Plan::new(Sink::Nothing, 0),
        object: None,
    };
    let copy = match record.opcode {
        SCALED => false,
        COPY => true,
        _ => return refuse(1),
    };
    let decoded = decode(record, settings, copy);
    let short = settings.object_bytes < if copy { 40 } else { 36 };
    assert_eq!(decoded.is_err(), short);
    let Ok(bg) = decoded else {
        return refuse(2);
    };
    if record.scissor.iter().any(|&edge| edge > 1023) {
        return refuse(3);
    }

    let (untouched, noted): (Planner, Planner) = if copy {
        (rsp_s2dex2::bg_copy, rsp_s2dex2_noted::bg_copy)
    } else {
        (rsp_s2dex2::bg_1cyc, rsp_s2dex2_noted::bg_1cyc)
    };
    let untouched = call(untouched, record, settings, Sink::Nothing);
    let noted = call(noted, record, settings, sink);
    assert_same(&untouched, &noted);

    let mut verdict = if noted.finished {
        assert!(noted.diagnostics.is_empty());
        0
    } else {
        rust_verdict(&noted, copy)
    };
    let expected = document_verdict(&bg, copy, &noted.plan);
    assert_eq!(expected, Some(verdict).filter(|v| (4..=6).contains(v)));
    let mut bank = noted.bank;
    if noted.plan.full {
        // The buffer was full and the walk gave another entry.
        verdict = 10;
        bank = noted
            .plan
            .bank_when_full
            .clone()
            .unwrap_or_else(|| settings.bank.clone());
    } else if noted.finished {
        assert_eq!(noted.emissions as u64, noted.plan.rectangles);
    }
    Answer {
        end: End {
            verdict,
            entries: noted.plan.count,
            rectangles: noted.plan.rectangles,
            tile_words: noted.plan.tile_words,
        },
        bank,
        plan: noted.plan,
        object: Some(bg),
    }
}

/// The object's fields as the reference's decoder gives them.
pub fn decode(record: &Record, settings: &Settings, copy: bool) -> Result<ObjBg, MemoryError> {
    let kind = if copy {
        ObjBgKind::Copy
    } else {
        ObjBgKind::Scaled
    };
    memory(record, settings).read_obj_bg(0, kind)
}
