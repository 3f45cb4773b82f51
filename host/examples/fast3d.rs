//! How fast3d-rs would call this library: its `bg_copy` and `bg_1cyc` become one loop over entries.
//!
//! The names below are those of its `rsp_s2dex2.rs` and `rdp.rs`; `Ctx` stands for the
//! interpreter's context and keeps only what the loop touches: a machine with texture memory and a
//! frame buffer, which tests/pixels.rs holds to the image, pixel by pixel. Run it with
//!
//!     cargo run --offline --example fast3d -- [--step] [RECORD]
//!
//! where RECORD is a file of 61 bytes in bgplan's format; without one it draws case E. With `--step`
//! the plan is stepped: a frame draws some of its entries, and the next one goes on.

#[path = "../visor/machine.rs"]
pub mod machine;

use machine::Machine;
use std::process::ExitCode;
use visorlongan::{
    count, Buffer, Entry, Image, Planner, Record, Refusal, Request, Scissor, Verdict, BG_1CYC,
    BG_COPY,
};

/// The entries that a frame has time for, where a plan is stepped.
const BUDGET: u64 = 40;

/// fast3d-rs's `DiagKind`, as far as backgrounds push it.
#[derive(Debug)]
pub enum DiagKind {
    UnsupportedCommandParameters { opcode: u8 },
    MemoryReadObjBg,
    MemoryReadTexture,
}

/// The interpreter's context.
pub struct Ctx {
    pub rdp: Machine,
    pub tex_image: Option<Image>,
    pub obj_render_mode: u32,
    pub diags: Vec<DiagKind>,
    pub plan: Buffer,
    pub material_dirty: bool,
}

impl Ctx {
    pub fn new(width: i32, height: i32) -> Ctx {
        Ctx {
            rdp: Machine::new(width, height),
            tex_image: None,
            obj_render_mode: 0,
            diags: Vec::new(),
            plan: Buffer::with_limit(1 << 20),
            material_dirty: false,
        }
    }

    /// One entry, with the tiles as the entries up to it have set them.
    fn entry(&mut self, entry: Entry) {
        match entry {
            Entry::Image(image) => self.tex_image = Some(image),
            Entry::Tile(_) | Entry::Size(_) => self.material_dirty = true,
            Entry::Load(load) => self.rdp.load(&load),
            Entry::Rect(rect) => self.rdp.draw(&rect),
        }
    }

    fn diagnosed(&mut self, result: Result<(), Refusal>, opcode: u8) -> Result<(), ()> {
        result.map_err(|refusal| self.diags.push(diagnostic(refusal.verdict(), opcode)))
    }
}

/// Both background commands. `address` is the object's image pointer, resolved by the memory.
fn bg(opcode: u8, object: &[u8], scissor: Scissor, address: u64, cx: &mut Ctx) -> Result<(), ()> {
    let request = Request {
        object,
        opcode,
        scissor,
        render_mode: cx.obj_render_mode,
        address,
    };
    let mut buffer = std::mem::take(&mut cx.plan);
    let mut after = cx.rdp.tiles;
    let plan = buffer.plan(&request, &mut after);
    for (entry, tiles) in plan.steps(cx.rdp.tiles) {
        cx.rdp.tiles = tiles;
        cx.entry(entry);
    }
    // The same tiles, but for a refused load, which has set tile 7's bounds.
    cx.rdp.tiles = after;
    let result = plan.result();
    cx.plan = buffer;
    cx.diagnosed(result, opcode)
}

/// A frame's part of a plan that is stepped: how many entries it has done, at most `budget`.
pub(crate) fn bg_frame(planner: &mut Planner, budget: u64, cx: &mut Ctx) -> u64 {
    // Other commands may have set tiles since the frame before.
    planner.set_bank(&cx.rdp.tiles);
    for done in 0..budget {
        let next = planner.next();
        cx.rdp.tiles = planner.bank();
        let Some(entry) = next else { return done };
        cx.entry(entry);
    }
    budget
}

/// Either background command, drawn over several frames with a line for each.
fn bg_stepped(request: &Request, cx: &mut Ctx) -> Result<(), ()> {
    let whole = count(request).entries;
    let mut planner = Planner::new(request);
    let mut done = 0;
    while planner.end().is_none() {
        done += bg_frame(&mut planner, BUDGET, cx);
        println!("{done} of {whole} entries drawn");
    }
    cx.diagnosed(planner.result(), request.opcode)
}

/// What fast3d-rs pushes for a refusal.
fn diagnostic(verdict: Verdict, opcode: u8) -> DiagKind {
    match verdict {
        Verdict::Short => DiagKind::MemoryReadObjBg,
        Verdict::Address => DiagKind::MemoryReadTexture,
        _ => DiagKind::UnsupportedCommandParameters { opcode },
    }
}

/// Where it is `Ok`, each cell of the clipped frame is drawn once and nothing else is.
pub(crate) fn bg_copy(
    object: &[u8],
    scissor: Scissor,
    address: u64,
    cx: &mut Ctx,
) -> Result<(), ()> {
    bg(BG_COPY, object, scissor, address, cx)
}

pub(crate) fn bg_1cyc(
    object: &[u8],
    scissor: Scissor,
    address: u64,
    cx: &mut Ctx,
) -> Result<(), ()> {
    bg(BG_1CYC, object, scissor, address, cx)
}

fn draw(record: &Record, stepping: bool) -> Result<(), String> {
    let request = record.request();
    let mut cx = Ctx::new(1024, 1024);
    cx.obj_render_mode = request.render_mode;
    let drawn = match request.opcode {
        BG_COPY | BG_1CYC if stepping => bg_stepped(&request, &mut cx),
        BG_COPY => bg_copy(request.object, request.scissor, request.address, &mut cx),
        BG_1CYC => bg_1cyc(request.object, request.scissor, request.address, &mut cx),
        opcode => return Err(format!("{opcode} is no background's opcode")),
    };
    let pixels: Vec<_> = cx.rdp.pixels().filter(|(.., p)| p.drawn > 0).collect();
    println!("{} pixels drawn", pixels.len());
    for (x, y, pixel) in pixels.first().into_iter().chain(pixels.last()) {
        match pixel.shows {
            Some(half) => println!("pixel {x}, {y} shows the texel at address {}", half / 2),
            None => println!("pixel {x}, {y} shows nothing that was loaded whole"),
        }
    }
    drawn.map_err(|()| format!("refused: {:?}", cx.diags))
}

fn main() -> ExitCode {
    let sample = concat!(env!("CARGO_MANIFEST_DIR"), "/tests/cases/E.bin");
    let arguments = std::env::args().skip(1);
    let (flags, paths): (Vec<_>, Vec<_>) = arguments.partition(|argument| argument == "--step");
    let path = paths.first().cloned().unwrap_or(sample.to_string());
    let bytes = std::fs::read(&path).map_err(|error| error.to_string());
    let record =
        bytes.and_then(|bytes| Record::try_from(&bytes[..]).map_err(|error| error.to_string()));
    match record.and_then(|record| draw(&record, !flags.is_empty())) {
        Ok(()) => ExitCode::SUCCESS,
        Err(error) => {
            eprintln!("{path}: {error}");
            ExitCode::FAILURE
        }
    }
}
