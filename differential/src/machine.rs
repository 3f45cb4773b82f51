//! What a planner is called with: the address space of a case, and the interpreter's state.

use crate::diag::Diagnostic;
use crate::hle::gbi::GbiConstants;
use crate::hle::interp::{Cmd, Ctx};
use crate::hle::mem::{
    decode_obj_bg, Command, GbiDataFormat, Matrix, MemoryError, MemoryErrorKind, ObjBg, ObjBgKind,
    Rdram,
};
use crate::hle::rdp::Rdp;
use crate::hle::rsp::{PairRec, Rsp, Scissor};
use crate::inspect::Emission;
use crate::plan::Plan;
use crate::record::{Bank, Record};
use crate::scene::Scene;
use std::borrow::Cow;
use std::cell::Cell;

/// The address space of a case: the object's bytes, and an image that can be read everywhere.
pub struct CaseMemory<'a> {
    object: &'a [u8],
    image: u64,
    last_read: Cell<Option<(u64, u64)>>,
}

fn refused<T>(address: u64, length: u64, kind: MemoryErrorKind) -> Result<T, MemoryError> {
    Err(MemoryError {
        address,
        length,
        kind,
    })
}

impl Rdram for CaseMemory<'_> {
    fn resolve(&self, _pointer: u64) -> Result<u64, MemoryError> {
        Ok(self.image)
    }

    fn resolve_masked(&self, address: u64) -> Result<u64, MemoryError> {
        Ok(address)
    }

    fn read_obj_bg(&self, address: u64, kind: ObjBgKind) -> Result<ObjBg, MemoryError> {
        decode_obj_bg(address, kind, 4, |at, length| {
            match self.object.get(at as usize..at as usize + length) {
                Some(bytes) => Ok(bytes.iter().fold(0, |v, &b| (v << 8) | u64::from(b))),
                None => refused(at, length as u64, MemoryErrorKind::OutOfBounds),
            }
        })
    }

    /// Only the request is of interest; the texels are left out.
    fn read_bytes(&self, address: u64, length: usize) -> Result<Cow<'_, [u8]>, MemoryError> {
        self.last_read.set(Some((address, length as u64)));
        Ok(Cow::Borrowed(&[]))
    }

    /// The span read last. The recording `load_tile_typed` asks for it after each load.
    fn take_zero_filled_read(&self) -> Option<(u64, u64)> {
        self.last_read.take()
    }

    fn set_segment(&mut self, _: u32, _: u64) {
        unreachable!()
    }
    fn read_command(&self, _: u64) -> Result<Command, MemoryError> {
        unreachable!()
    }
    fn command_stride(&self) -> u64 {
        unreachable!()
    }
    fn in_bounds(&self, _: u64, _: u64) -> bool {
        unreachable!()
    }
    fn read_u8(&self, _: u64) -> Result<u8, MemoryError> {
        unreachable!()
    }
    fn read_i8(&self, _: u64) -> Result<i8, MemoryError> {
        unreachable!()
    }
    fn read_i16(&self, _: u64) -> Result<i16, MemoryError> {
        unreachable!()
    }
    fn read_u16(&self, _: u64) -> Result<u16, MemoryError> {
        unreachable!()
    }
    fn read_matrix(&self, _: u64, _: GbiDataFormat) -> Result<Matrix, MemoryError> {
        unreachable!()
    }
}

impl<'a> CaseMemory<'a> {
    pub fn new(object: &'a [u8], image: u64) -> Self {
        CaseMemory {
            object,
            image,
            last_read: Cell::new(None),
        }
    }
}

pub type Planner<'m> =
    for<'a, 'c> fn(&'a Cmd, &'a mut Ctx<'c, CaseMemory<'m>>) -> Result<Vec<Emission<'static>>, ()>;

/// The interpreter's state, as far as the planners touch it.
pub struct Machine {
    pub rdp: Rdp,
    pub rsp: Rsp,
    pub diagnostics: Vec<Diagnostic>,
    scene: Scene,
    pairs: PairRec,
}

impl Machine {
    pub fn new(bank: Bank, plan: Plan) -> Self {
        Machine {
            rdp: Rdp {
                tiles: bank,
                ..Default::default()
            },
            rsp: Rsp {
                obj_render_mode: 0,
                material_dirty: false,
                plan,
            },
            diagnostics: Vec::new(),
            scene: Scene::default(),
            pairs: PairRec::default(),
        }
    }

    /// One background command: how many rectangles it emitted, or that it was refused.
    pub fn call<'r>(
        &mut self,
        planner: Planner<'r>,
        record: &Record,
        mut memory: CaseMemory<'r>,
    ) -> Option<usize> {
        let [ulx, uly, lrx, lry] = record.scissor.map(i32::from);
        self.rdp.scissor = Scissor {
            ulx,
            uly,
            lrx,
            lry,
            mode: 0,
        };
        self.rsp.obj_render_mode = record.render_mode;
        let command = Cmd {
            w0: u32::from(record.opcode) << 24,
            w1: 0,
            w1_addr: 0,
        };
        let mut context = Ctx {
            rsp: &mut self.rsp,
            rdp: &mut self.rdp,
            mem: &mut memory,
            scene: &mut self.scene,
            diags: &mut self.diagnostics,
            pc: 0,
            gbi_consts: GbiConstants,
            rec: &mut self.pairs,
            dropped_runs: &mut 0,
            unknown_seen: &mut [false; 256],
        };
        planner(&command, &mut context).ok().map(|e| e.len())
    }
}
