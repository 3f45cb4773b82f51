//! A record of the comparison with what goes in beside it.

use crate::generate::{self, Mode};
use crate::proved::REQUEST_WORDS;
use crate::random::Random;
use crate::record::{initial_bank, Record, OBJECT_BYTES};
use crate::run::{Answer, Settings};
use crate::spans;

/// A record with what goes in beside it.
#[derive(Clone)]
pub struct Case {
    pub record: Record,
    /// The object as the proved code gets it: 40 bytes, fewer, or more than are read.
    pub object: Vec<u8>,
    /// The request as the proved code gets it. Where an edge or the opcode is wider than in the
    /// record, the record has 65,535 or 0 in its place, which is refused just as well.
    pub request: [u64; REQUEST_WORDS],
    pub bank_seed: Option<u64>,
    /// The bank's words have bits above their fields' widths, which stay where no entry sets the
    /// word.
    pub wide_bank: bool,
    /// Chooses the buffers' lengths and what stands in them before.
    pub draw: u64,
}

impl Case {
    pub fn random(random: &mut Random, mode: Mode) -> Case {
        let mut record = generate::generate(random, mode);
        let mut object = record.object.to_vec();
        match random.below(16) {
            0 => object.truncate(random.pick(&[0, 1, 15, 28, 32, 34, 35, 36, 37, 38, 39])),
            1 => object.extend((0..random.within(1, 24)).map(|_| random.next() as u8)),
            _ => {}
        }
        let wide = widened(random, &mut record);
        let mut case = Case {
            object,
            ..Case::drawn(random, record)
        };
        for (place, word) in wide {
            case.request[place] = word;
        }
        case
    }

    /// The same with its image at the last address (spans.rs).
    pub fn moved(&self, answer: &Answer, random: &mut Random) -> Option<Case> {
        let record = spans::moved(&self.record, answer, random)?;
        let mut case = self.clone();
        case.record = record;
        case.request[6] = record.address;
        case.draw = random.next();
        Some(case)
    }

    /// A record as it is, with a random bank and random buffers.
    pub fn drawn(random: &mut Random, record: Record) -> Case {
        Case {
            bank_seed: Some(random.next()),
            wide_bank: random.once_in(16),
            draw: random.next(),
            ..Case::fixed(record, OBJECT_BYTES)
        }
    }

    pub fn fixed(record: Record, object_bytes: usize) -> Case {
        Case {
            record,
            object: record.object[..object_bytes].to_vec(),
            request: request(&record),
            bank_seed: Some(1),
            wide_bank: false,
            draw: 1,
        }
    }

    pub fn settings(&self, capacity: u64) -> Settings {
        Settings {
            bank: initial_bank(self.bank_seed),
            object_bytes: self.object.len().min(OBJECT_BYTES),
            capacity,
        }
    }
}

pub fn request(record: &Record) -> [u64; REQUEST_WORDS] {
    let [ulx, uly, lrx, lry] = record.scissor.map(u64::from);
    let (mode, address) = (record.render_mode.into(), record.address);
    [record.opcode.into(), ulx, uly, lrx, lry, mode, address]
}

/// Now and then a word of the request that the record's bytes cannot hold: an opcode above 255, an
/// edge that is negative or above 65,535, a render mode with bits above the 32 that count.
fn widened(random: &mut Random, record: &mut Record) -> Vec<(usize, u64)> {
    let mut wide = Vec::new();
    if random.once_in(300) {
        wide.push((
            0,
            u64::from(record.opcode) + 256 * random.within(1, 9) as u64,
        ));
        record.opcode = 0;
    }
    if random.once_in(200) {
        let place = random.below(4) as usize;
        let negative = random.pick(&[-1i64, -4, -1024, i64::from(i32::MIN)]) as u64;
        let above = random.pick(&[1 << 16, 0x7fff_ffff, (1 << 32) + 5, 1 << 63]);
        wide.push((1 + place, random.pick(&[negative, above])));
        record.scissor[place] = u16::MAX;
    }
    if random.once_in(4) {
        let mode = u64::from(record.render_mode) + (random.next() << 32);
        wide.push((5, mode));
    }
    wide
}

/// The case with one byte of its record set to 0; nothing if it is.
pub fn without(case: &Case, at: usize) -> Option<Case> {
    let mut bytes = case.record.to_bytes();
    if bytes[at] == 0 {
        return None;
    }
    bytes[at] = 0;
    let mut simpler = case.clone();
    simpler.record = Record::from_bytes(&bytes);
    if at < simpler.object.len().min(OBJECT_BYTES) {
        simpler.object[at] = 0;
    }
    if at >= OBJECT_BYTES {
        simpler.request = request(&simpler.record);
    }
    Some(simpler)
}
