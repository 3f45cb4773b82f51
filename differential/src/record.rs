//! The 61 bytes of a case: object, scissor, render mode, opcode, address, all big-endian.

use crate::hle::rdp::TileDescriptor;
use crate::random::Random;

pub const RECORD_BYTES: usize = 61;
pub const OBJECT_BYTES: usize = 40;

pub const SCALED: u8 = 9;
pub const COPY: u8 = 10;

pub type Bank = [TileDescriptor; 8];

#[derive(Clone, Copy, Debug)]
pub struct Record {
    pub object: [u8; OBJECT_BYTES],
    /// ulx, uly, lrx, lry.
    pub scissor: [u16; 4],
    pub render_mode: u32,
    pub opcode: u8,
    pub address: u64,
}

impl Record {
    /// An object as the worked cases ask for it: on a screen of 320 by 240 pixels, with its image at
    /// 4,096.
    pub fn on_screen(object: &Object, opcode: u8) -> Self {
        Record {
            object: object.to_bytes(),
            scissor: [0, 0, 320, 240],
            render_mode: 0,
            opcode,
            address: 4096,
        }
    }

    /// The record of 122 hexadecimal digits.
    pub fn from_hex(digits: &str) -> Self {
        let mut bytes = [0; RECORD_BYTES];
        for (n, byte) in bytes.iter_mut().enumerate() {
            *byte = u8::from_str_radix(&digits[2 * n..2 * n + 2], 16).expect("digits");
        }
        Record::from_bytes(&bytes)
    }

    pub fn from_bytes(bytes: &[u8; RECORD_BYTES]) -> Self {
        let half = |at: usize| u16::from_be_bytes(bytes[at..at + 2].try_into().unwrap());
        Record {
            object: bytes[..OBJECT_BYTES].try_into().unwrap(),
            scissor: [half(40), half(42), half(44), half(46)],
            render_mode: u32::from_be_bytes(bytes[48..52].try_into().unwrap()),
            opcode: bytes[52],
            address: u64::from_be_bytes(bytes[53..61].try_into().unwrap()),
        }
    }

    pub fn to_bytes(&self) -> [u8; RECORD_BYTES] {
        let mut bytes = [0; RECORD_BYTES];
        bytes[..OBJECT_BYTES].copy_from_slice(&self.object);
        for (edge, at) in self.scissor.iter().zip([40, 42, 44, 46]) {
            bytes[at..at + 2].copy_from_slice(&edge.to_be_bytes());
        }
        bytes[48..52].copy_from_slice(&self.render_mode.to_be_bytes());
        bytes[52] = self.opcode;
        bytes[53..61].copy_from_slice(&self.address.to_be_bytes());
        bytes
    }
}

/// The object's fields for writing, at the offsets of docs/SPECIFICATION.md, section 3.
#[derive(Clone, Copy, Debug, Default)]
pub struct Object {
    pub image_x: u16,
    pub image_w: u16,
    pub frame_x: i16,
    pub frame_w: u16,
    pub image_y: u16,
    pub image_h: u16,
    pub frame_y: i16,
    pub frame_h: u16,
    pub pointer: u32,
    pub load: u16,
    pub fmt: u8,
    pub siz: u8,
    pub pal: u16,
    pub flip: u16,
    /// Bytes 28 to 39: six copy fields, or two scales, the origin and four ignored bytes.
    pub tail: [u16; 6],
}

impl Object {
    pub fn set_scales(&mut self, scale_w: u16, scale_h: u16, origin: i32) {
        let origin = origin as u32;
        self.tail[..4].copy_from_slice(&[scale_w, scale_h, (origin >> 16) as u16, origin as u16]);
    }

    pub fn to_bytes(&self) -> [u8; OBJECT_BYTES] {
        let mut bytes = [0; OBJECT_BYTES];
        let mut half = |at: usize, value: u16| {
            bytes[at..at + 2].copy_from_slice(&value.to_be_bytes());
        };
        half(0, self.image_x);
        half(2, self.image_w);
        half(4, self.frame_x as u16);
        half(6, self.frame_w);
        half(8, self.image_y);
        half(10, self.image_h);
        half(12, self.frame_y as u16);
        half(14, self.frame_h);
        half(16, (self.pointer >> 16) as u16);
        half(18, self.pointer as u16);
        half(20, self.load);
        half(22, u16::from_be_bytes([self.fmt, self.siz]));
        half(24, self.pal);
        half(26, self.flip);
        for (n, value) in self.tail.iter().enumerate() {
            half(28 + 2 * n, *value);
        }
        bytes
    }
}

/// The bank to start from: all zero for no seed, else every field from the seed's numbers.
pub fn initial_bank(seed: Option<u64>) -> Bank {
    let mut bank = Bank::default();
    if let Some(seed) = seed {
        let mut random = Random(seed);
        for t in &mut bank {
            for field in [
                &mut t.uls,
                &mut t.ult,
                &mut t.lrs,
                &mut t.lrt,
                &mut t.width,
                &mut t.height,
            ] {
                *field = random.next() as u16;
            }
            for field in [
                &mut t.fmt,
                &mut t.siz,
                &mut t.palette,
                &mut t.cms,
                &mut t.cmt,
                &mut t.masks,
                &mut t.maskt,
                &mut t.shifts,
                &mut t.shiftt,
            ] {
                *field = random.next() as u8;
            }
            t.line = random.next() as u16;
            t.tmem_addr = random.next() as u16;
        }
    }
    bank
}

/// A tile's seventeen fields, in the order of `TileDescriptor`.
pub fn tile_fields(t: &TileDescriptor) -> [u64; 17] {
    [
        t.uls.into(),
        t.ult.into(),
        t.lrs.into(),
        t.lrt.into(),
        t.width.into(),
        t.height.into(),
        t.fmt.into(),
        t.siz.into(),
        t.palette.into(),
        t.cms.into(),
        t.cmt.into(),
        t.masks.into(),
        t.maskt.into(),
        t.shifts.into(),
        t.shiftt.into(),
        t.line.into(),
        t.tmem_addr.into(),
    ]
}
