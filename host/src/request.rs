//! What a plan is made from.

use crate::ffi::{REQUEST_WORDS, SCISSOR_WORDS};
use crate::length::WrongLength;

/// The opcode of a scaled background (`gSPBgRect1Cyc`).
pub const BG_1CYC: u8 = 9;
/// The opcode of a background that is copied (`gSPBgRectCopy`).
pub const BG_COPY: u8 = 10;

/// The two kinds of backgrounds.
#[derive(Clone, Copy, Debug, PartialEq, Eq, Hash)]
pub enum Mode {
    /// Copied as it is, four pixels a cycle.
    Copy,
    /// Scaled, one pixel a cycle.
    Scaled,
}

impl Mode {
    /// The mode of an opcode, if it is one of a background.
    #[must_use]
    pub const fn of(opcode: u8) -> Option<Mode> {
        match opcode {
            BG_COPY => Some(Mode::Copy),
            BG_1CYC => Some(Mode::Scaled),
            _ => None,
        }
    }

    /// The bytes that the mode's object has.
    #[must_use]
    pub const fn object_bytes(self) -> usize {
        match self {
            Mode::Copy => 40,
            Mode::Scaled => 36,
        }
    }
}

/// The scissor in whole pixels: `lrx` and `lry` are the first that lie outside. Edges outside 0 to
/// 1,023 are answered by [`Verdict::Scissor`](crate::Verdict::Scissor).
#[derive(Clone, Copy, Debug, PartialEq, Eq, Hash)]
pub struct Scissor {
    /// The left edge.
    pub ulx: i32,
    /// The upper edge.
    pub uly: i32,
    /// The right edge.
    pub lrx: i32,
    /// The lower edge.
    pub lry: i32,
}

impl Scissor {
    /// A scissor from its left, upper, right and lower edge.
    #[must_use]
    pub const fn new(ulx: i32, uly: i32, lrx: i32, lry: i32) -> Scissor {
        Scissor { ulx, uly, lrx, lry }
    }

    pub(crate) fn words(self) -> [u64; SCISSOR_WORDS] {
        [self.ulx, self.uly, self.lrx, self.lry].map(|edge| i64::from(edge) as u64)
    }
}

/// A background command with everything that its plan depends on.
#[derive(Clone, Copy, Debug, PartialEq, Eq)]
pub struct Request<'a> {
    /// The object, big-endian and with a pointer of 4 bytes: at least 40 bytes of a copied, 36 of
    /// a scaled background. Bytes beyond are not read.
    pub object: &'a [u8],
    /// [`BG_1CYC`] or [`BG_COPY`]; anything else is refused.
    pub opcode: u8,
    /// The scissor, as it is when the command runs.
    pub scissor: Scissor,
    /// The object render mode; only bit 3, the bilinear filter's, counts, and only when scaled.
    pub render_mode: u32,
    /// Where the image is: the object's pointer, resolved by the caller.
    pub address: u64,
}

impl<'a> Request<'a> {
    /// A background that is copied as it is.
    #[must_use]
    pub const fn copy(object: &'a [u8], scissor: Scissor, address: u64) -> Self {
        Request {
            object,
            opcode: BG_COPY,
            scissor,
            render_mode: 0,
            address,
        }
    }

    /// A background that is scaled.
    #[must_use]
    pub const fn scaled(
        object: &'a [u8],
        scissor: Scissor,
        render_mode: u32,
        address: u64,
    ) -> Self {
        Request {
            object,
            opcode: BG_1CYC,
            scissor,
            render_mode,
            address,
        }
    }

    /// The mode of the request's entries. Another opcode is refused, so that there is no entry to
    /// tell the mode of.
    pub(crate) fn mode(&self) -> Mode {
        Mode::of(self.opcode).unwrap_or(Mode::Copy)
    }

    pub(crate) fn words(&self) -> [u64; REQUEST_WORDS] {
        let [ulx, uly, lrx, lry] = self.scissor.words();
        [
            self.opcode.into(),
            ulx,
            uly,
            lrx,
            lry,
            self.render_mode.into(),
            self.address,
        ]
    }
}

/// A request as 61 bytes, big-endian: 40 of object, the scissor in 2 bytes an edge, the render mode
/// in 4, the opcode in 1, the address in 8. The program `bgplan` reads such a record, and the
/// project's tests are made of them.
#[derive(Clone, Copy, Debug, PartialEq, Eq, Hash)]
pub struct Record([u8; Record::BYTES]);

impl Record {
    /// The bytes of a record.
    pub const BYTES: usize = 61;
    const OBJECT: usize = 40;

    /// The record's own bytes.
    #[must_use]
    pub const fn as_bytes(&self) -> &[u8; Record::BYTES] {
        &self.0
    }

    /// The request that the record stores, with all 40 bytes of its object.
    #[must_use]
    pub fn request(&self) -> Request<'_> {
        let (object, asked) = self.0.split_at(Record::OBJECT);
        let number = |at: usize, count: usize| {
            let bytes = &asked[at..at + count];
            bytes
                .iter()
                .fold(0, |sum, byte| sum << 8 | u64::from(*byte))
        };
        let edge = |at: usize| number(at, 2) as i32;
        Request {
            object,
            scissor: Scissor::new(edge(0), edge(2), edge(4), edge(6)),
            render_mode: number(8, 4) as u32,
            opcode: asked[12],
            address: number(13, 8),
        }
    }
}

impl From<[u8; Record::BYTES]> for Record {
    fn from(bytes: [u8; Record::BYTES]) -> Record {
        Record(bytes)
    }
}

impl TryFrom<&[u8]> for Record {
    type Error = WrongLength;

    fn try_from(bytes: &[u8]) -> Result<Record, WrongLength> {
        let (wanted, found) = (Record::BYTES, bytes.len());
        let bytes = bytes.try_into();
        bytes.map(Record).map_err(|_| WrongLength { wanted, found })
    }
}
