//! The fields of a background object.

use crate::length::WrongLength;
use crate::measure::{Quarters, Scale, ThirtySeconds};
use crate::request::Mode;

/// The fields of a background object, out of its bytes (`uObjBg` or `uObjScaleBg`, big-endian, with
/// a pointer of 4 bytes), each in its unit.
///
/// Planning needs none of this: a [`Request`](crate::Request) takes the bytes. A host wants the
/// pointer, to resolve it to the image's address, and may want to show the rest.
///
/// ```
/// use visorlongan::{Mode, Object, Quarters};
///
/// let mut bytes = [0; 40];
/// bytes[3] = 64;
/// bytes[16..20].copy_from_slice(&0x8020_0000u32.to_be_bytes());
/// let object = Object::decode(&bytes, Mode::Copy)?;
/// assert_eq!(object.image_w, Quarters(64));
/// assert_eq!(object.image_ptr, 0x8020_0000);
/// # Ok::<(), visorlongan::WrongLength>(())
/// ```
#[derive(Clone, Copy, Debug, PartialEq, Eq, Hash)]
pub struct Object {
    /// The left end of what is shown of the image.
    pub image_x: ThirtySeconds,
    /// The image's width.
    pub image_w: Quarters,
    /// The frame's left edge on the screen, which may be negative.
    pub frame_x: Quarters,
    /// The frame's width.
    pub frame_w: Quarters,
    /// The top of what is shown of the image.
    pub image_y: ThirtySeconds,
    /// The image's height.
    pub image_h: Quarters,
    /// The frame's upper edge on the screen, which may be negative.
    pub frame_y: Quarters,
    /// The frame's height.
    pub frame_h: Quarters,
    /// The image's pointer, a segment address: the host resolves it.
    pub image_ptr: u32,
    /// How the image is loaded: 0xfff4 by tile, 0x0033 by block.
    pub image_load: u16,
    /// The format: 0 RGBA, 1 YUV, 2 CI, 3 IA, 4 I.
    pub image_fmt: u8,
    /// The size of a texel: 0 to 3 for 4, 8, 16 and 32 bits.
    pub image_siz: u8,
    /// The palette's number.
    pub image_pal: u16,
    /// Bit 0: flipped left and right.
    pub image_flip: u16,
    /// The fields that only one of the two kinds has.
    pub kind: Kind,
}

/// The fields that only one of the two kinds of objects has.
#[derive(Clone, Copy, Debug, PartialEq, Eq, Hash)]
pub enum Kind {
    /// `uObjBg`: how the image fits texture memory.
    Copy {
        /// Words of a row; nothing reads it.
        tmem_w: u16,
        /// Four times the rows that fit texture memory at once.
        tmem_h: Quarters,
        /// The low half of `tmem_h` × `tmem_size_w`.
        tmem_load_sh: u16,
        /// Nothing reads it.
        tmem_load_th: u16,
        /// The words of an image row, or those times 2; plans use it in that product alone.
        tmem_size_w: u16,
        /// The high half of `tmem_h` × `tmem_size_w`.
        tmem_size: u16,
    },
    /// `uObjScaleBg`: how the image is scaled.
    Scaled {
        /// Texels from pixel to pixel; a stored 0 is 1.
        scale_w: Scale,
        /// Texels from line to line; a stored 0 is 1.
        scale_h: Scale,
        /// Where strips are counted from.
        image_y_orig: ThirtySeconds,
    },
}

impl Object {
    /// The fields of the object's first 40 bytes, or 36 of a scaled one; those beyond are not read.
    ///
    /// # Errors
    ///
    /// Where there are fewer bytes.
    pub fn decode(bytes: &[u8], mode: Mode) -> Result<Object, WrongLength> {
        let (wanted, found) = (mode.object_bytes(), bytes.len());
        if found < wanted {
            return Err(WrongLength { wanted, found });
        }
        let half = |at: usize| u16::from_be_bytes([bytes[at], bytes[at + 1]]);
        let whole = |at: usize| u32::from(half(at)) << 16 | u32::from(half(at + 2));
        let length = |at: usize| Quarters(i32::from(half(at)));
        let edge = |at: usize| Quarters(i32::from(half(at) as i16));
        let place = |at: usize| ThirtySeconds(i32::from(half(at)));
        let kind = match mode {
            Mode::Copy => Kind::Copy {
                tmem_w: half(28),
                tmem_h: length(30),
                tmem_load_sh: half(32),
                tmem_load_th: half(34),
                tmem_size_w: half(36),
                tmem_size: half(38),
            },
            Mode::Scaled => Kind::Scaled {
                scale_w: Scale(half(28).max(1)),
                scale_h: Scale(half(30).max(1)),
                image_y_orig: ThirtySeconds(whole(32) as i32),
            },
        };
        Ok(Object {
            image_x: place(0),
            image_w: length(2),
            frame_x: edge(4),
            frame_w: length(6),
            image_y: place(8),
            image_h: length(10),
            frame_y: edge(12),
            frame_h: length(14),
            image_ptr: whole(16),
            image_load: half(20),
            image_fmt: bytes[22],
            image_siz: bytes[23],
            image_pal: half(24),
            image_flip: half(26),
            kind,
        })
    }
}
