//! A copy object made from a picture.

use crate::ffi;
use core::fmt;

/// The 40 bytes of a copy object that shows a whole picture, of so many texels across and down.
///
/// `format` is 0 RGBA, 1 YUV, 2 CI, 3 IA, 4 I; `size` is 0 to 3 for texels of 4, 8, 16 and 32 bits.
/// The frame is as large as the picture and lies at 0, and the fields of texture memory are those
/// of the picture's own rows, as many at once as fit. The pointer is stored as it is given. From row to
/// row a plan goes on by whole bytes: a picture of 4-bit texels whose rows begin at whole bytes wants an
/// even width.
///
/// A host may set other frames and starts afterwards, and a flip of 0 or 1: no such plan ends with
/// [`Verdict::TooBig`](crate::Verdict::TooBig).
///
/// ```
/// use visorlongan::{copy_object, count, Kind, Mode, Object, Quarters, Request, Scissor};
///
/// // A title of 320 by 240 texels of 16 bits.
/// let mut bytes = copy_object(320, 240, 0, 2, 0x0600_0000)?;
/// let object = Object::decode(&bytes, Mode::Copy)?;
/// assert_eq!((object.frame_w, object.image_w), (Quarters(1_280), Quarters(1_280)));
/// assert!(matches!(object.kind, Kind::Copy { tmem_h: Quarters(24), .. }));
///
/// // Six rows at once: 40 strips.
/// let screen = Scissor::new(0, 0, 320, 240);
/// let end = count(&Request::copy(&bytes, screen, 0x8020_0000));
/// assert_eq!((end.result(), end.rectangles), (Ok(()), 40));
///
/// // 100 pixels further to the right, and flipped.
/// bytes[4..6].copy_from_slice(&400u16.to_be_bytes());
/// bytes[27] = 1;
/// count(&Request::copy(&bytes, screen, 0x8020_0000)).result()?;
/// # Ok::<(), Box<dyn std::error::Error>>(())
/// ```
///
/// # Errors
///
/// Where the format is above 4 or the size above 3; otherwise where the width or the height is 0 or
/// above 16,383, or texture memory does not hold a row. The widest pictures of the sizes 0 to 3 have
/// 8,192, 4,096, 2,048 and 1,024 texels; those of the format CI have 4,096, 2,048, 1,024 and 1,024.
pub fn copy_object(
    width: u64,
    height: u64,
    format: u64,
    size: u64,
    pointer: u32,
) -> Result<[u8; 40], NoObject> {
    ffi::write_copy(width, height, format, size, pointer).map_err(NoObject::of)
}

/// Why there is no object of a picture. A later version may add reasons.
#[derive(Clone, Copy, Debug, PartialEq, Eq, PartialOrd, Ord, Hash)]
#[non_exhaustive]
pub enum NoObject {
    /// The texels' size is above 3, or their format above 4.
    Texels = 4,
    /// The picture's width or height is out of range, or a row does not fit texture memory.
    Picture = 11,
}

impl NoObject {
    /// The reason of a number that the library answers.
    fn of(number: u64) -> NoObject {
        match number {
            4 => NoObject::Texels,
            11 => NoObject::Picture,
            _ => unreachable!("the library refused a length that it defines"),
        }
    }

    /// The number that the library answers.
    #[must_use]
    pub const fn number(self) -> u64 {
        self as u64
    }

    /// What it says, as a sentence.
    #[must_use]
    pub const fn sentence(self) -> &'static str {
        match self {
            NoObject::Texels => "The object would have a size above 3 or a format above 4.",
            NoObject::Picture => {
                "The picture has a width or height of 0 or above 16,383 texels, or a row that \
                 texture memory does not hold."
            }
        }
    }
}

impl fmt::Display for NoObject {
    fn fmt(&self, f: &mut fmt::Formatter) -> fmt::Result {
        f.write_str(self.sentence())
    }
}

impl core::error::Error for NoObject {}

#[cfg(test)]
mod tests {
    use super::*;
    use crate::library;
    use crate::measure::{Quarters, ThirtySeconds};
    use crate::object::{Kind, Object};
    use crate::request::Mode;
    use std::string::ToString;
    use std::vec;

    /// What the library answers, where it changes nothing of a buffer of so many bytes.
    fn refused(bytes: usize, [width, height, format, size]: [u64; 4]) -> u64 {
        let mut out = vec![77; bytes];
        let answer = library::write_copy(width, height, format, size, u32::MAX, &mut out);
        assert!(answer != 0 && out.iter().all(|byte| *byte == 77));
        answer
    }

    #[test]
    fn refusals_come_in_their_order() {
        for bytes in [0, 39] {
            assert_eq!(refused(bytes, [320, 240, 0, 2]), 2);
            assert_eq!(refused(bytes, [320, 240, 0, 4]), 2);
            assert_eq!(refused(bytes, [0, 16_384, 5, u64::MAX]), 2);
        }
        for bytes in [40, 41, 100] {
            for texels in [[0, 4], [5, 0], [5, 4], [2, u64::MAX], [u64::MAX, 2]] {
                assert_eq!(refused(bytes, [0, 240, texels[0], texels[1]]), 4);
                assert_eq!(refused(bytes, [320, 240, texels[0], texels[1]]), 4);
            }
            for width in [0, 8_193, 16_383, 16_384, 1 << 63, u64::MAX] {
                assert_eq!(refused(bytes, [width, 1, 0, 0]), 11);
            }
            for height in [0, 16_384, 1 << 32, u64::MAX] {
                assert_eq!(refused(bytes, [1, height, 4, 0]), 11);
            }
        }
        assert_eq!(copy_object(1, 16_383, 0, 3, 0).map(|_| ()), Ok(()));
    }

    #[test]
    fn the_widest_pictures() {
        for (format, widest) in [
            (0, [8_192, 4_096, 2_048, 1_024]),
            (1, [8_192, 4_096, 2_048, 1_024]),
            (2, [4_096, 2_048, 1_024, 1_024]),
            (3, [8_192, 4_096, 2_048, 1_024]),
            (4, [8_192, 4_096, 2_048, 1_024]),
        ] {
            for (size, width) in (0..).zip(widest) {
                assert!(copy_object(width, 16_383, format, size, 0).is_ok());
                let wider = copy_object(width + 1, 1, format, size, 0);
                assert_eq!(wider, Err(NoObject::Picture), "{format} {size}");
            }
        }
    }

    #[test]
    fn bytes_behind_the_object_stay() {
        let object = copy_object(320, 240, 3, 1, 0x8020_0000).unwrap();
        for bytes in [40, 41, 100] {
            let mut out = vec![77; bytes];
            assert_eq!(
                library::write_copy(320, 240, 3, 1, 0x8020_0000, &mut out),
                0
            );
            assert_eq!(out[..40], object);
            assert!(out[40..].iter().all(|byte| *byte == 77));
        }
    }

    /// All fields of a picture of 301 by 240 texels: 32 bits, and CI of 4 bits.
    #[test]
    fn fields_of_an_object() {
        for (format, size, line, rows) in [(0, 3, 76, 3), (2, 0, 19, 13), (4, 1, 38, 13)] {
            let bytes = copy_object(301, 240, format, size, 0x8765_4321).unwrap();
            let object = Object {
                image_x: ThirtySeconds(0),
                image_w: Quarters(1_204),
                frame_x: Quarters(0),
                frame_w: Quarters(1_204),
                image_y: ThirtySeconds(0),
                image_h: Quarters(960),
                frame_y: Quarters(0),
                frame_h: Quarters(960),
                image_ptr: 0x8765_4321,
                image_load: 0xfff4,
                image_fmt: format as u8,
                image_siz: size as u8,
                image_pal: 0,
                image_flip: 0,
                kind: Kind::Copy {
                    tmem_w: 0,
                    tmem_h: Quarters(4 * rows),
                    tmem_load_sh: 4 * rows as u16 * line,
                    tmem_load_th: 0,
                    tmem_size_w: line,
                    tmem_size: 0,
                },
            };
            assert_eq!(Object::decode(&bytes, Mode::Copy), Ok(object));
        }
    }

    #[test]
    fn reasons_have_numbers_and_sentences() {
        for reason in [NoObject::Texels, NoObject::Picture] {
            assert_eq!(NoObject::of(reason.number()), reason);
            assert!(reason.to_string().ends_with('.'));
        }
    }
}
