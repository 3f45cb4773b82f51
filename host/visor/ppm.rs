//! Bitmaps from the plain formats PPM and PGM: P2, P3, P5 and P6.

use crate::paint::{Bitmap, Rgb};
use crate::png::check_size;

/// The pixels of a PPM or PGM file. What follows them is left out.
pub fn decode(bytes: &[u8]) -> Result<Bitmap, String> {
    let (samples, written) = match bytes {
        [b'P', b'2', ..] => (1, true),
        [b'P', b'3', ..] => (3, true),
        [b'P', b'5', ..] => (1, false),
        [b'P', b'6', ..] => (3, false),
        _ => return Err("This is not a PPM or PGM file.".into()),
    };
    let mut reader = Reader {
        rest: &bytes[2..],
        most: 0,
    };
    let (width, height) = (reader.number()?, reader.number()?);
    reader.most = reader.number()?;
    if !(1..=65_535).contains(&reader.most) {
        return Err("The largest sample must be from 1 to 65535.".into());
    }
    check_size(width, height)?;
    if !written {
        // One white space ends the header; whatever follows is a sample.
        reader.rest = reader.rest.get(1..).ok_or(SHORT)?;
    }
    if reader.rest.len() < width * height * samples {
        return Err(SHORT.into());
    }
    let mut bitmap = Bitmap::new(width, height);
    for pixel in &mut bitmap.pixels {
        let mut parts = [0; 3];
        for part in &mut parts[..samples] {
            *part = reader.part(written)?;
        }
        let [red, green, blue] = if samples == 1 { [parts[0]; 3] } else { parts };
        *pixel = Some(Rgb(red, green, blue));
    }
    Ok(bitmap)
}

const SHORT: &str = "The picture ends too early.";

struct Reader<'a> {
    rest: &'a [u8],
    /// The largest sample.
    most: usize,
}

impl Reader<'_> {
    /// The number behind white space and comments.
    fn number(&mut self) -> Result<usize, String> {
        loop {
            match self.rest {
                [b'#', ..] => {
                    let end = self.rest.iter().position(|&byte| byte == b'\n');
                    self.rest = &self.rest[end.unwrap_or(self.rest.len())..];
                }
                [byte, rest @ ..] if byte.is_ascii_whitespace() => self.rest = rest,
                [] => return Err(SHORT.into()),
                _ => break,
            }
        }
        let digits = self.rest.iter().take_while(|byte| byte.is_ascii_digit());
        let count = digits.count();
        let (digits, rest) = self.rest.split_at(count);
        if !(1..=9).contains(&count) {
            return Err("The picture has something else where a number should be.".into());
        }
        self.rest = rest;
        Ok(digits
            .iter()
            .fold(0, |value, digit| value * 10 + usize::from(digit - b'0')))
    }

    /// A colour part from 0 to 255, from a number in digits or in bytes.
    fn part(&mut self, written: bool) -> Result<u8, String> {
        let sample = if written {
            self.number()?
        } else {
            let size = if self.most < 256 { 1 } else { 2 };
            let (bytes, rest) = self.rest.split_at_checked(size).ok_or(SHORT)?;
            self.rest = rest;
            bytes
                .iter()
                .fold(0, |value, &byte| value << 8 | usize::from(byte))
        };
        if sample > self.most {
            return Err("The picture has a sample above its largest.".into());
        }
        Ok(((sample * 255 + self.most / 2) / self.most) as u8)
    }
}

#[cfg(test)]
mod tests {
    use super::*;

    #[test]
    fn all_four_formats() {
        let two = [Some(Rgb(255, 0, 128)), Some(Rgb(1, 2, 3))];
        let coloured = [
            &b"P3 # a comment\n2 1\n255\n255 0 128 1 2 3\n"[..],
            b"P6\n2 1 255\n\xff\x00\x80\x01\x02\x03",
            b"P6\n# one\n#two\n2 1 65535\n\xff\xff\0\0\x80\x80\x01\x01\x02\x02\x03\x03",
        ];
        for bytes in coloured {
            assert_eq!(decode(bytes).unwrap().pixels, two);
        }
        let greys = [Some(Rgb(0, 0, 0)), Some(Rgb(85, 85, 85))];
        for bytes in [&b"P2\n1 2\n3\n0 1"[..], b"P5 1 2 3\n\x00\x01trailing"] {
            assert_eq!(decode(bytes).unwrap().pixels, greys);
        }
    }

    #[test]
    fn wrong_files_are_errors() {
        let wrong = [
            &b""[..],
            b"P4 1 1\n\0",
            b"P6",
            b"P6 1",
            b"P6 1 1 0\n\0\0\0",
            b"P6 1 1 65536\n\0\0\0\0\0\0",
            b"P6 0 1 255\n",
            b"P6 99999 99999 255\n\0",
            b"P6 999999999999999999999 1 255\n\0",
            b"P6 2 2 255\n\0\0\0",
            b"P5 1 1 3\n\x04",
            b"P3 1 1 255 1 2",
            b"P3 1 1 255 1 2 x",
            b"P3 1 1 255 -1 2 3",
        ];
        for bytes in wrong {
            assert!(
                decode(bytes).is_err(),
                "{:?}",
                String::from_utf8_lossy(bytes)
            );
        }
    }

    #[test]
    fn damaged_files_do_no_harm() {
        let files = [
            &b"P3 # a\n2 2\n255\n255 0 128 1 2 3 4 5 6 7 8 9"[..],
            b"P5 2 2 300\n\0\x01\0\x02\0\x03\0\x04",
        ];
        let mut seed = 1u32;
        for file in files {
            for size in 0..file.len() - 1 {
                assert!(decode(&file[..size]).is_err());
            }
            for _ in 0..5000 {
                seed = seed.wrapping_mul(1_664_525).wrapping_add(1_013_904_223);
                let mut bytes = file.to_vec();
                let place = (seed >> 8) as usize % bytes.len();
                bytes[place] = (seed >> 16) as u8;
                if let Ok(bitmap) = decode(&bytes) {
                    assert_eq!(bitmap.pixels.len(), bitmap.width * bitmap.height);
                }
            }
        }
    }
}
