//! The colours of an image's texels: from a file, or, where there is none, by the texel's place.

use crate::command::Failure;
use crate::paint::{Bitmap, Rgb};
use crate::study::{row_bytes, Study};
use crate::{png, ppm};
use visorlongan::{Mode, Object};

/// Steps of hue across and of lightness down: fine enough to see a place by, and rows that are alike
/// make small files.
const HUES: u32 = 128;
const LIGHTS: u32 = 64;

pub enum Picture {
    /// Hue is the column and lightness the row, so that wraps and flips are breaks of colour.
    Places {
        columns: u32,
        rows: u32,
    },
    Texels(Bitmap),
}

impl Picture {
    pub fn places(study: &Study) -> Picture {
        Picture::Places {
            columns: study.columns().max(1),
            rows: study.rows().max(1),
        }
    }

    pub fn colour(&self, column: u32, row: u32) -> Rgb {
        match self {
            Picture::Places { columns, rows } => place_colour(
                u64::from(column) * u64::from(HUES) / u64::from(*columns),
                u64::from(row) * u64::from(LIGHTS) / u64::from(*rows),
            ),
            Picture::Texels(bitmap) => {
                let found = bitmap.get(column as usize, row as usize);
                found.unwrap_or(Rgb(0, 0, 0))
            }
        }
    }

    /// The picture in a file: PNG, PPM, or the image's own texels.
    pub fn read(name: &str, bytes: &[u8], study: &Study) -> Result<Picture, Failure> {
        let wrong = |said: String| Failure::Input(format!("{name}: {said}"));
        let (Some(mode), Some(object)) = (study.mode, study.object) else {
            return Err(wrong("there is no image to show it for".to_string()));
        };
        let bitmap = if bytes.starts_with(b"\x89PNG") {
            png::decode(bytes).map_err(wrong)?
        } else if matches!(bytes.first_chunk(), Some(b"P2" | b"P3" | b"P5" | b"P6")) {
            ppm::decode(bytes).map_err(wrong)?
        } else {
            texels(bytes, mode, &object).map_err(wrong)?
        };
        let wanted = (study.columns() as usize, study.rows() as usize);
        if (bitmap.width, bitmap.height) != wanted {
            return Err(wrong(format!(
                "the picture has {} by {} texels, and the object's image {} by {}",
                bitmap.width, bitmap.height, wanted.0, wanted.1
            )));
        }
        Ok(Picture::Texels(bitmap))
    }
}

/// Hue from red to violet, lightness from dark to light.
fn place_colour(hue: u64, light: u64) -> Rgb {
    let hue = hue as f64 / f64::from(HUES) * 0.83 * 6.0;
    let light = 0.34 + 0.46 * light as f64 / f64::from(LIGHTS);
    let chroma = (1.0 - (2.0 * light - 1.0).abs()) * 0.62;
    let second = chroma * (1.0 - (hue % 2.0 - 1.0).abs());
    let (r, g, b) = match hue as u32 {
        0 => (chroma, second, 0.0),
        1 => (second, chroma, 0.0),
        2 => (0.0, chroma, second),
        3 => (0.0, second, chroma),
        _ => (second, 0.0, chroma),
    };
    let byte = |part: f64| ((part + light - chroma / 2.0) * 255.0) as u8;
    Rgb(byte(r), byte(g), byte(b))
}

/// The texels of a file as they lie in memory, row after row.
fn texels(bytes: &[u8], mode: Mode, object: &Object) -> Result<Bitmap, String> {
    let (columns, rows) = (
        object.image_w.whole() as usize,
        object.image_h.whole() as usize,
    );
    let stride = row_bytes(mode, object) as usize;
    let needed = stride * rows;
    if bytes.len() < needed {
        return Err(format!(
            "{columns} by {rows} texels of {} bits need {needed} bytes, and there are {}; a PNG or PPM would do too",
            4 << object.image_siz.min(3),
            bytes.len()
        ));
    }
    if columns * rows > 64_000_000 {
        return Err(format!("{columns} by {rows} texels are too many to show"));
    }
    let mut bitmap = Bitmap::new(columns, rows);
    for (y, row) in (0..rows).zip(bytes.chunks(stride.max(1))) {
        for x in 0..columns {
            bitmap.set(x, y, texel(row, x, object));
        }
    }
    Ok(bitmap)
}

/// One texel of a row; bytes that a row does not have are 0.
fn texel(row: &[u8], x: usize, object: &Object) -> Rgb {
    let byte = |at: usize| row.get(at).copied().unwrap_or(0);
    let nibble = |at: usize| byte(at / 2) >> (4 - at % 2 * 4) & 15;
    let half = |at: usize| u16::from_be_bytes([byte(2 * at), byte(2 * at + 1)]);
    match (object.image_fmt, object.image_siz) {
        (0, 3) => Rgb(byte(4 * x), byte(4 * x + 1), byte(4 * x + 2)),
        (0, 2) => rgba16(half(x)),
        (1, 2) => yuv(byte(2 * x + 1), byte(x / 2 * 4), byte(x / 2 * 4 + 2)),
        // The palette is not in the object: each number has a colour of its own.
        (2, 0) => place_colour(u64::from(nibble(x)) * 8, 32),
        (2, _) => place_colour(u64::from(byte(x)) / 2, 16 + u64::from(byte(x)) % 2 * 32),
        (3, 0) => grey(nibble(x) >> 1 << 5),
        (3, 1) => grey(byte(x) & 0xf0),
        (3, 2) => grey(byte(2 * x)),
        (_, 0) => grey(nibble(x) * 17),
        (_, 1) => grey(byte(x)),
        (_, 2) => grey(byte(2 * x)),
        _ => grey(byte(4 * x)),
    }
}

fn grey(light: u8) -> Rgb {
    Rgb(light, light, light)
}

/// Five bits a colour, and one of alpha.
fn rgba16(texel: u16) -> Rgb {
    let part = |shift: u16| (texel >> shift & 31) as u8;
    let wide = |five: u8| five << 3 | five >> 2;
    Rgb(wide(part(11)), wide(part(6)), wide(part(1)))
}

fn yuv(y: u8, u: u8, v: u8) -> Rgb {
    let (y, u, v) = (f64::from(y), f64::from(u) - 128.0, f64::from(v) - 128.0);
    let part = |light: f64| light.clamp(0.0, 255.0) as u8;
    Rgb(
        part(y + 1.402 * v),
        part(y - 0.344 * u - 0.714 * v),
        part(y + 1.772 * u),
    )
}
