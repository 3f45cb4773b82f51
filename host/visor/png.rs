//! Bitmaps to PNG files and back (ISO/IEC 15948).

use crate::paint::{Bitmap, Rgb};
use crate::{deflate, inflate};

const SIGNATURE: [u8; 8] = *b"\x89PNG\r\n\x1a\n";
/// The most pixels a side, and in all, of a picture that is read.
const SIDE: usize = 16_384;
const AREA: usize = 64_000_000;

/// A PNG file of these pixels, in the smallest of the forms that fit. PNG knows no empty picture:
/// an empty bitmap is written as one unpainted pixel.
pub fn encode(bitmap: &Bitmap) -> Vec<u8> {
    if bitmap.width == 0 || bitmap.height == 0 {
        return encode(&Bitmap::new(1, 1));
    }
    let forms = [Form::palette(bitmap), Some(Form::direct(bitmap))];
    let bodies = forms.iter().flatten().flat_map(Form::bodies);
    let body = bodies.min_by_key(Vec::len).unwrap_or_default();
    let mut file = SIGNATURE.to_vec();
    file.extend(body);
    file
}

/// Pixels laid out as PNG stores them, before filtering.
struct Form {
    /// The chunks before the pixels.
    head: Vec<u8>,
    /// How many bytes a row takes.
    row: usize,
    /// How many bytes back the same part of the pixel before lies.
    step: usize,
    bytes: Vec<u8>,
}

impl Form {
    /// Every pixel by its three colour parts; with an alpha value if any is unpainted.
    fn direct(bitmap: &Bitmap) -> Form {
        let opaque = bitmap.pixels.iter().all(Option::is_some);
        let (kind, step) = if opaque { (2, 3) } else { (6, 4) };
        let mut bytes = Vec::with_capacity(bitmap.pixels.len() * step);
        for pixel in &bitmap.pixels {
            let Rgb(red, green, blue) = pixel.unwrap_or(Rgb(0, 0, 0));
            let alpha = if pixel.is_some() { 255 } else { 0 };
            bytes.extend(&[red, green, blue, alpha][..step]);
        }
        Form {
            head: header(bitmap, 8, kind),
            row: bitmap.width * step,
            step,
            bytes,
        }
    }

    /// Every pixel as a number in a palette, if that holds all colours.
    fn palette(bitmap: &Bitmap) -> Option<Form> {
        let colours = colours(bitmap)?;
        let depth = match colours.len() {
            0..=2 => 1,
            3..=4 => 2,
            5..=16 => 4,
            _ => 8,
        };
        let row = (bitmap.width * depth).div_ceil(8);
        let mut bytes = vec![0; row * bitmap.height];
        let mut index = 0;
        for (y, line) in bitmap.pixels.chunks(bitmap.width).enumerate() {
            for (x, &pixel) in line.iter().enumerate() {
                if colours[index] != key(pixel) {
                    index = colours.partition_point(|&colour| colour < key(pixel));
                }
                let bit = x * depth;
                bytes[y * row + bit / 8] |= (index as u8) << (8 - depth - bit % 8);
            }
        }
        let mut head = header(bitmap, depth as u8, 3);
        let parts = colours
            .iter()
            .flat_map(|colour| colour.to_be_bytes()[1..].to_vec());
        put_chunk(&mut head, b"PLTE", &parts.collect::<Vec<u8>>());
        if colours[0] == key(None) {
            put_chunk(&mut head, b"tRNS", &[0]);
        }
        Some(Form {
            head,
            row,
            step: 1,
            bytes,
        })
    }

    /// The file behind its signature, with each of two ways to choose filters.
    fn bodies(&self) -> [Vec<u8>; 2] {
        [plain(self), filtered(self)].map(|rows| {
            let mut body = self.head.clone();
            put_chunk(&mut body, b"IDAT", &deflate::zlib(&rows));
            put_chunk(&mut body, b"IEND", &[]);
            body
        })
    }
}

/// A number for a pixel's colour, the least for an unpainted one.
fn key(pixel: Option<Rgb>) -> u32 {
    pixel.map_or(0, |Rgb(red, green, blue)| {
        u32::from_be_bytes([1, red, green, blue])
    })
}

/// The colours in order of their numbers, if they are at most 256.
fn colours(bitmap: &Bitmap) -> Option<Vec<u32>> {
    let mut colours: Vec<u32> = Vec::new();
    let mut last = None;
    for &pixel in &bitmap.pixels {
        if last == Some(pixel) {
            continue;
        }
        last = Some(pixel);
        if let Err(place) = colours.binary_search(&key(pixel)) {
            colours.insert(place, key(pixel));
        }
        if colours.len() > 256 {
            return None;
        }
    }
    Some(colours)
}

fn header(bitmap: &Bitmap, depth: u8, kind: u8) -> Vec<u8> {
    let mut data = Vec::new();
    data.extend((bitmap.width as u32).to_be_bytes());
    data.extend((bitmap.height as u32).to_be_bytes());
    data.extend([depth, kind, 0, 0, 0]);
    let mut head = Vec::new();
    put_chunk(&mut head, b"IHDR", &data);
    head
}

fn put_chunk(file: &mut Vec<u8>, name: &[u8; 4], data: &[u8]) {
    file.extend((data.len() as u32).to_be_bytes());
    let from = file.len();
    file.extend(name);
    file.extend(data);
    file.extend(crc32(&file[from..]).to_be_bytes());
}

/// Every row as it is.
fn plain(form: &Form) -> Vec<u8> {
    let rows = form.bytes.chunks(form.row);
    rows.flat_map(|row| [&[0], row].concat()).collect()
}

/// Every row with the filter that leaves the least sum of differences.
fn filtered(form: &Form) -> Vec<u8> {
    let mut rows = Vec::with_capacity(form.bytes.len() + form.bytes.len() / form.row);
    let mut above = vec![0; form.row];
    let mut tries = [(); 5].map(|()| vec![0; form.row]);
    for row in form.bytes.chunks(form.row) {
        for (filter, tried) in tries.iter_mut().enumerate() {
            filter_row(filter, row, &above, form.step, tried);
        }
        let sum = |row: &[u8]| -> u32 {
            row.iter()
                .map(|&b| u32::from((b as i8).unsigned_abs()))
                .sum()
        };
        let best = (0..5)
            .min_by_key(|&filter| sum(&tries[filter]))
            .unwrap_or(0);
        rows.push(best as u8);
        rows.extend(&tries[best]);
        above.copy_from_slice(row);
    }
    rows
}

/// Writes the differences of a row to what its filter foretells.
fn filter_row(filter: usize, row: &[u8], above: &[u8], step: usize, out: &mut [u8]) {
    let step = step.min(row.len());
    for i in 0..step {
        out[i] = row[i].wrapping_sub(foretold(filter, 0, above[i], 0));
    }
    let (left, corner) = (&row[..row.len() - step], &above[..row.len() - step]);
    let (row, above, out) = (&row[step..], &above[step..], &mut out[step..]);
    match filter {
        0 => out.copy_from_slice(row),
        1 => each(row, left, out, |byte, left| byte.wrapping_sub(left)),
        2 => each(row, above, out, |byte, above| byte.wrapping_sub(above)),
        _ => {
            for i in 0..row.len() {
                out[i] = row[i].wrapping_sub(foretold(filter, left[i], above[i], corner[i]));
            }
        }
    }
}

fn each(row: &[u8], other: &[u8], out: &mut [u8], make: impl Fn(u8, u8) -> u8) {
    for ((out, &byte), &other) in out.iter_mut().zip(row).zip(other) {
        *out = make(byte, other);
    }
}

/// What a filter foretells of a byte, by the same part of the pixels left, above and above left.
fn foretold(filter: usize, left: u8, above: u8, corner: u8) -> u8 {
    match filter {
        0 => 0,
        1 => left,
        2 => above,
        3 => ((u16::from(left) + u16::from(above)) / 2) as u8,
        _ => {
            let [a, b, c] = [left, above, corner].map(i16::from);
            let (to_left, to_above, to_corner) =
                ((b - c).abs(), (a - c).abs(), (a + b - 2 * c).abs());
            if to_left <= to_above && to_left <= to_corner {
                left
            } else if to_above <= to_corner {
                above
            } else {
                corner
            }
        }
    }
}

const CRC_TABLE: [u32; 256] = {
    let mut table = [0; 256];
    let mut index = 0;
    while index < 256 {
        let mut value = index as u32;
        let mut bit = 0;
        while bit < 8 {
            value = (value >> 1) ^ (0xedb8_8320 * (value & 1));
            bit += 1;
        }
        table[index] = value;
        index += 1;
    }
    table
};

fn crc32(data: &[u8]) -> u32 {
    !data.iter().fold(!0, |crc, &byte| {
        CRC_TABLE[(crc as u8 ^ byte) as usize] ^ (crc >> 8)
    })
}

/// An error if a picture of this size is not read.
pub fn check_size(width: usize, height: usize) -> Result<(), String> {
    if width == 0 || height == 0 {
        return Err("The picture is empty.".into());
    }
    if width > SIDE || height > SIDE || width * height > AREA {
        return Err(format!(
            "The picture of {width} by {height} pixels is too large: at most {SIDE} a side and \
             {AREA} in all."
        ));
    }
    Ok(())
}

/// The pixels of a PNG file. Fully transparent ones are unpainted, others lose their alpha value.
pub fn decode(bytes: &[u8]) -> Result<Bitmap, String> {
    let file = File::read(bytes)?;
    let header = &file.header;
    let passes = header.passes();
    let size = |pass: &Pass| (header.row_bytes(pass.width) + 1) * pass.height;
    let total = passes.iter().map(size).sum();
    let mut data = inflate::zlib(&file.data, total)?;
    if data.len() < total {
        return Err("The picture has too few pixels.".into());
    }
    let mut bitmap = Bitmap::new(header.width, header.height);
    let mut rest = &mut data[..];
    for pass in &passes {
        let (part, behind) = rest.split_at_mut(size(pass));
        let row = header.row_bytes(pass.width);
        unfilter(part, row, (header.bits() / 8).max(1))?;
        for (y, line) in part.chunks(row + 1).enumerate() {
            file.place(&line[1..], pass, pass.top + y * pass.down, &mut bitmap)?;
        }
        rest = behind;
    }
    Ok(bitmap)
}

struct Header {
    width: usize,
    height: usize,
    depth: usize,
    kind: u8,
    interlaced: bool,
}

/// A part of the picture: every so many pixels right and down from its first.
struct Pass {
    left: usize,
    top: usize,
    right: usize,
    down: usize,
    width: usize,
    height: usize,
}

impl Header {
    fn read(data: &[u8]) -> Result<Header, String> {
        let damaged = "The header of the PNG file is damaged.";
        let &[w0, w1, w2, w3, h0, h1, h2, h3, depth, kind, method, filters, interlace] = data
        else {
            return Err(damaged.into());
        };
        let depths: &[u8] = match kind {
            0 => &[1, 2, 4, 8, 16],
            2 | 4 | 6 => &[8, 16],
            3 => &[1, 2, 4, 8],
            _ => &[],
        };
        if !depths.contains(&depth) || method != 0 || filters != 0 || interlace > 1 {
            return Err(damaged.into());
        }
        let header = Header {
            width: u32::from_be_bytes([w0, w1, w2, w3]) as usize,
            height: u32::from_be_bytes([h0, h1, h2, h3]) as usize,
            depth: depth.into(),
            kind,
            interlaced: interlace == 1,
        };
        check_size(header.width, header.height)?;
        Ok(header)
    }

    /// Samples a pixel.
    fn samples(&self) -> usize {
        match self.kind {
            2 => 3,
            4 => 2,
            6 => 4,
            _ => 1,
        }
    }

    /// Bits a pixel.
    fn bits(&self) -> usize {
        self.samples() * self.depth
    }

    fn row_bytes(&self, width: usize) -> usize {
        (width * self.bits()).div_ceil(8)
    }

    /// The parts in which the pixels come; those without pixels are left out.
    fn passes(&self) -> Vec<Pass> {
        let steps: &[[usize; 4]] = if self.interlaced {
            &[
                [0, 0, 8, 8],
                [4, 0, 8, 8],
                [0, 4, 4, 8],
                [2, 0, 4, 4],
                [0, 2, 2, 4],
                [1, 0, 2, 2],
                [0, 1, 1, 2],
            ]
        } else {
            &[[0, 0, 1, 1]]
        };
        let passes = steps.iter().map(|&[left, top, right, down]| Pass {
            left,
            top,
            right,
            down,
            width: self.width.saturating_sub(left).div_ceil(right),
            height: self.height.saturating_sub(top).div_ceil(down),
        });
        passes
            .filter(|pass| pass.width > 0 && pass.height > 0)
            .collect()
    }
}

/// What a PNG file holds that its pixels need.
struct File {
    header: Header,
    palette: Vec<Rgb>,
    /// The transparent colour; with a palette the alpha value of each of its first colours.
    clear: Option<Vec<u8>>,
    /// The compressed rows.
    data: Vec<u8>,
}

impl File {
    fn read(bytes: &[u8]) -> Result<File, String> {
        let mut rest = bytes
            .strip_prefix(&SIGNATURE)
            .ok_or("This is not a PNG file.")?;
        let (name, data) = chunk(&mut rest)?;
        if name != *b"IHDR" {
            return Err("The PNG file does not start with its header.".into());
        }
        let mut file = File {
            header: Header::read(data)?,
            palette: Vec::new(),
            clear: None,
            data: Vec::new(),
        };
        loop {
            let (name, data) = chunk(&mut rest)?;
            match &name {
                b"PLTE" => {
                    let colours = data.chunks_exact(3);
                    file.palette = colours.map(|part| Rgb(part[0], part[1], part[2])).collect();
                }
                b"tRNS" => file.clear = Some(data.to_vec()),
                b"IDAT" => file.data.extend(data),
                b"IEND" => return Ok(file),
                // A small first letter marks what a reader may leave out.
                [b'a'..=b'z', ..] => {}
                _ => return Err("The PNG file has a part of an unknown kind.".into()),
            }
        }
    }

    /// Places a row of a pass into the bitmap.
    fn place(&self, row: &[u8], pass: &Pass, y: usize, out: &mut Bitmap) -> Result<(), String> {
        for x in 0..pass.width {
            let pixel = self.pixel(row, x)?;
            out.pixels[y * out.width + pass.left + x * pass.right] = pixel;
        }
        Ok(())
    }

    fn pixel(&self, row: &[u8], x: usize) -> Result<Option<Rgb>, String> {
        let count = self.header.samples();
        let mut samples = [0u16; 4];
        for (index, sample) in samples[..count].iter_mut().enumerate() {
            *sample = read_sample(row, x * count + index, self.header.depth);
        }
        if self.header.kind == 3 {
            return self.palette_pixel(samples[0].into());
        }
        let clear = match self.header.kind {
            4 => samples[1] == 0,
            6 => samples[3] == 0,
            _ => self.is_clear(&samples[..count]),
        };
        let most = (1u32 << self.header.depth) - 1;
        let part = |sample: u16| ((u32::from(sample) * 255 + most / 2) / most) as u8;
        let [red, green, blue, _] = samples;
        let colour = if count < 3 {
            Rgb(part(red), part(red), part(red))
        } else {
            Rgb(part(red), part(green), part(blue))
        };
        Ok((!clear).then_some(colour))
    }

    fn palette_pixel(&self, index: usize) -> Result<Option<Rgb>, String> {
        let colour = self.palette.get(index);
        let &colour = colour.ok_or("A pixel has a colour that the palette does not hold.")?;
        let alpha = self.clear.as_ref().and_then(|alphas| alphas.get(index));
        Ok((alpha != Some(&0)).then_some(colour))
    }

    /// Whether this is the one transparent colour.
    fn is_clear(&self, samples: &[u16]) -> bool {
        let Some(clear) = &self.clear else {
            return false;
        };
        let parts = clear.chunks_exact(2);
        parts.len() == samples.len()
            && parts
                .zip(samples)
                .all(|(part, &sample)| u16::from_be_bytes([part[0], part[1]]) == sample)
    }
}

/// Takes a chunk: its name and its data.
fn chunk<'a>(rest: &mut &'a [u8]) -> Result<([u8; 4], &'a [u8]), String> {
    let short = "The PNG file ends too early.";
    let (&size, behind) = rest.split_first_chunk::<4>().ok_or(short)?;
    let size = u32::from_be_bytes(size) as usize;
    let checked = behind.get(..size.saturating_add(4)).ok_or(short)?;
    let (&crc, behind) = behind[checked.len()..]
        .split_first_chunk::<4>()
        .ok_or(short)?;
    if u32::from_be_bytes(crc) != crc32(checked) {
        return Err("A checksum of the PNG file is wrong.".into());
    }
    *rest = behind;
    let (&name, data) = checked.split_first_chunk::<4>().ok_or(short)?;
    Ok((name, data))
}

/// Undoes the filters of rows, each with the number of its filter before it.
fn unfilter(rows: &mut [u8], row: usize, step: usize) -> Result<(), String> {
    let mut above = vec![0; row];
    for line in rows.chunks_mut(row + 1) {
        let filter = usize::from(line[0]);
        if filter > 4 {
            return Err("A row of the PNG file has an unknown filter.".into());
        }
        let line = &mut line[1..];
        for i in 0..row {
            let (left, corner) = match i.checked_sub(step) {
                Some(before) => (line[before], above[before]),
                None => (0, 0),
            };
            line[i] = line[i].wrapping_add(foretold(filter, left, above[i], corner));
        }
        above.copy_from_slice(line);
    }
    Ok(())
}

/// The sample with this number in a row.
fn read_sample(row: &[u8], index: usize, depth: usize) -> u16 {
    match depth {
        8 => row[index].into(),
        16 => u16::from_be_bytes([row[2 * index], row[2 * index + 1]]),
        _ => {
            let bit = index * depth;
            let shift = 8 - depth - bit % 8;
            u16::from(row[bit / 8] >> shift) & ((1 << depth) - 1)
        }
    }
}

#[cfg(test)]
mod tests {
    use super::*;

    /// Five by three pixels, two bits of grey each, interlaced; the grey 2 is transparent. Made
    /// with python3's zlib, as the next.
    const INTERLACED: [u8; 106] = [
        137, 80, 78, 71, 13, 10, 26, 10, 0, 0, 0, 13, 73, 72, 68, 82, 0, 0, 0, 5, 0, 0, 0, 3, 2, 0,
        0, 0, 1, 67, 234, 178, 19, 0, 0, 0, 2, 116, 82, 78, 83, 0, 2, 152, 157, 172, 20, 0, 0, 0,
        11, 73, 68, 65, 84, 120, 156, 99, 100, 96, 97, 96, 105, 96, 236, 96, 162, 188, 191, 245, 0,
        0, 0, 12, 73, 68, 65, 84, 42, 96, 73, 96, 206, 225, 2, 0, 14, 244, 2, 98, 146, 9, 121, 4,
        0, 0, 0, 0, 73, 69, 78, 68, 174, 66, 96, 130,
    ];

    /// Two by two pixels with four samples of 16 bits.
    const DEEP: [u8; 104] = [
        137, 80, 78, 71, 13, 10, 26, 10, 0, 0, 0, 13, 73, 72, 68, 82, 0, 0, 0, 2, 0, 0, 0, 2, 16,
        6, 0, 0, 0, 34, 38, 209, 103, 0, 0, 0, 17, 73, 68, 65, 84, 120, 156, 29, 193, 129, 13, 0,
        32, 12, 195, 176, 180, 227, 240, 73, 28, 30, 156, 93, 101, 204, 0, 0, 0, 18, 73, 68, 65,
        84, 36, 236, 163, 176, 171, 41, 221, 155, 144, 180, 51, 132, 79, 31, 171, 170, 8, 22, 231,
        243, 221, 115, 0, 0, 0, 0, 73, 69, 78, 68, 174, 66, 96, 130,
    ];

    fn noise(seed: &mut u32) -> usize {
        *seed ^= *seed << 13;
        *seed ^= *seed >> 17;
        *seed ^= *seed << 5;
        (*seed >> 8) as usize
    }

    #[test]
    fn files_of_python() {
        let bitmap = decode(&INTERLACED).unwrap();
        assert_eq!((bitmap.width, bitmap.height), (5, 3));
        for (x, y) in (0..5).flat_map(|x| (0..3).map(move |y| (x, y))) {
            let grey = (x + y) % 4;
            let part = grey as u8 * 85;
            let pixel = (grey != 2).then_some(Rgb(part, part, part));
            assert_eq!(bitmap.get(x, y), pixel);
        }
        let deep = decode(&DEEP).unwrap();
        let pixels = [
            Some(Rgb(255, 0, 128)),
            None,
            Some(Rgb(1, 2, 3)),
            Some(Rgb(0, 0, 0)),
        ];
        assert_eq!(deep.pixels, pixels);
    }

    /// A bitmap of this many colours, some pixels unpainted if that is asked for.
    fn random(seed: &mut u32, colours: usize, gaps: bool) -> Bitmap {
        let mut bitmap = Bitmap::new(1 + noise(seed) % 70, 1 + noise(seed) % 30);
        for pixel in &mut bitmap.pixels {
            let colour = (noise(seed) % colours) as u32;
            let gap = gaps && noise(seed) % 5 == 0;
            *pixel = (!gap).then_some(Rgb::hex(colour.wrapping_mul(0x0135_7913)));
        }
        bitmap
    }

    #[test]
    fn what_is_written_is_read() {
        let mut seed = 1;
        for colours in [1, 2, 3, 4, 5, 15, 16, 17, 200, 255, 256, 257, 1 << 20] {
            for gaps in [false, true] {
                for _ in 0..4 {
                    let bitmap = random(&mut seed, colours, gaps);
                    assert_eq!(decode(&encode(&bitmap)), Ok(bitmap));
                }
            }
        }
    }

    #[test]
    fn the_form_fits_the_colours() {
        let depth_and_kind = |bitmap: &Bitmap| (encode(bitmap)[24], encode(bitmap)[25]);
        let mut bitmap = Bitmap::new(64, 64);
        let mut seed = 5;
        for (colours, form) in [
            (2, (1, 3)),
            (4, (2, 3)),
            (16, (4, 3)),
            (256, (8, 3)),
            (1 << 24, (8, 2)),
        ] {
            for pixel in &mut bitmap.pixels {
                *pixel = Some(Rgb::hex((noise(&mut seed) % colours) as u32));
            }
            assert_eq!(depth_and_kind(&bitmap), form);
        }
        bitmap.pixels[0] = None;
        assert_eq!(depth_and_kind(&bitmap), (8, 6));
        assert_eq!(decode(&encode(&Bitmap::new(0, 5))), Ok(Bitmap::new(1, 1)));
    }

    #[test]
    fn smooth_colours_are_filtered() {
        let mut bitmap = Bitmap::new(200, 200);
        for (index, pixel) in bitmap.pixels.iter_mut().enumerate() {
            let (x, y) = (index % 200, index / 200);
            *pixel = Some(Rgb(x as u8, y as u8, (x + y) as u8));
        }
        assert!(encode(&bitmap).len() < 2000);
    }

    #[test]
    fn damaged_files_are_errors() {
        let mut seed = 11;
        let coloured = encode(&random(&mut seed, 40, true));
        for file in [&INTERLACED[..], &DEEP, &coloured] {
            for size in 0..file.len() {
                assert!(decode(&file[..size]).is_err());
            }
            for _ in 0..3000 {
                let mut bytes = file.to_vec();
                let place = noise(&mut seed) % bytes.len();
                bytes[place] ^= 1 << (noise(&mut seed) % 8);
                assert!(decode(&bytes).is_err());
            }
        }
    }

    /// With right checksums the damage reaches what is behind them.
    #[test]
    fn damaged_chunks_do_no_harm() {
        let mut seed = 13;
        for _ in 0..5000 {
            let mut header = vec![0, 0, 0, 1 + (noise(&mut seed) % 20) as u8, 0, 0, 0, 9];
            header.extend([1 << (noise(&mut seed) % 5), (noise(&mut seed) % 7) as u8]);
            header.extend([0, 0, (noise(&mut seed) % 2) as u8]);
            let rows: Vec<u8> = (0..noise(&mut seed) % 2000)
                .map(|_| (noise(&mut seed) % 6) as u8)
                .collect();
            let mut file = SIGNATURE.to_vec();
            put_chunk(&mut file, b"IHDR", &header);
            put_chunk(&mut file, b"PLTE", &rows[..rows.len() / 4]);
            put_chunk(&mut file, b"tRNS", &rows[..rows.len() / 9]);
            put_chunk(&mut file, b"IDAT", &deflate::zlib(&rows));
            put_chunk(&mut file, b"IEND", &[]);
            if let Ok(bitmap) = decode(&file) {
                assert_eq!(bitmap.height, 9);
            }
        }
    }

    #[test]
    fn pictures_too_large_are_errors() {
        assert!(check_size(16_384, 3_906).is_ok());
        assert!(check_size(16_384, 3_907).is_err());
        assert!(check_size(16_385, 1).is_err());
        assert!(check_size(1, 0).is_err());
        let mut file = SIGNATURE.to_vec();
        let largest = u32::MAX.to_be_bytes();
        put_chunk(
            &mut file,
            b"IHDR",
            &[&largest[..], &largest, &[8, 2, 0, 0, 0]].concat(),
        );
        assert!(decode(&file).unwrap_err().contains("too large"));
    }
}
