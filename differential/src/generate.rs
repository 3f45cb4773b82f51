//! Random cases, shaped so that every verdict and every branch of the planners is met often.
//! The estimates below only steer; nothing depends on their being right.

use crate::random::Random;
use crate::record::{Object, Record, COPY, OBJECT_BYTES, SCALED};

#[derive(Clone, Copy, Debug, PartialEq)]
pub enum Mode {
    /// Copy and scaled, shaped.
    Mixed,
    Copy,
    Scaled,
    /// Scaled, with images of few rows, where strips have more rows than the image.
    Thin,
    /// Scaled, with an image of whole rows and a start at or below the origin.
    Whole,
    /// Every field from a short list of numbers beside limits.
    Corners,
    /// Shaped cases of which a few bytes are then overwritten.
    Damaged,
    /// Random bytes, with only load, format, size, scissor and copy product helped.
    Wild,
}

impl Mode {
    pub fn from_name(name: &str) -> Option<Mode> {
        Some(match name {
            "mixed" => Mode::Mixed,
            "copy" => Mode::Copy,
            "scaled" => Mode::Scaled,
            "thin" => Mode::Thin,
            "whole" => Mode::Whole,
            "corners" => Mode::Corners,
            "damaged" => Mode::Damaged,
            "wild" => Mode::Wild,
            _ => return None,
        })
    }
}

/// Copy frames of more rectangles than this are cut down, but for one case in 20,000.
const RECTANGLES: i64 = 400;

pub fn generate(random: &mut Random, mode: Mode) -> Record {
    match mode {
        Mode::Copy => copied(random),
        Mode::Scaled => scaled(random, 6),
        Mode::Thin => scaled(random, 1),
        Mode::Whole => whole(random),
        Mode::Corners => corners(random),
        Mode::Mixed if random.once_in(2) => copied(random),
        Mode::Mixed => scaled(random, 6),
        Mode::Damaged => damaged(random),
        Mode::Wild => wild(random),
    }
}

/// A 16-bit size of at least 1.
fn size(value: i64) -> u16 {
    value.clamp(1, 65535) as u16
}

/// A size in units: small, usual, large or any.
fn extent(random: &mut Random) -> u16 {
    size(match random.below(10) {
        0 => random.within(4, 80),
        1 => 4 * random.within(1, 16),
        2 | 3 => 4 * random.within(8, 320),
        4 => random.pick(&[64, 128, 256, 512, 960, 1024, 1280, 2048]),
        5 => random.pick(&[1280, 960, 1024]) + random.within(-5, 5),
        6 | 7 => random.within(32, 1400),
        8 => random.within(4, 4096),
        _ => random.within(1, 65535),
    })
}

/// Where a frame starts: mostly at or near the scissor's edge, now and then anywhere.
fn frame_start(random: &mut Random, edge: u16, extent: u16) -> i16 {
    let edge = i64::from(edge) * 4;
    let extent = i64::from(extent).max(1);
    let start = match random.below(24) {
        0..=10 => edge,
        11..=13 => edge + random.within(-64, 64).max(8 - extent),
        14 | 15 => edge + 4 * random.within(-60, 60).max(-extent / 4),
        16..=19 => edge - random.within(0, extent - 1),
        20 => edge - extent + random.within(-4, 40),
        21 => 0,
        22 => random.within(-2000, 4200),
        _ => return random.next() as i16,
    };
    start.clamp(-32768, 32767) as i16
}

pub fn scissor(random: &mut Random) -> [u16; 4] {
    let mut edges = match random.below(32) {
        0..=11 => [0, 0, 320, 240],
        12..=18 => [0, 0, 1023, 1023],
        19..=22 => [8, 8, 312, 232],
        23..=30 => {
            let x = random.below(600) as u16;
            let y = random.below(600) as u16;
            let w = random.within(1, 400) as u16;
            let h = random.within(1, 400) as u16;
            [x, y, x + w, y + h]
        }
        _ => [0; 4].map(|_: u16| random.below(1024) as u16),
    };
    if random.once_in(80) {
        let edge = random.below(4) as usize;
        edges[edge] = match random.below(3) {
            0 => 1023,
            1 => 1024,
            _ => random.within(1024, 65535) as u16,
        };
    }
    edges
}

/// An address, often so near an end of the address space that some row falls off it.
fn address(random: &mut Random, object: &Object) -> u64 {
    let shift = 0x200 >> (object.siz & 3);
    let stride = u64::from(object.image_w) * 8 / shift * 8;
    let rows = u64::from(object.image_h) / 4;
    let end = 0u64; // 2^64, from which the following count down
    match random.below(20) {
        0..=8 => 4096,
        9 => random.below(1 << 32),
        10 => random.next(),
        11 => 0,
        12 => stride.wrapping_sub(random.below(3)),
        13 => random.below(2 * stride + 256),
        14 => (1 << 63) + random.below(1 << 20),
        15 => end.wrapping_sub(1 + random.below(256)),
        16 => end.wrapping_sub(1 + random.below(1 << 20)),
        17 => end.wrapping_sub(stride * random.below(rows + 2)),
        18 => end.wrapping_sub(stride * rows.min(random.below(40)) + random.below(2 * stride + 8)),
        _ => end.wrapping_sub(stride * rows + random.below(stride + 8)),
    }
}

fn render_mode(random: &mut Random) -> u32 {
    match random.below(4) {
        0 | 1 => 0,
        2 => 8,
        _ => random.next() as u32,
    }
}

fn opcode(random: &mut Random, usual: u8) -> u8 {
    if random.once_in(200) {
        random.pick(&[0, 1, 8, 11, 255, 0x80, 0x89])
    } else {
        usual
    }
}

/// A position in the image in thirty-seconds, where `extent` units make the image.
fn image_position(random: &mut Random, extent: u16) -> u16 {
    let end = i64::from(extent) * 8;
    (match random.below(10) {
        0..=2 => 0,
        3 => 32 * random.within(0, 64),
        4 => random.within(0, 2048),
        5 => end - random.within(-64, 2048),
        6 => end - 32 * random.within(-4, 40),
        7 => end * random.within(1, 4),
        8 => random.within(0, end),
        _ => random.within(0, 65535),
    }) as u16
}

fn common(random: &mut Random) -> Object {
    Object {
        pointer: random.next() as u32,
        load: 0xfff4,
        fmt: random.below(5) as u8,
        siz: random.below(4) as u8,
        pal: if random.once_in(3) {
            random.next() as u16
        } else {
            random.below(16) as u16
        },
        flip: random.below(2) as u16,
        ..Default::default()
    }
}

/// Now and then one field that the checks refuse, or that sits just beside their limits.
fn spoil(random: &mut Random, object: &mut Object) {
    match random.below(500) {
        0 => object.image_w = 0,
        1 => object.image_h = 0,
        2 => object.frame_w = 0,
        3 => object.frame_h = 0,
        4 => object.fmt = random.pick(&[5, 6, 255]),
        5 => object.siz = random.pick(&[4, 5, 255]),
        6 => object.load = random.pick(&[0, 0x0034, 0xfff3, 0x33f4]),
        7 => object.load = random.next() as u16,
        8 | 9 => object.image_w = random.within(1, 4) as u16,
        10 | 11 => object.image_h = random.within(1, 4) as u16,
        12 => object.frame_h = random.within(1, 8) as u16,
        13 => object.frame_w = random.within(1, 8) as u16,
        14..=16 => object.flip = random.pick(&[2, 3, 256, 0xfffe, 0xffff]),
        17 => object.load = 0x0033,
        _ => {}
    }
}

/// The frame's size of a copy object, and where its image starts.
fn frame_and_start(random: &mut Random, object: &mut Object) {
    let frame = |random: &mut Random, image: u16| match random.below(8) {
        0..=2 => image,
        3 => image.saturating_add(random.below(64) as u16),
        4 => size(i64::from(image) / 2),
        5 => size(random.within(4, 24)),
        6 => size(4 * random.within(1, 400)),
        _ => extent(random),
    };
    object.frame_w = frame(random, object.image_w);
    object.frame_h = frame(random, object.image_h);
    object.image_x = image_position(random, object.image_w);
    object.image_y = image_position(random, object.image_h);
}

/// The record of a copy object whose frame is put on the screen here, and cut down if it is of very
/// many strips.
fn placed(random: &mut Random, mut object: Object, scissor: [u16; 4]) -> Record {
    object.frame_x = frame_start(random, scissor[0], object.frame_w);
    object.frame_y = frame_start(random, scissor[1], object.frame_h);
    let record = unplaced(random, &object, scissor);
    limit_rectangles(random, record)
}

/// The record of a copy object as it is.
pub fn unplaced(random: &mut Random, object: &Object, scissor: [u16; 4]) -> Record {
    Record {
        object: object.to_bytes(),
        scissor,
        render_mode: render_mode(random),
        opcode: opcode(random, COPY),
        address: address(random, object),
    }
}

/// A copy object with another frame and start, flipped or not, and now and then a frame of nothing.
pub fn chosen_later(random: &mut Random, mut object: Object) -> Record {
    let scissor = scissor(random);
    frame_and_start(random, &mut object);
    if random.once_in(100) {
        object.frame_w = 0;
    }
    object.flip = random.below(2) as u16;
    placed(random, object, scissor)
}

fn copied(random: &mut Random) -> Record {
    let mut object = common(random);
    let scissor = scissor(random);
    object.image_w = extent(random);
    object.image_h = extent(random);
    frame_and_start(random, &mut object);
    spoil(random, &mut object);

    // The line of a strip of the full width, which decides how many rows fit.
    let word = 16 >> (object.siz & 3);
    let width = i64::from(object.image_w.min(object.frame_w)) / 4;
    let line = width / word + 1;
    let capacity = if object.fmt == 2 || object.siz == 3 {
        256
    } else {
        512
    };
    let rows = match random.below(10) {
        0 => 1,
        1 => random.within(1, 16),
        2 => capacity / line + random.within(0, 3),
        3 => random.within(1, 600),
        _ => capacity / line - random.within(0, 1),
    };
    let spare = random.pick(&[0, 0, 0, 1, 2, 3]);
    let mut tmem_h = (4 * rows.clamp(1, 16383) + spare) as u16;
    let mut tmem_size_w = match random.below(4) {
        0 => 1,
        1 => size(line),
        _ => random.within(1, 65535) as u16,
    };
    match random.below(200) {
        0 => tmem_h = random.below(5) as u16,
        1 => tmem_size_w = 0,
        _ => {}
    }
    let mut product = u32::from(tmem_h) * u32::from(tmem_size_w);
    match random.below(200) {
        0 => product ^= 1 << random.below(32),
        1 => product = product.wrapping_add(0x1_0000),
        _ => {}
    }
    object.tail = [
        random.next() as u16,
        tmem_h,
        product as u16,
        random.next() as u16,
        tmem_size_w,
        (product >> 16) as u16,
    ];
    placed(random, object, scissor)
}

fn scale(random: &mut Random) -> u16 {
    match random.below(10) {
        0 | 1 => 1024,
        2 => random.pick(&[1000, 1000, 1023, 1025, 512, 2048]),
        3 => random.pick(&[0, 1, 2, 3, 4, 16]),
        4 => random.pick(&[4095, 4096, 4097, 8192, 16384]),
        5 => random.pick(&[32767, 32768, 65535, 65534, 40000]),
        6 | 7 => random.within(700, 1500) as u16,
        8 => random.within(1, 8192) as u16,
        _ => random.next() as u16,
    }
}

/// An image size that the frame, at this scale, just fits, fits well or exceeds.
fn scaled_image(random: &mut Random, frame: u16, scale: u16) -> u16 {
    let scale = i64::from(scale.max(1));
    let needed = i64::from(frame) * scale / 1024;
    // Below this, not even four units of the frame remain.
    let least = 5 * scale / 1024 + 1;
    size(match random.below(16) {
        0..=4 => least.max(needed + random.within(1, 8)),
        5..=7 => (needed + 8) & !3,
        8 | 9 => least.max(needed + random.within(-8, 80)),
        10 | 11 => needed * random.within(1, 4) + random.within(0, 64),
        12 => least.max(needed / 2 + random.within(0, 8)),
        13 => least + random.within(-2, 8),
        14 => least.max(i64::from(extent(random))),
        _ => return extent(random),
    })
}

/// A scaled case; once in `thin` its image has few rows.
fn scaled(random: &mut Random, thin: u64) -> Record {
    let mut object = common(random);
    let scissor = scissor(random);
    object.load = random.pick(&[0xfff4, 0x0033]);
    let both = scale(random);
    let scale_w = if random.once_in(3) {
        scale(random)
    } else {
        both
    };
    let mut scale_h = if random.once_in(3) {
        scale(random)
    } else {
        both
    };

    // The frame's width, from the rows that a strip shall have.
    let rows = random.pick(&[1i64, 1, 2, 3, 6, 6, 6, 20, 100, 300]);
    let texels = 512 / rows * (16 >> object.siz);
    let units = 4096 * texels / i64::from(scale_w.max(1));
    object.frame_w = match random.below(8) {
        0..=2 => size(units.min(1280)),
        3 | 4 => size(random.within(1, units.clamp(1, 1280))),
        5 => size(units + random.within(-8, 8)),
        _ => extent(random),
    };
    object.frame_h = match random.below(8) {
        0 => size(random.within(1, 24)),
        1..=3 => size(4 * random.within(1, 260)),
        4 => 960,
        5 => size(random.within(1, 4400)),
        _ => extent(random),
    };
    object.image_w = scaled_image(random, object.frame_w, scale_w);
    object.image_h = scaled_image(random, object.frame_h, scale_h);
    object.image_x = image_position(random, object.image_w);
    object.image_y = image_position(random, object.image_h);
    if random.once_in(3) {
        // A window that crosses the image's right edge, which splits a row.
        let window = i64::from(object.frame_w) * i64::from(scale_w.max(1)) / 128;
        let end = i64::from(object.image_w) * 8;
        let start = end - random.within(0, window.min(end) + 64);
        object.image_x = start.rem_euclid(65536) as u16;
    }
    if random.once_in(thin) {
        // Few rows, and a start near their end. At the steepest scale one line is left.
        let single = random.once_in(8);
        let image_h = if single {
            random.within(5, 7)
        } else {
            random.within(4, 15)
        };
        let steepest = image_h * 1024 / 5;
        object.image_h = image_h as u16;
        object.image_y = (image_h * 8 - random.within(0, 64)).max(0) as u16;
        scale_h = match random.below(2) {
            _ if single => random.within(1024, steepest),
            0 => random.within(1, 1100),
            _ => random.within(1, steepest),
        } as u16;
    }
    spoil(random, &mut object);
    let row = i64::from(object.image_y);
    let origin = match random.below(12) {
        0..=3 => 0,
        4 => row,
        5 => row - 32 * random.within(-20, 400),
        6 => row - random.within(-600, 4000),
        7 => 32 * random.within(-4000, 4000),
        8 => random.within(-100_000, 100_000),
        9 => i64::from(random.next() as i32),
        10 => i64::from(random.pick(&[i32::MIN, i32::MAX, -1, 1, -32, 31])),
        _ => 32 * random.within(0, 60),
    };
    object.set_scales(scale_w, scale_h, origin as i32);
    object.tail[4] = random.next() as u16;
    object.tail[5] = random.next() as u16;
    object.frame_x = frame_start(random, scissor[0], object.frame_w);
    object.frame_y = frame_start(random, scissor[1], object.frame_h);
    Record {
        object: object.to_bytes(),
        scissor,
        render_mode: render_mode(random),
        opcode: opcode(random, SCALED),
        address: address(random, &object),
    }
}

/// A scaled case with image_h a multiple of 4 and image_y_orig not above image_y, in about half of
/// them a multiple of 32.
fn whole(random: &mut Random) -> Record {
    let mut record = scaled(random, 10);
    let half = |at: usize| {
        i64::from(u16::from_be_bytes([
            record.object[at],
            record.object[at + 1],
        ]))
    };
    let image_h = if half(10) == 0 {
        0
    } else {
        half(10).max(4) & !3
    };
    let rows = match random.below(6) {
        0 | 1 => 0,
        2 => random.within(0, 20),
        3 => random.within(0, 600),
        4 => random.within(0, 100_000),
        _ => random.within(0, 67_000_000),
    };
    let between_rows = random.within(0, 31) * random.within(0, 1);
    let origin = ((half(8) & !31) - 32 * rows - between_rows) as i32;
    record.object[10..12].copy_from_slice(&(image_h as u16).to_be_bytes());
    record.object[32..36].copy_from_slice(&origin.to_be_bytes());
    record
}

fn corners(random: &mut Random) -> Record {
    const NUMBERS: [u16; 40] = [
        0, 1, 2, 3, 4, 5, 7, 8, 15, 16, 17, 31, 32, 33, 63, 64, 127, 128, 255, 256, 511, 512, 960,
        1000, 1023, 1024, 1025, 1280, 2048, 4095, 4096, 8191, 8192, 16384, 32767, 32768, 40000,
        65532, 65534, 65535,
    ];
    let corner = |random: &mut Random| random.pick(&NUMBERS);
    let mut object = common(random);
    object.image_x = corner(random);
    object.image_w = corner(random);
    object.frame_x = corner(random) as i16 * random.pick(&[0, 1]);
    object.frame_w = corner(random);
    object.image_y = corner(random);
    object.image_h = corner(random);
    object.frame_y = corner(random) as i16 * random.pick(&[0, 1]);
    object.frame_h = corner(random);
    let usual = if random.once_in(3) { COPY } else { SCALED };
    if usual == COPY {
        let (tmem_h, tmem_size_w) = (corner(random), corner(random));
        let product = u32::from(tmem_h) * u32::from(tmem_size_w);
        let [high, low] = [(product >> 16) as u16, product as u16];
        object.tail = [0, tmem_h, low, 0, tmem_size_w, high];
    } else {
        object.load = random.pick(&[0xfff4, 0x0033]);
        let any = corner(random);
        let high = random.pick(&[0, 0, 0xffff, 0x7fff, 0x8000, any]);
        object.tail = [corner(random), corner(random), high, corner(random), 0, 0];
    }
    let scissor = match random.below(3) {
        0 => [0, 0, 320, 240],
        1 => [0, 0, 1023, 1023],
        _ => [0; 4].map(|_: u16| random.pick(&[0, 1, 8, 239, 240, 320, 1022, 1023])),
    };
    let record = Record {
        object: object.to_bytes(),
        scissor,
        render_mode: random.pick(&[0, 8, u32::MAX]),
        opcode: usual,
        address: address(random, &object),
    };
    limit_rectangles(random, record)
}

fn damaged(random: &mut Random) -> Record {
    let original = generate(random, Mode::Mixed);
    let mut bytes = original.to_bytes();
    for _ in 0..random.within(1, 3) {
        let at = random.below(bytes.len() as u64) as usize;
        bytes[at] = match random.below(3) {
            0 => bytes[at] ^ (1 << random.below(8)),
            1 => bytes[at].wrapping_add(random.pick(&[1, 255])),
            _ => random.next() as u8,
        };
    }
    let mut record = Record::from_bytes(&bytes);
    if !random.once_in(20) {
        record.opcode = original.opcode;
    }
    limit_rectangles(random, record)
}

fn wild(random: &mut Random) -> Record {
    let mut object = [0; OBJECT_BYTES];
    for byte in &mut object {
        *byte = random.next() as u8;
    }
    let load: u16 = random.pick(&[0xfff4, 0xfff4, 0x0033]);
    object[20..22].copy_from_slice(&load.to_be_bytes());
    object[22] %= 5;
    object[23] %= 4;
    for high in [4, 12] {
        // Frames that start near or before the screen's corner.
        object[high] = random.pick(&[0, 0, 1, 255, 240, object[high]]);
    }
    let opcode = random.pick(&[COPY, SCALED]);
    if opcode == COPY {
        object[26] = 0;
        object[27] %= 2;
        object[30] %= 2;
        let half = |at: usize| u32::from(u16::from_be_bytes([object[at], object[at + 1]]));
        let product = half(30) * half(36);
        object[32..34].copy_from_slice(&(product as u16).to_be_bytes());
        object[38..40].copy_from_slice(&((product >> 16) as u16).to_be_bytes());
    } else {
        // Half the scales below 8, so that a frame of some lines fits the image.
        for high in [28, 30] {
            object[high] %= random.pick(&[8, 255]);
        }
    }
    let scissor = if random.once_in(2) {
        [0, 0, 1023, 1023]
    } else {
        [0; 4].map(|_: u16| random.below(1024) as u16)
    };
    let record = Record {
        object,
        scissor,
        render_mode: random.next() as u32,
        opcode,
        address: random.next(),
    };
    limit_rectangles(random, record)
}

/// Cuts down a copy frame of very many strips.
fn limit_rectangles(random: &mut Random, mut record: Record) -> Record {
    let half = |at: usize| {
        i64::from(u16::from_be_bytes([
            record.object[at],
            record.object[at + 1],
        ]))
    };
    let columns = (half(2) / 4).max(1);
    let rows = (half(10) / 4).min(half(30) / 4).max(1);
    let (frame_w, frame_h) = (half(6), half(14));
    let across = |frame: i64, step: i64| frame.min(4092) / 4 / step + 1;
    if record.opcode == COPY
        && across(frame_w, columns) * across(frame_h, rows) > RECTANGLES
        && !random.once_in(20_000)
    {
        let width = frame_w.min(columns * 4 * random.within(1, 8)) as u16;
        let height = frame_h.min(rows * 4 * random.within(1, 24)) as u16;
        record.object[6..8].copy_from_slice(&width.to_be_bytes());
        record.object[14..16].copy_from_slice(&height.to_be_bytes());
    }
    record
}
