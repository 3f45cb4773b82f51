//! Records at the edges of the rules, made by hand: what random records seldom or never show.

use crate::record::{Object, Record, COPY, SCALED};

const LOAD_BLOCK: u16 = 0x0033;
const LOAD_TILE: u16 = 0xfff4;

/// Case L with another size and tmem_h, and then changed.
fn copy(width: u16, height: u16, tmem_h: u16, change: impl Fn(&mut Object, &mut Record)) -> Record {
    let mut object = Object {
        image_w: width,
        image_h: height,
        frame_w: width,
        frame_h: height,
        siz: 2,
        load: LOAD_TILE,
        tail: [0, tmem_h, tmem_h, 0, 1, 0],
        ..Default::default()
    };
    finished(&mut object, COPY, change)
}

/// Case E with another size, scales and origin, and then changed.
fn scaled(
    (width, height): (u16, u16),
    scales: (u16, u16),
    origin: i32,
    change: impl Fn(&mut Object, &mut Record),
) -> Record {
    let mut object = Object {
        image_w: width,
        image_h: height,
        frame_w: width,
        frame_h: height,
        siz: 2,
        load: LOAD_TILE,
        ..Default::default()
    };
    object.set_scales(scales.0, scales.1, origin);
    finished(&mut object, SCALED, change)
}

fn finished(object: &mut Object, opcode: u8, change: impl Fn(&mut Object, &mut Record)) -> Record {
    let mut record = Record::on_screen(object, opcode);
    change(object, &mut record);
    record.object = object.to_bytes();
    record
}

/// Five that a sample of random records once showed, kept as they are.
const PICKED: [(&str, &str); 5] = [
    (
        "wrapping in both directions",
        "01800010001a000b003c000a002000102c5bdfbafff40303000100010400020a000069408ef7c4bc00080008013800e8dc5d4b7d09800000000009c4fb",
    ),
    (
        "flipped strips",
        "b99003fc0000025c1ee00400000002001616ab71fff400030008000199d606aceff482e820f700db00000000014000f0000000080a80000000000ddd4b",
    ),
    (
        "a clipped top",
        "982853090504533901c002b404e402bc701848aafff400012bf4000038660006d4f4ec6e237e00000141019101c40252000000000affffffffffffbb15",
    ),
    (
        "5 before an empty frame",
        "0000019800023df900230014396200147d4a112900330303000d0000d30d00200680dbed0034000000000000014000f0000000080afffffffffffff621",
    ),
    (
        "a destination below 0: 8",
        "0580051f0000050000130007000003983497b09300330000cde400000400014dffffdf33848dc5cf00000000014000f000000000090000000000001000",
    ),
];

/// A record with what it is for.
pub type Edge = (&'static str, Record);

fn copies() -> Vec<Edge> {
    let cells = |width, height| {
        move |o: &mut Object, r: &mut Record| {
            (o.frame_w, o.frame_h) = (width, height);
            r.scissor[2] = 1023;
        }
    };
    vec![
        (
            "a flipped copy load of 1,025 columns: uls cut to 16 bits",
            copy(4160, 4, 4, |o, r| {
                cells(4092, 4)(o, r);
                (o.image_x, o.siz, o.flip) = (64, 0, 1);
            }),
        ),
        ("8 × 32 words, siz 3", copy(512, 64, 32, |o, _| o.siz = 3)),
        (
            "9 × 32 words, siz 3: 7",
            copy(512, 64, 36, |o, _| o.siz = 3),
        ),
        ("8 × 32 words, fmt 2", copy(512, 64, 32, |o, _| o.fmt = 2)),
        (
            "9 × 32 words, fmt 2: 7",
            copy(512, 64, 36, |o, _| o.fmt = 2),
        ),
        ("512 words, fmt 4", copy(512, 64, 64, |o, _| o.fmt = 4)),
        (
            "a palette cut to 8 bits",
            copy(64, 8, 8, |o, _| (o.fmt, o.siz, o.pal) = (1, 1, 300)),
        ),
        ("flip 2: 5", copy(64, 8, 8, |o, _| o.flip = 2)),
        ("an empty copy frame", copy(64, 8, 8, |o, _| o.frame_h = 3)),
        (
            "load 0x0033 in a copy: 5",
            copy(64, 8, 8, |o, _| o.load = LOAD_BLOCK),
        ),
        (
            "a copy load that ends at 2^64: 9 after four entries, and tile 7's size is set",
            copy(64, 8, 8, |_, r| r.address = 64u64.wrapping_neg()),
        ),
        (
            "one byte before: finished",
            copy(64, 8, 8, |_, r| r.address = 65u64.wrapping_neg()),
        ),
        (
            "a second strip's load that ends at 2^64: 9 after nine entries",
            copy(64, 16, 8, |_, r| r.address = 128u64.wrapping_neg()),
        ),
        (
            "a copy load that starts beyond 2^64: 9 after four entries",
            copy(64, 16, 8, |o, r| {
                (o.image_y, r.address) = (64, 40u64.wrapping_neg())
            }),
        ),
        (
            "one row more than fit a picture of 16 columns, and 128 rows: finished",
            copy(64, 512, 516, row_more),
        ),
        ("the same of 129 rows: 7", copy(64, 516, 516, row_more)),
    ]
}

/// The product of rows of four words, and a scissor that clips nothing.
fn row_more(object: &mut Object, record: &mut Record) {
    object.tail = [0, 516, 4 * 516, 0, 4, 0];
    record.scissor = [0, 0, 1023, 1023];
}

fn scaled_ones() -> Vec<Edge> {
    const SCREEN: (u16, u16) = (1280, 960);
    const ONE: (u16, u16) = (1024, 1024);
    let steep = (1024, 6000);
    let e_below =
        |distance: u64| scaled(SCREEN, ONE, 0, |_, r| r.address = distance.wrapping_neg());
    vec![
        (
            "rows before the image",
            scaled(SCREEN, steep, -8416, |o, _| o.frame_h = 160),
        ),
        (
            "the same at address 0: 9",
            scaled(SCREEN, steep, -8416, |o, r| {
                (o.frame_h, r.address) = (160, 0)
            }),
        ),
        (
            "case E's last load ends at 2^64: 9 after 121 entries, and tile 7's size is set",
            e_below(153_608),
        ),
        ("one byte before: finished", e_below(153_609)),
        (
            "case E's first load reaches beyond 2^64: 9 after four entries",
            e_below(3_840),
        ),
        (
            "a sum that nothing reads leaves 2^64: 9 after the last load",
            scaled(SCREEN, ONE, 0, |o, r| {
                (o.frame_w, r.address) = (64, 153_600u64.wrapping_neg())
            }),
        ),
        (
            "that sum just fits",
            scaled(SCREEN, ONE, 0, |o, r| {
                (o.frame_w, r.address) = (64, 153_601u64.wrapping_neg())
            }),
        ),
        (
            "the first address sum is refused: 9 with no entries",
            scaled(SCREEN, ONE, 0, |o, r| {
                (o.image_x, r.address) = (128, u64::MAX)
            }),
        ),
        (
            "image_h 3 and an empty frame",
            scaled((1280, 3), ONE, 0, |_, _| {}),
        ),
        ("image_h 3: 6", scaled((1280, 3), (1024, 512), 0, |_, _| {})),
        (
            "a flipped scaled frame",
            scaled(SCREEN, ONE, 0, |o, _| (o.flip, o.image_x) = (1, 63)),
        ),
        (
            "flip 2 in a scaled frame",
            scaled(SCREEN, ONE, 0, |o, _| o.flip = 2),
        ),
        (
            "a scale above 2^15",
            scaled(SCREEN, (40_000, 1024), 0, |o, _| o.frame_h = 24),
        ),
        (
            "scales of 0",
            scaled(SCREEN, (0, 0), 0, |o, _| (o.frame_w, o.frame_h) = (64, 64)),
        ),
        (
            "a scaled uls cut to 16 bits",
            scaled((8192, 8), ONE, 0, |o, r| {
                (o.frame_w, o.frame_h, o.image_x, o.siz, o.flip) = (4092, 4, 63, 3, 1);
                r.scissor[2] = 1023;
            }),
        ),
        (
            "63 passes in a row without a line",
            scaled((4096, 400), (1024, 65_535), 0, |o, _| {
                (o.frame_w, o.frame_h) = (64, 64)
            }),
        ),
        (
            "a start below the origin",
            scaled(SCREEN, ONE, 0, |o, _| (o.image_y, o.frame_h) = (192, 240)),
        ),
        (
            "a start above the origin",
            scaled(SCREEN, (1000, 1000), 33_344, |o, _| o.frame_h = 80),
        ),
        (
            "a start above the origin, at a scale of 1,029",
            scaled(SCREEN, (1024, 1029), 6_720, |o, _| o.frame_h = 80),
        ),
        (
            "an origin between rows",
            scaled(SCREEN, (1000, 1000), -31, |o, _| {
                (o.image_y, o.frame_h) = (62, 80)
            }),
        ),
        (
            "a line 1/1,024 inside the limit behind, its origin a whole row",
            scaled((64, 32), (1024, 3), -64, |o, _| o.frame_h = 8),
        ),
        (
            "a line 1/1,024 inside the limit behind, its origin between rows",
            scaled((64, 32), (1024, 3), -1, |o, _| o.frame_h = 8),
        ),
        (
            "bilerp",
            scaled(SCREEN, ONE, 0, |o, r| (o.frame_h, r.render_mode) = (80, 8)),
        ),
        (
            "bilerp with a wrap, a last row in two parts and a clipped corner",
            scaled(SCREEN, ONE, 0, |o, r| {
                (o.image_x, o.image_y, o.frame_h, o.pal) = (5000, 7600, 80, 300);
                (o.frame_x, o.frame_y, r.render_mode) = (-40, -37, 8);
            }),
        ),
        (
            "case I at image_x 0",
            scaled((4096, 8), ONE, 0, |o, r| {
                (o.frame_w, o.frame_h, o.siz) = (1296, 4, 3);
                r.scissor[2] = 1023;
            }),
        ),
    ]
}

pub fn named() -> Vec<Edge> {
    let picked = PICKED.map(|(what, digits)| (what, Record::from_hex(digits)));
    copies()
        .into_iter()
        .chain(scaled_ones())
        .chain(picked)
        .collect()
}

pub fn all() -> Vec<Record> {
    named().into_iter().map(|(_, record)| record).collect()
}

/// The longest plan there is, 5,232,646 entries: an image of one cell under 1,023 by 1,023 cells.
pub fn largest() -> Record {
    copy(4, 4, 4, |o, r| {
        (o.frame_w, o.frame_h) = (4092, 4092);
        r.scissor = [0, 0, 1023, 1023];
    })
}
