//! The worked cases of docs/SPECIFICATION.md, section 13.

use crate::record::{Object, Record, COPY, SCALED};

pub struct Case {
    pub name: &'static str,
    /// How many of the object's 40 bytes the planner is given.
    pub object_bytes: usize,
    pub record: Record,
}

/// Image and frame alike, at 0, in L's format and load.
fn picture(width: u16, height: u16) -> Object {
    Object {
        image_w: width,
        image_h: height,
        frame_w: width,
        frame_h: height,
        siz: 2,
        load: 0xfff4,
        ..Default::default()
    }
}

/// A copy object: tmem_size_w 1, so tmem_load_sh equals tmem_h.
fn copied(width: u16, height: u16, tmem_h: u16) -> Object {
    Object {
        tail: [0, tmem_h, tmem_h, 0, 1, 0],
        ..picture(width, height)
    }
}

fn scaled(width: u16, height: u16, scale: u16) -> Object {
    let mut object = picture(width, height);
    object.set_scales(scale, scale, 0);
    object
}

/// As E and H, with image_y and the origin at 16/32, between two rows.
fn half_a_row_down(scale: u16) -> Object {
    let mut object = Object {
        image_y: 16,
        ..scaled(1280, 960, scale)
    };
    object.set_scales(scale, scale, 16);
    object
}

pub fn all() -> Vec<Case> {
    let l = copied(64, 8, 8);
    let e = scaled(1280, 960, 1024);
    let i = Record {
        scissor: [0, 0, 1023, 240],
        ..Record::on_screen(
            &Object {
                siz: 3,
                image_x: 22400,
                frame_w: 1296,
                frame_h: 4,
                ..scaled(4096, 8, 1024)
            },
            SCALED,
        )
    };
    let mut cases = Vec::new();
    let mut add = |name, object_bytes, record| {
        cases.push(Case {
            name,
            object_bytes,
            record,
        })
    };
    add("L", 40, Record::on_screen(&l, COPY));
    add("A", 40, Record::on_screen(&copied(1280, 960, 24), COPY));
    add("B", 40, Record::on_screen(&copied(1280, 960, 28), COPY));
    add("C", 40, Record::on_screen(&copied(1024, 36, 32), COPY));
    add("D", 40, Record::on_screen(&copied(1024, 36, 36), COPY));
    add("E", 40, Record::on_screen(&e, SCALED));
    add(
        "G",
        40,
        Record::on_screen(&Object { frame_h: 3, ..e }, SCALED),
    );
    add("H", 40, Record::on_screen(&scaled(1280, 960, 1000), SCALED));
    add("I", 40, i);
    add("J", 40, Record { address: 0, ..i });
    add("O", 40, Record::on_screen(&half_a_row_down(1000), SCALED));
    add("K-copy-39", 39, Record::on_screen(&l, COPY));
    add("K-copy-40", 40, Record::on_screen(&l, COPY));
    add("K-scaled-35", 35, Record::on_screen(&e, SCALED));
    add("K-scaled-36", 36, Record::on_screen(&e, SCALED));
    add(
        "M-copy-fmt-4",
        40,
        Record::on_screen(&Object { fmt: 4, ..l }, COPY),
    );
    add(
        "M-copy-fmt-5",
        40,
        Record::on_screen(&Object { fmt: 5, ..l }, COPY),
    );
    add(
        "M-scaled-fmt-4",
        40,
        Record::on_screen(&Object { fmt: 4, ..e }, SCALED),
    );
    add(
        "M-scaled-fmt-5",
        40,
        Record::on_screen(&Object { fmt: 5, ..e }, SCALED),
    );
    add(
        "N-copy",
        40,
        Record::on_screen(&Object { load: 0x0033, ..l }, COPY),
    );
    add(
        "N-scaled",
        40,
        Record::on_screen(&Object { load: 0x0033, ..e }, SCALED),
    );
    cases
}
