//! The plan entries of docs/SPECIFICATION.md, section 9: eleven words from the numbers of each call
//! that a planner makes.

use crate::hle::interp::TexRect;
use crate::hle::rdp::TileDescriptor;
use crate::hle::tmem::TileWrite;
use std::fmt::Write as _;

/// Eleven words: the kind, then its numbers; signed ones modulo 2^64.
pub type Entry = [u64; 11];

pub const IMAGE: u64 = 1;
pub const TILE: u64 = 2;
pub const SIZE: u64 = 3;
pub const LOAD: u64 = 4;
pub const RECTANGLE: u64 = 5;

fn entry<const N: usize>(kind: u64, numbers: [u64; N]) -> Entry {
    let mut entry = [0; 11];
    entry[0] = kind;
    entry[1..=N].copy_from_slice(&numbers);
    entry
}

pub fn image(fmt: u8, siz: u8, width: u16, address: u64) -> Entry {
    entry(IMAGE, [fmt.into(), siz.into(), width.into(), address])
}

pub fn tile(index: usize, t: &TileDescriptor) -> Entry {
    let numbers = [
        index as u64,
        t.fmt.into(),
        t.siz.into(),
        t.line.into(),
        t.tmem_addr.into(),
        t.palette.into(),
        t.cms.into(),
        t.cmt.into(),
        t.masks.into(),
        t.maskt.into(),
    ];
    entry(TILE, numbers)
}

pub fn size(index: usize, bounds: [u16; 4]) -> Entry {
    let [uls, ult, lrs, lrt] = bounds.map(u64::from);
    entry(SIZE, [index as u64, uls, ult, lrs, lrt])
}

pub fn load(
    index: usize,
    bounds: [u16; 4],
    write: &TileWrite,
    (start, length): (u64, u64),
) -> Entry {
    let [uls, ult, lrs, lrt] = bounds.map(u64::from);
    let numbers = [
        index as u64,
        uls,
        ult,
        lrs,
        lrt,
        write.words as u64,
        write.rows as u64,
        write.stride as u64,
        start,
        length,
    ];
    entry(LOAD, numbers)
}

pub fn rectangle(r: &TexRect, image_row: i64) -> Entry {
    let signed = |number: i64| number as u64;
    assert!(!r.flip, "the planners never flip the axes");
    let numbers = [
        r.tile.into(),
        signed(r.rect.ulx.into()),
        signed(r.rect.uly.into()),
        signed(r.rect.lrx.into()),
        signed(r.rect.lry.into()),
        signed(r.uls.into()),
        signed(r.ult.into()),
        signed(r.dsdx.into()),
        signed(r.dtdy.into()),
        signed(image_row),
    ];
    entry(RECTANGLE, numbers)
}

/// How many numbers an entry of this kind prints.
fn printed_numbers(kind: u64) -> usize {
    match kind {
        IMAGE => 4,
        SIZE => 5,
        _ => 10,
    }
}

/// One line of `bgplan`: kind 2 wide, addresses and length 21, the rest 8.
pub fn print_entry(entry: &Entry, out: &mut String) {
    let kind = entry[0];
    write!(out, "{kind:2}").unwrap();
    for (place, &word) in entry.iter().enumerate().skip(1).take(printed_numbers(kind)) {
        match (kind, place) {
            (IMAGE, 4) | (LOAD, 9) | (LOAD, 10) => write!(out, "{word:21}").unwrap(),
            (RECTANGLE, _) => write!(out, "{:8}", word as i64).unwrap(),
            _ => write!(out, "{word:8}").unwrap(),
        }
    }
    out.push('\n');
}
