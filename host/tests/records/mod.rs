//! The specification's cases, out of tests/cases. Each test uses what it needs.
//!
//! NAME.bin is the case's 61 bytes, NAME.txt its plan from a bank of zeros, NAME.bank the tiles
//! after the plan from the tiles of initial-bank.txt; list.txt says how many of the object's bytes
//! each case gets.
#![allow(dead_code)]

use visorlongan::{Bank, Record, Request};

fn folder() -> String {
    format!("{}/tests/cases", env!("CARGO_MANIFEST_DIR"))
}

fn read(name: &str) -> Vec<u8> {
    std::fs::read(format!("{}/{name}", folder())).unwrap_or_else(|e| panic!("{name}: {e}"))
}

pub fn text(name: &str) -> String {
    String::from_utf8(read(name)).expect("text")
}

pub fn record(name: &str) -> Record {
    Record::try_from(&read(&format!("{name}.bin"))[..]).expect("61 bytes")
}

/// The case's record, and how many of the object's bytes the planner gets.
pub fn cases() -> Vec<(String, Record, usize)> {
    let list = text("list.txt");
    let case = |line: &str| {
        let (name, count) = line.split_once(' ').expect("name and count");
        (
            name.to_string(),
            record(name),
            count.parse().expect("a count"),
        )
    };
    list.lines().map(case).collect()
}

pub fn request(record: &Record, object_bytes: usize) -> Request<'_> {
    let request = record.request();
    Request {
        object: &request.object[..object_bytes],
        ..request
    }
}

/// A case with its image at another address.
fn at(name: &str, address: u64) -> Record {
    let mut bytes = *record(name).as_bytes();
    bytes[53..].copy_from_slice(&address.to_be_bytes());
    Record::from(bytes)
}

/// Loads that are refused after four entries, each with the right bound of tile 7 that it has set:
/// a copy load that starts beyond 2^64, one that ends there, and a scaled one that does.
pub fn refused_loads() -> [(Record, u16); 3] {
    // From column 7 on: the start is 8 bytes after the image's.
    let mut bytes = *at("L", u64::MAX).as_bytes();
    bytes[1] = 255;
    let beyond = Record::from(bytes);
    let [copied, scaled] = [
        at("L", 64u64.wrapping_neg()),
        at("E", 3_848u64.wrapping_neg()),
    ];
    [(beyond, 60), (copied, 60), (scaled, 1_280)]
}

/// The longest plan there is: an image of one cell under a frame of 1,023 by 1,023 cells.
pub fn largest() -> Record {
    let mut bytes = *record("L").as_bytes();
    let object = [(2, 4), (10, 4), (6, 4092), (14, 4092), (30, 4), (32, 4)];
    for (at, field) in object.into_iter().chain([(44, 1023), (46, 1023)]) {
        bytes[at..at + 2].copy_from_slice(&u16::to_be_bytes(field));
    }
    Record::from(bytes)
}

/// A bank from eight lines of an index and seventeen numbers.
pub fn bank(text: &str) -> Bank {
    let mut bank = Bank::default();
    for (tile, line) in bank.tiles.iter_mut().zip(text.lines()) {
        let numbers = line.split_whitespace().skip(2);
        let n: Vec<u16> = numbers.map(|n| n.parse().expect("a number")).collect();
        [tile.uls, tile.ult, tile.lrs, tile.lrt] = [n[0], n[1], n[2], n[3]];
        [tile.width, tile.height, tile.line, tile.tmem] = [n[4], n[5], n[15], n[16]];
        [tile.fmt, tile.siz, tile.palette] = [n[6] as u8, n[7] as u8, n[8] as u8];
        [tile.cms, tile.cmt, tile.masks] = [n[9] as u8, n[10] as u8, n[11] as u8];
        [tile.maskt, tile.shifts, tile.shiftt] = [n[12] as u8, n[13] as u8, n[14] as u8];
    }
    bank
}
