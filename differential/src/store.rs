//! The benchmark's stand-in for the recorder: each call's entry is stored, and nothing else done.
//! The untouched text does not tell a rectangle's image row; 0 is stored there.

use crate::entry::{self, Entry};
use crate::hle::interp::TexRect;
use crate::hle::tmem::TileWrite;
use crate::record::Bank;

pub struct Plan {
    pub words: Vec<u64>,
    /// Words stored.
    pub at: usize,
}

impl Plan {
    fn store(&mut self, entry: Entry) {
        self.words[self.at..self.at + 11].copy_from_slice(&entry);
        self.at += 11;
    }

    pub fn image(&mut self, fmt: u8, siz: u8, width: u16, address: u64, _: &Bank) {
        self.store(entry::image(fmt, siz, width, address));
    }

    pub fn tile(&mut self, index: usize, bank: &Bank) {
        self.store(entry::tile(index, &bank[index]));
    }

    pub fn size(&mut self, index: usize, bounds: [u16; 4], _: &Bank) {
        self.store(entry::size(index, bounds));
    }

    pub fn load(
        &mut self,
        index: usize,
        bounds: [u16; 4],
        write: TileWrite,
        read: (u64, u64),
        _: &Bank,
    ) {
        self.store(entry::load(index, bounds, &write, read));
    }

    pub fn refused(&mut self, _: bool) {}

    pub fn rectangle(&mut self, r: &TexRect, _: &Bank) {
        self.store(entry::rectangle(r, 0));
    }
}
