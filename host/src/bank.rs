//! The RDP's eight tile descriptors.

use crate::entry::Entry;
use crate::ffi::{self, BANK_WORDS};

/// A tile descriptor. Setting a tile keeps its four bounds, width and height; setting its bounds
/// sets width and height too.
#[derive(Clone, Copy, Debug, Default, PartialEq, Eq, Hash)]
pub struct Tile {
    /// The left bound, in quarters of a texel.
    pub uls: u16,
    /// The upper bound.
    pub ult: u16,
    /// The right bound, inclusive.
    pub lrs: u16,
    /// The lower bound, inclusive.
    pub lrt: u16,
    /// Columns, by the bounds: at least 1.
    pub width: u16,
    /// Rows, by the bounds: at least 1.
    pub height: u16,
    /// The format: 0 RGBA, 1 YUV, 2 CI, 3 IA, 4 I.
    pub fmt: u8,
    /// The size of a texel: 0 to 3 for 4, 8, 16 and 32 bits.
    pub siz: u8,
    /// The palette.
    pub palette: u8,
    /// Across: bit 0 mirrors, bit 1 clamps.
    pub cms: u8,
    /// Down, likewise.
    pub cmt: u8,
    /// Across: how many bits of a coordinate are kept; 0 clamps it to the bounds.
    pub masks: u8,
    /// Down, likewise.
    pub maskt: u8,
    /// Across: the coordinate's shift.
    pub shifts: u8,
    /// Down, likewise.
    pub shiftt: u8,
    /// Words of 8 bytes from row to row in texture memory.
    pub line: u16,
    /// Where the tile begins in texture memory, in words of 8 bytes.
    pub tmem: u16,
}

const TILE_WORDS: usize = 17;

impl Tile {
    fn words(&self) -> [u64; TILE_WORDS] {
        [
            self.uls.into(),
            self.ult.into(),
            self.lrs.into(),
            self.lrt.into(),
            self.width.into(),
            self.height.into(),
            self.fmt.into(),
            self.siz.into(),
            self.palette.into(),
            self.cms.into(),
            self.cmt.into(),
            self.masks.into(),
            self.maskt.into(),
            self.shifts.into(),
            self.shiftt.into(),
            self.line.into(),
            self.tmem.into(),
        ]
    }

    /// The words of a tile are numbers of 16 and of 8 bits, as the bank's own and those of entries
    /// are, so that nothing is cut.
    fn from_words(words: &[u64]) -> Tile {
        let (half, byte) = (|n: usize| words[n] as u16, |n: usize| words[n] as u8);
        Tile {
            uls: half(0),
            ult: half(1),
            lrs: half(2),
            lrt: half(3),
            width: half(4),
            height: half(5),
            fmt: byte(6),
            siz: byte(7),
            palette: byte(8),
            cms: byte(9),
            cmt: byte(10),
            masks: byte(11),
            maskt: byte(12),
            shifts: byte(13),
            shiftt: byte(14),
            line: half(15),
            tmem: half(16),
        }
    }
}

/// The tile bank: it goes into a plan, and comes back as it is after the entries that stand.
///
/// In the middle of a plan it is what the entries up to there make of it: [`Bank::apply`] takes it
/// on by one entry, and [`Plan::steps`](crate::Plan::steps) gives each entry with its bank.
#[derive(Clone, Copy, Debug, Default, PartialEq, Eq, Hash)]
pub struct Bank {
    /// The tiles, each at its number.
    pub tiles: [Tile; 8],
}

impl Bank {
    /// Does an entry to the bank: a tile, a size or a load sets its tile; an image or a rectangle
    /// sets nothing, and neither does an entry of a tile from 8 on, which no plan has.
    ///
    /// A load sets its tile's bounds before it reads, so that the bank after a load is the one that
    /// the load itself is meant for.
    pub fn apply(&mut self, entry: &Entry) {
        let mut words = self.words();
        self.follow(&mut words, entry);
    }

    /// Does an entry to the bank's words, and takes over the tile that it sets.
    pub(crate) fn follow(&mut self, words: &mut [u64; BANK_WORDS], entry: &Entry) {
        let Some(index) = entry.sets() else { return };
        if ffi::apply(&entry.to_words(), words) {
            let first = index * TILE_WORDS;
            self.tiles[index] = Tile::from_words(&words[first..first + TILE_WORDS]);
        }
    }

    pub(crate) fn words(&self) -> [u64; BANK_WORDS] {
        let mut words = [0; BANK_WORDS];
        for (place, tile) in words.chunks_exact_mut(TILE_WORDS).zip(&self.tiles) {
            place.copy_from_slice(&tile.words());
        }
        words
    }

    pub(crate) fn from_words(words: &[u64; BANK_WORDS]) -> Bank {
        let mut bank = Bank::default();
        for (tile, words) in bank.tiles.iter_mut().zip(words.chunks_exact(TILE_WORDS)) {
            *tile = Tile::from_words(words);
        }
        bank
    }
}
