//! The entries of a plan.

use crate::request::Mode;
use core::fmt;
use core::ops::Range;

/// The words of an entry in a plan buffer.
pub const ENTRY_WORDS: usize = 11;

/// One entry of a plan: a call that the host makes to its RDP.
#[derive(Clone, Copy, Debug, PartialEq, Eq, Hash)]
pub enum Entry {
    /// Set the texture image.
    Image(Image),
    /// Set a tile.
    Tile(SetTile),
    /// Set a tile's bounds.
    Size(Size),
    /// Set a tile's bounds and load it.
    Load(Load),
    /// Draw a rectangle.
    Rect(Rect),
}

/// The texture image, from which loads read.
#[derive(Clone, Copy, Debug, PartialEq, Eq, Hash)]
pub struct Image {
    /// The format: 0 RGBA, 1 YUV, 2 CI, 3 IA, 4 I.
    pub fmt: u8,
    /// The size of a texel: 0 to 3 for 4, 8, 16 and 32 bits.
    pub siz: u8,
    /// The command's field: the image's columns less one.
    pub width: u16,
    /// The image's first byte.
    pub address: u64,
}

/// All of a tile but its bounds, width and height, which stay. Its shifts become 0.
#[derive(Clone, Copy, Debug, PartialEq, Eq, Hash)]
pub struct SetTile {
    /// The tile: plans set 0 and 7.
    pub index: u8,
    /// The format.
    pub fmt: u8,
    /// The size of a texel.
    pub siz: u8,
    /// Words of 8 bytes from row to row in texture memory.
    pub line: u16,
    /// Where the tile begins in texture memory, in words of 8 bytes.
    pub tmem: u16,
    /// The palette.
    pub palette: u8,
    /// Across: bit 0 mirrors, bit 1 clamps.
    pub cms: u8,
    /// Down, likewise.
    pub cmt: u8,
    /// Across: how many bits of a coordinate are kept; 0 clamps it to the bounds.
    pub masks: u8,
    /// Down, likewise.
    pub maskt: u8,
}

/// A tile's bounds, in quarters of a texel, the ends inclusive; width and height follow.
#[derive(Clone, Copy, Debug, PartialEq, Eq, Hash)]
pub struct Size {
    /// The tile: plans size tile 0.
    pub index: u8,
    /// The left end.
    pub uls: u16,
    /// The upper end.
    pub ult: u16,
    /// The right end.
    pub lrs: u16,
    /// The lower end.
    pub lrt: u16,
}

/// A load: the tile's bounds first, as [`Size`] sets them, then `rows` rows of `words` words of 8
/// bytes, `stride` bytes apart, from `start`; `length` bytes in all.
///
/// In a finished copied plan the columns and rows from `uls` to `lrs` and from `ult` to `lrt` lie
/// inside the image; what fills a row's last word may lie past the row's end.
#[derive(Clone, Copy, Debug, PartialEq, Eq, Hash)]
pub struct Load {
    /// The tile: plans load tile 7.
    pub index: u8,
    /// The left end in the texture image, in quarters of a texel.
    pub uls: u16,
    /// The upper end.
    pub ult: u16,
    /// The right end, inclusive.
    pub lrs: u16,
    /// The lower end, inclusive.
    pub lrt: u16,
    /// Words of 8 bytes that each row has.
    pub words: u64,
    /// Rows. Row r goes to texture memory at the tile's `tmem` + r × its `line`.
    pub rows: u64,
    /// Bytes from row to row in memory.
    pub stride: u64,
    /// The address of the first byte.
    pub start: u64,
    /// Bytes from the first to the last that is read.
    pub length: u64,
}

/// A textured rectangle, drawn with the tiles as they stand after the entries before it.
///
/// Its corners are quarters of a pixel. The ends are inclusive in a copied plan and exclusive in a
/// scaled one; [`pixels`](Rect::pixels) hides that. The rectangles of a finished copied plan meet
/// each cell of the clipped frame once, and nothing else.
#[derive(Clone, Copy, Debug, PartialEq, Eq, Hash)]
pub struct Rect {
    /// Whose plan it is of, which says what the ends mean.
    pub mode: Mode,
    /// The tile: plans draw tile 0.
    pub tile: u8,
    /// The left end.
    pub ulx: i32,
    /// The upper end.
    pub uly: i32,
    /// The right end.
    pub lrx: i32,
    /// The lower end.
    pub lry: i32,
    /// Where in the tile the first pixel is sampled, in thirty-seconds of a texel.
    pub uls: i16,
    /// The same, down.
    pub ult: i16,
    /// 1,024ths of a texel from pixel to pixel. A copied plan has 4,096 here, which is one texel:
    /// the machine copies four pixels a cycle.
    pub dsdx: i16,
    /// 1,024ths of a texel from line to line.
    pub dtdy: i16,
    /// The image's row that the first line shows.
    pub row: u64,
}

/// The pixels of a rectangle: columns and lines of the screen, the ends exclusive.
#[derive(Clone, Debug, PartialEq, Eq, Hash)]
pub struct Pixels {
    /// Columns.
    pub x: Range<i32>,
    /// Lines.
    pub y: Range<i32>,
}

impl Rect {
    /// The pixels that the rectangle covers, whichever its plan. A corner between two pixels is
    /// rounded down to one, and an end that a scaled plan leaves inside a pixel does not count it.
    #[must_use]
    pub const fn pixels(&self) -> Pixels {
        let more = match self.mode {
            Mode::Copy => 1,
            Mode::Scaled => 0,
        };
        Pixels {
            x: reach(self.ulx, self.lrx, more),
            y: reach(self.uly, self.lry, more),
        }
    }
}

/// Whole pixels from one corner to the other, and so many more.
const fn reach(from: i32, to: i32, more: i32) -> Range<i32> {
    let first = from.div_euclid(4);
    let count = to.saturating_sub(from).div_euclid(4);
    first..first.saturating_add(count).saturating_add(more)
}

/// Words that are no entry's: `place` is that of the first that does not fit.
#[derive(Clone, Copy, Debug, PartialEq, Eq, Hash)]
pub struct NoEntry {
    /// The word, from 0: the kind's.
    pub place: usize,
    /// What stands there.
    pub word: u64,
}

impl fmt::Display for NoEntry {
    fn fmt(&self, f: &mut fmt::Formatter) -> fmt::Result {
        match self.place {
            0 => write!(f, "{} is no kind of entry", self.word),
            place => write!(f, "word {place} of the entry cannot be {}", self.word),
        }
    }
}

impl core::error::Error for NoEntry {}

/// The words of an entry, read one after another into fields of their own widths.
struct Words<'a> {
    words: &'a [u64; ENTRY_WORDS],
    next: usize,
}

impl Words<'_> {
    fn signed<T: TryFrom<i64>>(&mut self) -> Result<T, NoEntry> {
        let (place, word) = (self.next, self.words[self.next]);
        self.next += 1;
        T::try_from(word as i64).map_err(|_| NoEntry { place, word })
    }

    fn field<T: TryFrom<u64>>(&mut self) -> Result<T, NoEntry> {
        let (place, word) = (self.next, self.words[self.next]);
        self.next += 1;
        T::try_from(word).map_err(|_| NoEntry { place, word })
    }

    /// The words that the kind does not use are 0.
    fn done(&self, entry: Entry) -> Result<Entry, NoEntry> {
        let mut rest = self.words.iter().copied().enumerate().skip(self.next);
        let stray = rest.find(|(_, word)| *word != 0);
        stray.map_or(Ok(entry), |(place, word)| Err(NoEntry { place, word }))
    }
}

impl Image {
    fn read(from: &mut Words) -> Result<Image, NoEntry> {
        Ok(Image {
            fmt: from.field()?,
            siz: from.field()?,
            width: from.field()?,
            address: from.field()?,
        })
    }
}

impl SetTile {
    fn read(from: &mut Words) -> Result<SetTile, NoEntry> {
        Ok(SetTile {
            index: from.field()?,
            fmt: from.field()?,
            siz: from.field()?,
            line: from.field()?,
            tmem: from.field()?,
            palette: from.field()?,
            cms: from.field()?,
            cmt: from.field()?,
            masks: from.field()?,
            maskt: from.field()?,
        })
    }
}

impl Size {
    fn read(from: &mut Words) -> Result<Size, NoEntry> {
        Ok(Size {
            index: from.field()?,
            uls: from.field()?,
            ult: from.field()?,
            lrs: from.field()?,
            lrt: from.field()?,
        })
    }
}

impl Load {
    fn read(from: &mut Words) -> Result<Load, NoEntry> {
        Ok(Load {
            index: from.field()?,
            uls: from.field()?,
            ult: from.field()?,
            lrs: from.field()?,
            lrt: from.field()?,
            words: from.field()?,
            rows: from.field()?,
            stride: from.field()?,
            start: from.field()?,
            length: from.field()?,
        })
    }
}

impl Rect {
    fn read(from: &mut Words, mode: Mode) -> Result<Rect, NoEntry> {
        Ok(Rect {
            mode,
            tile: from.field()?,
            ulx: from.signed()?,
            uly: from.signed()?,
            lrx: from.signed()?,
            lry: from.signed()?,
            uls: from.signed()?,
            ult: from.signed()?,
            dsdx: from.signed()?,
            dtdy: from.signed()?,
            row: from.field()?,
        })
    }
}

impl Entry {
    /// The entry of eleven words in a plan of that mode.
    ///
    /// # Errors
    ///
    /// Where the kind is none, a number does not fit its field, or a word that the kind does not
    /// use is not 0. No plan of the library has such words.
    pub fn from_words(words: &[u64; ENTRY_WORDS], mode: Mode) -> Result<Entry, NoEntry> {
        let mut from = Words { words, next: 1 };
        let entry = match words[0] {
            1 => Entry::Image(Image::read(&mut from)?),
            2 => Entry::Tile(SetTile::read(&mut from)?),
            3 => Entry::Size(Size::read(&mut from)?),
            4 => Entry::Load(Load::read(&mut from)?),
            5 => Entry::Rect(Rect::read(&mut from, mode)?),
            word => return Err(NoEntry { place: 0, word }),
        };
        from.done(entry)
    }

    /// The entry's eleven words: kind, numbers, zeros; signed numbers modulo 2^64.
    #[must_use]
    pub fn to_words(&self) -> [u64; ENTRY_WORDS] {
        let signed = |number: i32| i64::from(number) as u64;
        match *self {
            Entry::Image(e) => {
                let numbers = [e.fmt.into(), e.siz.into(), e.width.into(), e.address];
                spread(1, &numbers)
            }
            Entry::Tile(e) => {
                let bytes = [e.palette, e.cms, e.cmt, e.masks, e.maskt].map(u64::from);
                let mut numbers = [0; 10];
                numbers[..3].copy_from_slice(&[e.index, e.fmt, e.siz].map(u64::from));
                numbers[3..5].copy_from_slice(&[e.line, e.tmem].map(u64::from));
                numbers[5..].copy_from_slice(&bytes);
                spread(2, &numbers)
            }
            Entry::Size(e) => {
                let [uls, ult, lrs, lrt] = [e.uls, e.ult, e.lrs, e.lrt].map(u64::from);
                spread(3, &[e.index.into(), uls, ult, lrs, lrt])
            }
            Entry::Load(e) => {
                let [uls, ult, lrs, lrt] = [e.uls, e.ult, e.lrs, e.lrt].map(u64::from);
                let bounds = [e.index.into(), uls, ult, lrs, lrt];
                let mut numbers = [0; 10];
                numbers[..5].copy_from_slice(&bounds);
                numbers[5..].copy_from_slice(&[e.words, e.rows, e.stride, e.start, e.length]);
                spread(4, &numbers)
            }
            Entry::Rect(e) => {
                let mut numbers = [0; 10];
                numbers[0] = e.tile.into();
                numbers[1..5].copy_from_slice(&[e.ulx, e.uly, e.lrx, e.lry].map(signed));
                let samples = [e.uls, e.ult, e.dsdx, e.dtdy].map(|n| signed(n.into()));
                numbers[5..9].copy_from_slice(&samples);
                numbers[9] = e.row;
                spread(5, &numbers)
            }
        }
    }
}

impl Entry {
    /// The tile that the entry names for the bank; an image and a rectangle set none.
    pub(crate) fn sets(&self) -> Option<usize> {
        match self {
            Entry::Tile(tile) => Some(tile.index.into()),
            Entry::Size(size) => Some(size.index.into()),
            Entry::Load(load) => Some(load.index.into()),
            Entry::Image(_) | Entry::Rect(_) => None,
        }
    }
}

/// A kind, its numbers, and zeros.
fn spread(kind: u64, numbers: &[u64]) -> [u64; ENTRY_WORDS] {
    let mut words = [0; ENTRY_WORDS];
    words[0] = kind;
    words[1..=numbers.len()].copy_from_slice(numbers);
    words
}

/// The entry's line as the program `bgplan` prints it: kind, then the numbers in columns.
impl fmt::Display for Entry {
    fn fmt(&self, f: &mut fmt::Formatter) -> fmt::Result {
        match self {
            Entry::Image(e) => {
                write!(f, " 1{:8}{:8}{:8}{:21}", e.fmt, e.siz, e.width, e.address)
            }
            Entry::Tile(e) => {
                write!(
                    f,
                    " 2{:8}{:8}{:8}{:8}{:8}",
                    e.index, e.fmt, e.siz, e.line, e.tmem
                )?;
                write!(f, "{:8}{:8}{:8}", e.palette, e.cms, e.cmt)?;
                write!(f, "{:8}{:8}", e.masks, e.maskt)
            }
            Entry::Size(e) => {
                write!(
                    f,
                    " 3{:8}{:8}{:8}{:8}{:8}",
                    e.index, e.uls, e.ult, e.lrs, e.lrt
                )
            }
            Entry::Load(e) => {
                write!(
                    f,
                    " 4{:8}{:8}{:8}{:8}{:8}",
                    e.index, e.uls, e.ult, e.lrs, e.lrt
                )?;
                write!(f, "{:8}{:8}{:8}", e.words, e.rows, e.stride)?;
                write!(f, "{:21}{:21}", e.start, e.length)
            }
            Entry::Rect(e) => {
                write!(
                    f,
                    " 5{:8}{:8}{:8}{:8}{:8}",
                    e.tile, e.ulx, e.uly, e.lrx, e.lry
                )?;
                write!(
                    f,
                    "{:8}{:8}{:8}{:8}{:8}",
                    e.uls, e.ult, e.dsdx, e.dtdy, e.row
                )
            }
        }
    }
}

#[cfg(test)]
mod tests {
    use super::*;

    fn rect(mode: Mode, [ulx, uly, lrx, lry]: [i32; 4]) -> Rect {
        let words = [5, 0, 0, 0, 0, 0, 0, 0, 4096, 1024, 0];
        let Ok(Entry::Rect(rect)) = Entry::from_words(&words, mode) else {
            panic!("a rectangle")
        };
        Rect {
            ulx,
            uly,
            lrx,
            lry,
            ..rect
        }
    }

    #[test]
    fn pixels_hide_the_ends() {
        let pixels = |mode, ends| {
            let Pixels { x, y } = rect(mode, ends).pixels();
            (x, y)
        };
        assert_eq!(pixels(Mode::Copy, [0, 0, 60, 4]), (0..16, 0..2));
        assert_eq!(pixels(Mode::Scaled, [0, 0, 60, 4]), (0..15, 0..1));
        assert_eq!(pixels(Mode::Copy, [2, 2, 6, 2]), (0..2, 0..1));
        assert_eq!(pixels(Mode::Scaled, [3, 4, 9, 7]), (0..1, 1..1));
        assert!(pixels(Mode::Copy, [40, 40, 0, 0]).0.is_empty());
        let far = [i32::MIN, i32::MIN, i32::MAX, i32::MAX];
        assert!(pixels(Mode::Copy, far).0.start < 0);
    }

    /// Each word of each kind with a number that no field holds, and with one bit too many.
    #[test]
    fn nothing_is_cut_silently() {
        let kinds = [
            (1, [255, 255, 65_535, u64::MAX].as_slice()),
            (2, &[255, 255, 255, 65_535, 65_535, 255, 255, 255, 255, 255]),
            (3, &[255, 65_535, 65_535, 65_535, 65_535]),
            (4, &[255, 65_535, 65_535, 65_535, 65_535]),
            (5, &[255]),
        ];
        for (kind, limits) in kinds {
            for (place, limit) in (1..).zip(limits) {
                let mut words = [0; ENTRY_WORDS];
                words[0] = kind;
                words[place] = *limit;
                let entry = Entry::from_words(&words, Mode::Copy).expect("it fits");
                assert_eq!(entry.to_words(), words);
                let Some(word) = limit.checked_add(1) else {
                    continue;
                };
                words[place] = word;
                let refused = Entry::from_words(&words, Mode::Copy);
                assert_eq!(refused, Err(NoEntry { place, word }));
            }
        }
        for (kind, used) in [(1, 4), (3, 5)] {
            let mut words = [0; ENTRY_WORDS];
            words[0] = kind;
            words[used + 1] = 1;
            let stray = NoEntry {
                place: used + 1,
                word: 1,
            };
            assert_eq!(Entry::from_words(&words, Mode::Scaled), Err(stray));
        }
    }

    #[test]
    fn signed_words() {
        for (place, low, high) in [
            (2, i64::from(i32::MIN), i64::from(i32::MAX)),
            (6, -32_768, 32_767),
        ] {
            let mut words = [5, 0, 0, 0, 0, 0, 0, 0, 0, 0, 0];
            for number in [low, -1, 0, high] {
                words[place] = number as u64;
                let entry = Entry::from_words(&words, Mode::Scaled).expect("it fits");
                assert_eq!(entry.to_words(), words);
            }
            for number in [low - 1, high + 1] {
                words[place] = number as u64;
                assert!(Entry::from_words(&words, Mode::Scaled).is_err());
            }
        }
    }

    #[test]
    fn no_other_kind() {
        for kind in [0, 6, 9, u64::MAX] {
            let mut words = [0; ENTRY_WORDS];
            words[0] = kind;
            let refused = Entry::from_words(&words, Mode::Copy);
            assert_eq!(
                refused,
                Err(NoEntry {
                    place: 0,
                    word: kind
                })
            );
        }
    }
}
