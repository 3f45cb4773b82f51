//! A small RDP for sheets, tests and examples: texture memory of 4 KB, eight tiles, a frame buffer.
//!
//! Memory holds its own addresses: each half byte of texture memory and each pixel says which half
//! byte of the host's memory it came from. So a pixel tells which texel of the image it shows,
//! whatever the texels' size. Half byte n is the high half of byte n / 2 where n is even.

use visorlongan::{Bank, Load, Mode, Rect, Tile};

/// The half bytes of texture memory: 4 KB, or two banks of 2 KB where texels have 32 bits.
const HALVES: usize = 8192;

/// One pixel: how often it was drawn, and the first half byte of the texel that it shows; none
/// where texture memory did not hold a whole texel there.
#[derive(Clone, Copy, Debug, Default, PartialEq, Eq)]
pub struct Pixel {
    pub drawn: u32,
    pub shows: Option<u64>,
}

pub struct Machine {
    pub tiles: Bank,
    texture: Vec<Option<u64>>,
    width: i32,
    height: i32,
    screen: Vec<Pixel>,
    /// Pixels that were drawn outside the screen.
    pub outside: usize,
}

impl Machine {
    pub fn new(width: i32, height: i32) -> Machine {
        let area = width as usize * height as usize;
        Machine {
            tiles: Bank::default(),
            texture: vec![None; HALVES],
            width,
            height,
            screen: vec![Pixel::default(); area],
            outside: 0,
        }
    }

    pub fn pixel(&self, x: i32, y: i32) -> Pixel {
        self.screen[(y * self.width + x) as usize]
    }

    /// Every pixel, with its column and line.
    pub fn pixels(&self) -> impl Iterator<Item = (i32, i32, Pixel)> + '_ {
        (0..)
            .zip(&self.screen)
            .map(|(n, pixel)| (n % self.width, n / self.width, *pixel))
    }

    /// Reads rows into texture memory, as the load's tile says.
    pub fn load(&mut self, load: &Load) {
        let tile = self.tiles.tiles[usize::from(load.index)];
        for row in 0..load.rows {
            for half in 0..load.words * 16 {
                let row_start = load.start.wrapping_add(row * load.stride);
                let from = row_start.wrapping_mul(2).wrapping_add(half);
                self.texture[place(&tile, row as usize, half as usize)] = Some(from);
            }
        }
    }

    /// Draws a rectangle with its tile, nearest texel, no filter.
    pub fn draw(&mut self, rect: &Rect) {
        let tile = self.tiles.tiles[usize::from(rect.tile)];
        // A copy moves four pixels a cycle.
        let dsdx = match rect.mode {
            Mode::Copy => i64::from(rect.dsdx) / 4,
            Mode::Scaled => i64::from(rect.dsdx),
        };
        let pixels = rect.pixels();
        for (j, y) in (0..).zip(pixels.y) {
            for (i, x) in (0..).zip(pixels.x.clone()) {
                let s = (i64::from(rect.uls) * 32 + i * dsdx) >> 10;
                let t = (i64::from(rect.ult) * 32 + j * i64::from(rect.dtdy)) >> 10;
                let shows = self.sample(&tile, rect.mode, s, t);
                self.put(x, y, shows);
            }
        }
    }

    fn put(&mut self, x: i32, y: i32, shows: Option<u64>) {
        if x < 0 || x >= self.width || y < 0 || y >= self.height {
            self.outside += 1;
            return;
        }
        let pixel = &mut self.screen[(y * self.width + x) as usize];
        pixel.drawn += 1;
        pixel.shows = shows;
    }

    /// The texel at a column and row of the tile: where it came from, if it is there whole.
    fn sample(&self, tile: &Tile, mode: Mode, s: i64, t: i64) -> Option<u64> {
        let clamp = |c, cm, mask, low, high| match mode {
            Mode::Scaled if cm & 2 != 0 || mask == 0 => clamped(c, low, high),
            _ => c - i64::from(low / 4),
        };
        let s = clamp(s, tile.cms, tile.masks, tile.uls, tile.lrs);
        let t = clamp(t, tile.cmt, tile.maskt, tile.ult, tile.lrt);
        let (column, row) = (
            mirrored(s, tile.cms, tile.masks),
            mirrored(t, tile.cmt, tile.maskt),
        );
        let halves = 1 << tile.siz;
        let half = |n: usize| self.texture[place(tile, row, column.wrapping_mul(halves) + n)];
        let first = half(0)?;
        let whole = (1..halves).all(|n| half(n) == Some(first.wrapping_add(n as u64)));
        whole.then_some(first)
    }
}

/// A coordinate from the tile's bound on, and not beyond the other one. Copies are never clamped.
fn clamped(c: i64, low: u16, high: u16) -> i64 {
    let (low, high) = (i64::from(low / 4), i64::from(high / 4));
    (c - low).clamp(0, (high - low).max(0))
}

/// The bits of a coordinate that the mask keeps, counted down in every second stretch of a mirror;
/// all of them where there is no mask.
fn mirrored(c: i64, cm: u8, mask: u8) -> usize {
    if mask == 0 {
        return c as usize;
    }
    let turned = if cm & 1 != 0 && c >> mask & 1 != 0 {
        !c
    } else {
        c
    };
    (turned & ((1 << mask) - 1)) as usize
}

/// Where half byte `half` of a tile's row lies in texture memory. A texel of 32 bits has its upper
/// 16 bits in the lower bank and the others in the upper one. Odd rows have the halves of each
/// 64-bit word changed over.
fn place(tile: &Tile, row: usize, half: usize) -> usize {
    let start = (usize::from(tile.tmem) + usize::from(tile.line) * row) * 16;
    let swap = if row % 2 == 1 { 8 } else { 0 };
    if tile.siz == 3 {
        let (texel, part) = (half / 8, half % 8);
        let bank = part / 4 * (HALVES / 2);
        (((start + texel * 4 + part % 4) % (HALVES / 2)) ^ swap) + bank
    } else {
        ((start + half) % HALVES) ^ swap
    }
}
