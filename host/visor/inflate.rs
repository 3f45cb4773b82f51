//! A zlib stream to bytes (RFC 1950, RFC 1951). Any bytes may come in: what is wrong is an error.

use crate::deflate::{adler32, fixed_lengths, DISTANCES, END, LENGTHS, ORDER};

/// The bytes that a zlib stream holds, if they are no more than `limit`.
pub fn zlib(data: &[u8], limit: usize) -> Result<Vec<u8>, String> {
    let &[method, flags, ref rest @ ..] = data else {
        return Err(SHORT.into());
    };
    let head = u16::from_be_bytes([method, flags]);
    if method & 15 != 8 || method >> 4 > 7 || head % 31 != 0 || flags & 0x20 != 0 {
        return Err("The compressed data does not start as zlib data does.".into());
    }
    let mut bits = Bits::new(rest);
    let mut out = Vec::new();
    loop {
        let last = bits.take(1)? == 1;
        match bits.take(2)? {
            0 => stored(&mut bits, &mut out, limit)?,
            1 => {
                let codes = (Code::new(&fixed_lengths())?, Code::new(&[5; 32])?);
                tokens(&mut bits, &codes, &mut out, limit)?;
            }
            2 => {
                let codes = own_codes(&mut bits)?;
                tokens(&mut bits, &codes, &mut out, limit)?;
            }
            _ => return Err("The compressed data has a block of an unknown kind.".into()),
        }
        if last {
            break;
        }
    }
    bits.align();
    let mut sum = 0;
    for _ in 0..4 {
        sum = sum << 8 | bits.take(8)?;
    }
    if sum != adler32(&out) {
        return Err("The checksum of the compressed data is wrong.".into());
    }
    Ok(out)
}

const SHORT: &str = "The compressed data ends too early.";
const DAMAGED: &str = "The compressed data is damaged.";

fn too_long(limit: usize) -> String {
    format!("The compressed data holds more than {limit} bytes.")
}

/// Bits, the lowest first. Behind the end come zeros, which must not be used up.
struct Bits<'a> {
    data: &'a [u8],
    at: usize,
    held: u64,
    count: u32,
}

impl<'a> Bits<'a> {
    fn new(data: &'a [u8]) -> Self {
        Bits {
            data,
            at: 0,
            held: 0,
            count: 0,
        }
    }

    /// Holds at least 48 bits, if so many are left.
    fn fill(&mut self) {
        if let Some(&eight) = self.data[self.at..].first_chunk::<8>() {
            self.held |= u64::from_le_bytes(eight) << self.count;
            let bytes = (63 - self.count) / 8;
            self.at += bytes as usize;
            self.count += 8 * bytes;
            // Bits above `count` are the same that the next filling brings.
            return;
        }
        while self.count < 56 && self.at < self.data.len() {
            self.held |= u64::from(self.data[self.at]) << self.count;
            self.at += 1;
            self.count += 8;
        }
    }

    fn skip(&mut self, count: u32) -> Result<(), String> {
        if count > self.count {
            return Err(SHORT.into());
        }
        self.held >>= count;
        self.count -= count;
        Ok(())
    }

    /// At most 16 bits.
    fn take(&mut self, count: u32) -> Result<u32, String> {
        if self.count < count {
            self.fill();
        }
        let value = self.held as u32 & ((1 << count) - 1);
        self.skip(count)?;
        Ok(value)
    }

    /// Goes on at the next whole byte.
    fn align(&mut self) {
        let odd = self.count % 8;
        self.held >>= odd;
        self.count -= odd;
    }

    /// So many whole bytes.
    fn bytes(&mut self, size: usize) -> Result<&'a [u8], String> {
        self.align();
        self.at -= self.count as usize / 8;
        self.held = 0;
        self.count = 0;
        let rest = &self.data[self.at..];
        let bytes = rest.get(..size).ok_or(SHORT)?;
        self.at += size;
        Ok(bytes)
    }
}

/// How many bits are looked up at once.
const FAST: u32 = 10;

/// A Huffman code.
struct Code {
    /// By the next bits: 16 times the symbol, plus its length; 0 if the code word is longer.
    fast: Vec<u16>,
    /// How many code words have this length.
    counts: [u16; 16],
    /// By code word.
    symbols: Vec<u16>,
}

impl Code {
    fn new(lengths: &[u8]) -> Result<Code, String> {
        let mut counts = [0u16; 16];
        for &length in lengths.iter().filter(|&&length| length > 0) {
            counts[usize::from(length)] += 1;
        }
        check(&counts)?;
        let mut symbols = Vec::new();
        let mut fast = vec![0; 1 << FAST];
        let mut word = 0u16;
        for length in 1..16u8 {
            let entries = (0u16..).zip(lengths).filter(|entry| *entry.1 == length);
            for (symbol, _) in entries {
                symbols.push(symbol);
                if u32::from(length) <= FAST {
                    let start = usize::from(word.reverse_bits() >> (16 - length));
                    let slots = fast.iter_mut().skip(start).step_by(1 << length);
                    slots.for_each(|slot| *slot = symbol << 4 | u16::from(length));
                }
                word += 1;
            }
            word <<= 1;
        }
        Ok(Code {
            fast,
            counts,
            symbols,
        })
    }

    fn symbol(&self, bits: &mut Bits) -> Result<usize, String> {
        if bits.count < 15 {
            bits.fill();
        }
        let entry = self.fast[bits.held as usize & ((1 << FAST) - 1)];
        if entry != 0 {
            bits.skip(u32::from(entry & 15))?;
            return Ok(usize::from(entry >> 4));
        }
        self.slow_symbol(bits)
    }

    /// Bit by bit: `word` counts from the first code word of its length, `before` are shorter.
    fn slow_symbol(&self, bits: &mut Bits) -> Result<usize, String> {
        let (mut word, mut before) = (0, 0);
        for length in 1..16 {
            word = word << 1 | (bits.held >> (length - 1)) as usize & 1;
            let count = usize::from(self.counts[length]);
            if word < count {
                bits.skip(length as u32)?;
                return Ok(usize::from(self.symbols[before + word]));
            }
            word -= count;
            before += count;
        }
        Err(DAMAGED.into())
    }
}

/// A code must use all words; one with a single word of one bit, or with none, may leave some.
fn check(counts: &[u16; 16]) -> Result<(), String> {
    let mut free = 1i32;
    for &count in &counts[1..] {
        free = 2 * free - i32::from(count);
        if free < 0 {
            return Err(DAMAGED.into());
        }
    }
    let words: u16 = counts.iter().sum();
    if free > 0 && (words > 1 || words != counts[1]) {
        return Err(DAMAGED.into());
    }
    Ok(())
}

fn stored(bits: &mut Bits, out: &mut Vec<u8>, limit: usize) -> Result<(), String> {
    let head = bits.bytes(4)?;
    let size = u16::from_le_bytes([head[0], head[1]]);
    if size != !u16::from_le_bytes([head[2], head[3]]) {
        return Err(DAMAGED.into());
    }
    let bytes = bits.bytes(size.into())?;
    if bytes.len() > limit - out.len() {
        return Err(too_long(limit));
    }
    out.extend(bytes);
    Ok(())
}

/// The codes that a block brings with it: of literals and lengths, and of distances.
fn own_codes(bits: &mut Bits) -> Result<(Code, Code), String> {
    let literals = bits.take(5)? as usize + 257;
    let distances = bits.take(5)? as usize + 1;
    let listed = bits.take(4)? as usize + 4;
    if literals > 286 || distances > 30 {
        return Err(DAMAGED.into());
    }
    let mut lengths = [0u8; 19];
    for &symbol in &ORDER[..listed] {
        lengths[symbol] = bits.take(3)? as u8;
    }
    let code = Code::new(&lengths)?;
    let mut lengths: Vec<u8> = Vec::new();
    while lengths.len() < literals + distances {
        let symbol = code.symbol(bits)?;
        let (length, times) = match symbol {
            16 => (*lengths.last().ok_or(DAMAGED)?, 3 + bits.take(2)?),
            17 => (0, 3 + bits.take(3)?),
            18 => (0, 11 + bits.take(7)?),
            _ => (symbol as u8, 1),
        };
        lengths.resize(lengths.len() + times as usize, length);
    }
    if lengths.len() > literals + distances || lengths[END] == 0 {
        return Err(DAMAGED.into());
    }
    let (literals, distances) = lengths.split_at(literals);
    Ok((Code::new(literals)?, Code::new(distances)?))
}

/// The literals and matches of a block.
fn tokens(
    bits: &mut Bits,
    codes: &(Code, Code),
    out: &mut Vec<u8>,
    limit: usize,
) -> Result<(), String> {
    loop {
        let symbol = codes.0.symbol(bits)?;
        if symbol == END {
            return Ok(());
        }
        if symbol < END {
            if out.len() >= limit {
                return Err(too_long(limit));
            }
            out.push(symbol as u8);
            continue;
        }
        let length = extended(bits, &LENGTHS, symbol - END - 1)?;
        let symbol = codes.1.symbol(bits)?;
        let distance = extended(bits, &DISTANCES, symbol)?;
        if length > limit - out.len() {
            return Err(too_long(limit));
        }
        repeat(out, length, distance)?;
    }
}

/// A length or a distance with its extra bits.
fn extended(bits: &mut Bits, table: &[(u16, u8)], symbol: usize) -> Result<usize, String> {
    let &(least, extra) = table.get(symbol).ok_or(DAMAGED)?;
    Ok(usize::from(least) + bits.take(extra.into())? as usize)
}

/// Repeats bytes from so far back; they may overlap the new ones.
fn repeat(out: &mut Vec<u8>, length: usize, distance: usize) -> Result<(), String> {
    let from = out.len().checked_sub(distance).ok_or(DAMAGED)?;
    let mut left = length;
    while left > 0 {
        let part = left.min(out.len() - from);
        out.extend_from_within(from..from + part);
        left -= part;
    }
    Ok(())
}

#[cfg(test)]
mod tests {
    use super::*;
    use crate::deflate;

    /// What python3's zlib makes of the first hundred squares, with a comma behind each.
    const SQUARES: [u8; 230] = [
        120, 218, 21, 145, 201, 1, 0, 33, 8, 3, 27, 226, 33, 130, 28, 253, 55, 230, 228, 165, 43,
        33, 76, 216, 99, 110, 105, 107, 94, 118, 159, 69, 89, 174, 85, 218, 184, 249, 57, 230, 151,
        51, 147, 42, 138, 69, 130, 230, 62, 206, 89, 139, 155, 232, 233, 70, 151, 201, 57, 105,
        239, 174, 189, 46, 43, 116, 197, 217, 124, 55, 239, 67, 125, 209, 109, 201, 151, 70, 63,
        56, 184, 99, 229, 242, 244, 139, 185, 135, 166, 164, 198, 61, 205, 45, 1, 148, 72, 26, 34,
        159, 20, 3, 132, 247, 136, 194, 69, 124, 207, 218, 141, 147, 118, 243, 56, 100, 116, 220,
        210, 173, 245, 54, 170, 46, 186, 80, 71, 224, 47, 104, 200, 3, 191, 72, 156, 67, 51, 162,
        153, 22, 195, 220, 88, 8, 242, 192, 146, 162, 202, 128, 47, 19, 210, 44, 152, 179, 149, 86,
        49, 222, 33, 207, 115, 5, 14, 37, 166, 98, 79, 153, 95, 235, 182, 188, 213, 161, 74, 151,
        179, 77, 58, 234, 209, 91, 141, 75, 13, 126, 125, 158, 150, 67, 71, 51, 211, 250, 49, 183,
        27, 130, 94, 88, 70, 171, 159, 11, 223, 164, 254, 69, 193, 60, 3, 253, 42, 7, 10, 110, 80,
        178, 77, 82, 238, 144, 247, 3, 237, 15, 89, 88,
    ];

    fn squares() -> String {
        (0..100).map(|root| format!("{},", root * root)).collect()
    }

    fn noise(seed: &mut u32) -> u8 {
        *seed ^= *seed << 13;
        *seed ^= *seed >> 17;
        *seed ^= *seed << 5;
        (*seed >> 8) as u8
    }

    #[test]
    fn streams_of_python() {
        assert_eq!(zlib(&SQUARES, 1000), Ok(squares().into_bytes()));
        let fixed = [120, 218, 75, 76, 74, 78, 68, 66, 41, 0, 52, 24, 6, 35];
        assert_eq!(zlib(&fixed, 16), Ok(b"abcabcabcabcabcd".to_vec()));
        let stored = [
            120, 1, 1, 6, 0, 249, 255, 115, 116, 111, 114, 101, 100, 9, 60, 2, 146,
        ];
        assert_eq!(zlib(&stored, 6), Ok(b"stored".to_vec()));
    }

    #[test]
    fn own_streams() {
        let mut seed = 1;
        let random: Vec<u8> = (0..100_000).map(|_| noise(&mut seed)).collect();
        let few: Vec<u8> = random.iter().map(|byte| byte & 3).collect();
        let far = [&random[..40_000], &random[..40_000]].concat();
        let text = squares().repeat(300).into_bytes();
        let mixed = [&random[..], &text, &few, &[0; 70_000]].concat();
        for data in [
            random,
            few,
            far,
            text,
            mixed,
            vec![9; 300_000],
            vec![],
            vec![1],
        ] {
            for size in [data.len(), data.len() / 2, data.len().min(259)] {
                let data = &data[..size];
                let packed = deflate::zlib(data);
                assert!(packed.len() <= size + size / 1000 + 13);
                assert_eq!(zlib(&packed, size), Ok(data.to_vec()));
            }
        }
    }

    #[test]
    fn no_more_than_the_limit() {
        let size = squares().len();
        assert!(zlib(&SQUARES, size).is_ok());
        assert!(zlib(&SQUARES, size - 1).is_err());
        assert!(zlib(&deflate::zlib(&[0; 100_000]), 99_999).is_err());
        let mut seed = 7;
        let stored: Vec<u8> = (0..1000).map(|_| noise(&mut seed)).collect();
        assert!(zlib(&deflate::zlib(&stored), 999).is_err());
    }

    #[test]
    fn damaged_bytes_are_errors() {
        for size in 0..SQUARES.len() {
            assert!(zlib(&SQUARES[..size], 1000).is_err());
        }
        let mut seed = 3;
        for _ in 0..20_000 {
            let mut bytes = SQUARES;
            let place = 2 + usize::from(noise(&mut seed)) % (SQUARES.len() - 2);
            bytes[place] ^= 1 << (noise(&mut seed) % 8);
            // A match may find the same bytes elsewhere; other bytes have another checksum.
            assert!(zlib(&bytes, 1000).map_or(true, |data| data == squares().as_bytes()));
        }
        for _ in 0..20_000 {
            let mut bytes = vec![0x78, 0x9c];
            bytes.extend((0..60).map(|_| noise(&mut seed)));
            assert!(zlib(&bytes, 1000).is_err());
        }
    }
}
