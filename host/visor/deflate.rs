//! Bytes to a zlib stream (RFC 1950, RFC 1951): LZ77 with hash chains and lazy matching, then
//! Huffman codes block by block.

/// The least match of every length symbol from 257 on, and its extra bits.
pub const LENGTHS: [(u16, u8); 29] = {
    let mut ranges = ranges(3, 4);
    ranges[28] = (258, 0);
    ranges
};

/// The least distance of every distance symbol, and its extra bits.
pub const DISTANCES: [(u16, u8); 30] = ranges(1, 2);

/// Ranges of values from `least` on: their starts and extra bits. After two groups of single values
/// the ranges of every group are twice as long as those of the group before.
const fn ranges<const COUNT: usize>(least: u16, group: usize) -> [(u16, u8); COUNT] {
    let mut ranges = [(least, 0); COUNT];
    let mut symbol = 1;
    while symbol < COUNT {
        let (start, bits) = ranges[symbol - 1];
        let extra = (symbol / group).saturating_sub(1) as u8;
        ranges[symbol] = (start + (1 << bits), extra);
        symbol += 1;
    }
    ranges
}

/// The order in which a block names the lengths of its length codes.
pub const ORDER: [usize; 19] = [
    16, 17, 18, 0, 8, 7, 9, 6, 10, 5, 11, 4, 12, 3, 13, 2, 14, 1, 15,
];

/// The symbol that ends a block.
pub const END: usize = 256;

const WINDOW: usize = 1 << 15;
const HASH_BITS: u32 = 15;
const LEAST: usize = 3;
const MOST: usize = 258;
/// How many earlier places are tried for a match.
const TRIES: usize = 128;
/// A match this long is taken without looking at the next byte.
const LAZY: usize = 16;
/// When a match this long is to be beaten, fewer places are tried.
const GOOD: usize = 8;
/// A match this long ends the search.
const NICE: usize = 128;
/// Three bytes from farther away cost more than three literals.
const FAR: usize = 4096;
/// How many tokens share a block.
const BLOCK: usize = 1 << 15;

/// A zlib stream that holds these bytes.
pub fn zlib(data: &[u8]) -> Vec<u8> {
    let mut bits = Bits::default();
    bits.bytes.extend([0x78, 0x9c]);
    let mut matcher = Matcher::new(data);
    let mut from = 0;
    loop {
        let tokens: Vec<Token> = matcher.by_ref().take(BLOCK).collect();
        let until = from + tokens.iter().map(Token::span).sum::<usize>();
        write_block(&mut bits, &tokens, &data[from..until], until == data.len());
        from = until;
        if from == data.len() {
            break;
        }
    }
    bits.align();
    bits.bytes.extend(adler32(data).to_be_bytes());
    bits.bytes
}

/// The checksum of a zlib stream.
pub fn adler32(data: &[u8]) -> u32 {
    let (mut low, mut high) = (1u32, 0u32);
    // So many bytes can be summed before 32 bits overflow.
    for part in data.chunks(5552) {
        for &byte in part {
            low += u32::from(byte);
            high += low;
        }
        low %= 65521;
        high %= 65521;
    }
    high << 16 | low
}

/// A literal byte (distance 0, the byte as `value`) or a match of `value` bytes.
#[derive(Clone, Copy)]
struct Token {
    value: u16,
    distance: u16,
}

impl Token {
    /// How many bytes it stands for.
    fn span(&self) -> usize {
        if self.distance == 0 {
            1
        } else {
            usize::from(self.value)
        }
    }
}

/// The tokens of the data, one after another.
struct Matcher<'a> {
    data: &'a [u8],
    at: usize,
    /// Length and distance of the match at `at`, if the byte before has looked ahead for it.
    known: Option<(usize, usize)>,
    /// The last place of every hash. Places are kept modulo 2^32: what is found there is compared
    /// anyway, so that a wrong place does no harm.
    heads: Vec<u32>,
    /// For every place of the window the one before with the same hash.
    chain: Vec<u32>,
}

impl<'a> Matcher<'a> {
    fn new(data: &'a [u8]) -> Self {
        Matcher {
            data,
            at: 0,
            known: None,
            heads: vec![0; 1 << HASH_BITS],
            chain: vec![0; WINDOW],
        }
    }

    /// Enters a place into its chain; gives the last place with the same hash.
    fn enter(&mut self, at: usize) -> Option<u32> {
        let bytes = self.data.get(at..at + LEAST)?;
        let key = u32::from(bytes[0]) | u32::from(bytes[1]) << 8 | u32::from(bytes[2]) << 16;
        let head = &mut self.heads[(key.wrapping_mul(0x9e37_79b1) >> (32 - HASH_BITS)) as usize];
        let before = *head;
        self.chain[at % WINDOW] = before;
        *head = at as u32;
        Some(before)
    }

    /// Enters a place; gives length and distance of the longest match there that beats `beat`.
    fn find(&mut self, at: usize, beat: usize) -> (usize, usize) {
        let most = MOST.min(self.data.len() - at);
        let (mut length, mut distance) = (beat.max(LEAST - 1), 0);
        let Some(mut place) = self.enter(at) else {
            return (0, 0);
        };
        let tries = if beat >= GOOD { TRIES / 4 } else { TRIES };
        let mut nearer = 0;
        for _ in 0..tries {
            let away = (at as u32).wrapping_sub(place) as usize;
            if away <= nearer || away > WINDOW || away > at || length >= most {
                break;
            }
            let from = at - away;
            if self.data[from + length - 1..][..2] == self.data[at + length - 1..][..2] {
                let equal = common(&self.data[from..], &self.data[at..at + most]);
                if equal > length {
                    (length, distance) = (equal, away);
                }
                if equal >= NICE {
                    break;
                }
            }
            nearer = away;
            place = self.chain[from % WINDOW];
        }
        if distance == 0 || (length == LEAST && distance > FAR) {
            return (0, 0);
        }
        (length, distance)
    }
}

impl Iterator for Matcher<'_> {
    type Item = Token;

    fn next(&mut self) -> Option<Token> {
        let at = self.at;
        let byte = *self.data.get(at)?;
        let (length, distance) = match self.known.take() {
            Some(known) => known,
            None => self.find(at, 0),
        };
        let looks = length < LAZY && at + 1 < self.data.len();
        if looks {
            let next = self.find(at + 1, length);
            if length == 0 || next.0 > length {
                self.known = Some(next);
                self.at = at + 1;
                return Some(Token {
                    value: u16::from(byte),
                    distance: 0,
                });
            }
        }
        self.at = at + length.max(1);
        for place in at + 1 + usize::from(looks)..self.at {
            self.enter(place);
        }
        Some(Token {
            value: if length == 0 {
                u16::from(byte)
            } else {
                length as u16
            },
            // 32,768 does not overflow; a literal has distance 0.
            distance: distance as u16,
        })
    }
}

/// How many bytes at the start are equal; `right` is not longer than `left`.
fn common(left: &[u8], right: &[u8]) -> usize {
    let mut count = 0;
    while let (Some(&one), Some(&other)) =
        (left[count..].first_chunk(), right[count..].first_chunk())
    {
        let differ = u64::from_le_bytes(one) ^ u64::from_le_bytes(other);
        if differ != 0 {
            return count + differ.trailing_zeros() as usize / 8;
        }
        count += 8;
    }
    let rest = left[count..].iter().zip(&right[count..]);
    count + rest.take_while(|(one, other)| one == other).count()
}

/// Bits, the lowest first.
#[derive(Default)]
struct Bits {
    bytes: Vec<u8>,
    held: u64,
    count: u32,
}

impl Bits {
    /// At most 32 bits.
    fn put(&mut self, value: u32, count: u32) {
        self.held |= u64::from(value) << self.count;
        self.count += count;
        if self.count >= 32 {
            self.bytes.extend((self.held as u32).to_le_bytes());
            self.held >>= 32;
            self.count -= 32;
        }
    }

    /// Goes on at the next whole byte.
    fn align(&mut self) {
        let whole = self.count.div_ceil(8) as usize;
        self.bytes.extend(&self.held.to_le_bytes()[..whole]);
        self.held = 0;
        self.count = 0;
    }
}

/// A Huffman code: for every symbol its bits, in the order in which they are written, and how many.
struct Code {
    lengths: Vec<u8>,
    words: Vec<u16>,
}

impl Code {
    /// The canonical code with these lengths.
    fn new(lengths: Vec<u8>) -> Code {
        let mut next = [0u16; 17];
        for &length in lengths.iter().filter(|&&length| length > 0) {
            next[usize::from(length) + 1] += 1;
        }
        for length in 1..17 {
            next[length] = (next[length] + next[length - 1]) << 1;
        }
        let words = lengths.iter().map(|&length| {
            if length == 0 {
                return 0;
            }
            let word = next[usize::from(length)];
            next[usize::from(length)] += 1;
            word.reverse_bits() >> (16 - length)
        });
        let words = words.collect();
        Code { lengths, words }
    }

    fn put(&self, bits: &mut Bits, symbol: usize) {
        bits.put(self.words[symbol].into(), self.lengths[symbol].into());
    }

    /// How many bits these many of every symbol take.
    fn cost(&self, counts: &[u32]) -> usize {
        let each = counts.iter().zip(&self.lengths);
        each.map(|(&count, &length)| count as usize * usize::from(length))
            .sum()
    }
}

/// The best code lengths of at most `limit` bits for symbols that occur so often (package-merge).
fn code_lengths(counts: &[u32], limit: usize) -> Vec<u8> {
    let used = |&symbol: &usize| counts[symbol] > 0;
    let mut symbols: Vec<usize> = (0..counts.len()).filter(used).collect();
    symbols.sort_by_key(|&symbol| counts[symbol]);
    let mut lengths = vec![0; counts.len()];
    if let [symbol] = symbols[..] {
        lengths[symbol] = 1;
    }
    if symbols.len() < 2 {
        return lengths;
    }
    // One list a bit: the symbols and the pairs of the list before, by weight. A pair is no symbol.
    let leaves: Vec<(u64, bool)> = symbols.iter().map(|&s| (counts[s].into(), true)).collect();
    let mut lists = vec![leaves.clone()];
    for bit in 1..limit {
        let pairs = lists[bit - 1].chunks_exact(2);
        let mut list = leaves.clone();
        list.extend(pairs.map(|pair| (pair[0].0 + pair[1].0, false)));
        list.sort_by_key(|item| item.0);
        lists.push(list);
    }
    // The cheapest items of the last list; every pair among them takes two of the list before.
    let mut take = 2 * symbols.len() - 2;
    for list in lists.iter().rev() {
        let leaves = list[..take].iter().filter(|item| item.1).count();
        for &symbol in &symbols[..leaves] {
            lengths[symbol] += 1;
        }
        take = 2 * (take - leaves);
    }
    lengths
}

/// The symbol of a match length or of a distance: the last whose least value is not above it.
fn symbol_of(table: &[(u16, u8)], value: u16) -> usize {
    table.partition_point(|&(least, _)| least <= value) - 1
}

/// The symbols of every match length and distance, so that none is searched twice.
struct Symbols {
    lengths: [u8; MOST + 1],
    /// By distance minus one; the larger ones follow by its 128th part.
    distances: [u8; 512],
}

impl Symbols {
    fn new() -> Symbols {
        let mut symbols = Symbols {
            lengths: [0; MOST + 1],
            distances: [0; 512],
        };
        for length in LEAST..=MOST {
            symbols.lengths[length] = symbol_of(&LENGTHS, length as u16) as u8;
        }
        for index in 0..256u16 {
            let slot = usize::from(index);
            symbols.distances[slot] = symbol_of(&DISTANCES, index + 1) as u8;
            symbols.distances[256 + slot] = symbol_of(&DISTANCES, index * 128 + 1) as u8;
        }
        symbols
    }

    fn length(&self, length: u16) -> usize {
        self.lengths[usize::from(length)].into()
    }

    fn distance(&self, distance: u16) -> usize {
        let index = usize::from(distance - 1);
        let slot = if index < 256 {
            index
        } else {
            256 + index / 128
        };
        self.distances[slot].into()
    }
}

/// Writes a block in the shortest of the three ways.
fn write_block(bits: &mut Bits, tokens: &[Token], data: &[u8], last: bool) {
    let symbols = Symbols::new();
    let (literals, distances) = count(&symbols, tokens);
    let own = [
        Code::new(code_lengths(&literals, 15)),
        Code::new(code_lengths(&distances, 15)),
    ];
    let fixed = fixed_codes();
    let head = Head::new(&own);
    let cost = |codes: &[Code; 2]| codes[0].cost(&literals) + codes[1].cost(&distances);
    let (own_cost, fixed_cost) = (head.cost() + cost(&own), cost(&fixed));
    // Five bytes a stored part.
    let stored_cost = 8 * (data.len() + 5 * data.len().div_ceil(STORED).max(1));
    if stored_cost < own_cost.min(fixed_cost) {
        write_stored(bits, data, last);
    } else if fixed_cost <= own_cost {
        bits.put(u32::from(last) | 1 << 1, 3);
        write_tokens(bits, &symbols, &fixed, tokens);
    } else {
        bits.put(u32::from(last) | 2 << 1, 3);
        head.write(bits);
        write_tokens(bits, &symbols, &own, tokens);
    }
}

/// How often every literal or length symbol and every distance symbol occurs.
fn count(symbols: &Symbols, tokens: &[Token]) -> ([u32; 286], [u32; 30]) {
    let (mut literals, mut distances) = ([0; 286], [0; 30]);
    for token in tokens {
        if token.distance == 0 {
            literals[usize::from(token.value)] += 1;
        } else {
            literals[END + 1 + symbols.length(token.value)] += 1;
            distances[symbols.distance(token.distance)] += 1;
        }
    }
    literals[END] = 1;
    (literals, distances)
}

/// The codes that need no description.
fn fixed_codes() -> [Code; 2] {
    [Code::new(fixed_lengths()), Code::new(vec![5; 30])]
}

/// The lengths of the fixed code of literals and lengths.
pub fn fixed_lengths() -> Vec<u8> {
    let mut lengths = vec![8; 288];
    lengths[144..256].fill(9);
    lengths[256..280].fill(7);
    lengths
}

fn write_tokens(bits: &mut Bits, symbols: &Symbols, codes: &[Code; 2], tokens: &[Token]) {
    for token in tokens {
        if token.distance == 0 {
            codes[0].put(bits, token.value.into());
            continue;
        }
        let symbol = symbols.length(token.value);
        let (least, extra) = LENGTHS[symbol];
        codes[0].put(bits, END + 1 + symbol);
        bits.put((token.value - least).into(), extra.into());
        let symbol = symbols.distance(token.distance);
        let (least, extra) = DISTANCES[symbol];
        codes[1].put(bits, symbol);
        bits.put((token.distance - least).into(), extra.into());
    }
    codes[0].put(bits, END);
}

/// The most bytes of one stored part.
const STORED: usize = 65535;

fn write_stored(bits: &mut Bits, data: &[u8], last: bool) {
    let parts = data.chunks(STORED);
    let count = parts.len();
    for (index, part) in parts.enumerate() {
        bits.put(u32::from(last && index + 1 == count), 3);
        bits.align();
        let size = part.len() as u16;
        bits.bytes.extend(size.to_le_bytes());
        bits.bytes.extend((!size).to_le_bytes());
        bits.bytes.extend(part);
    }
}

/// The description of two codes at the start of a block.
struct Head {
    /// How many lengths the two codes name.
    named: [usize; 2],
    /// The lengths of both codes as run symbols: symbol, extra value, extra bits.
    runs: Vec<(usize, u32, u32)>,
    code: Code,
    /// How many lengths the code of the runs names.
    listed: usize,
}

impl Head {
    fn new(codes: &[Code; 2]) -> Head {
        let named = [0, 1].map(|index| {
            let used = codes[index].lengths.iter().rposition(|&length| length > 0);
            used.map_or(1, |last| last + 1)
        });
        let mut lengths = codes[0].lengths[..named[0]].to_vec();
        lengths.extend(&codes[1].lengths[..named[1]]);
        let runs = runs(&lengths);
        let mut counts = [0; 19];
        for &(symbol, ..) in &runs {
            counts[symbol] += 1;
        }
        let code = Code::new(code_lengths(&counts, 7));
        let used = ORDER.iter().rposition(|&symbol| code.lengths[symbol] > 0);
        Head {
            named,
            runs,
            code,
            listed: used.map_or(4, |last| (last + 1).max(4)),
        }
    }

    fn cost(&self) -> usize {
        let each = self.runs.iter();
        let runs =
            each.map(|&(symbol, _, bits)| usize::from(self.code.lengths[symbol]) + bits as usize);
        14 + 3 * self.listed + runs.sum::<usize>()
    }

    fn write(&self, bits: &mut Bits) {
        bits.put(self.named[0] as u32 - 257, 5);
        bits.put(self.named[1] as u32 - 1, 5);
        bits.put(self.listed as u32 - 4, 4);
        for &symbol in &ORDER[..self.listed] {
            bits.put(self.code.lengths[symbol].into(), 3);
        }
        for &(symbol, value, extra) in &self.runs {
            self.code.put(bits, symbol);
            bits.put(value, extra);
        }
    }
}

/// Code lengths as run symbols: 16 repeats the length before, 17 and 18 are runs of zeros.
fn runs(lengths: &[u8]) -> Vec<(usize, u32, u32)> {
    let mut runs = Vec::new();
    for same in lengths.chunk_by(|one, other| one == other) {
        let (length, mut left) = (usize::from(same[0]), same.len());
        while left > 0 {
            let (symbol, part, least, extra) = match (length, left) {
                (0, 11..) => (18, left.min(138), 11, 7),
                (0, 3..) => (17, left, 3, 3),
                (1.., 3..) if left < same.len() => (16, left.min(6), 3, 2),
                _ => (length, 1, 1, 0),
            };
            runs.push((symbol, (part - least) as u32, extra));
            left -= part;
        }
    }
    runs
}

#[cfg(test)]
mod tests {
    use super::*;

    #[test]
    fn ranges_are_those_of_the_standard() {
        assert_eq!(LENGTHS[7..10], [(10, 0), (11, 1), (13, 1)]);
        assert_eq!(LENGTHS[26..], [(195, 5), (227, 5), (258, 0)]);
        assert_eq!(DISTANCES[3..6], [(4, 0), (5, 1), (7, 1)]);
        assert_eq!(DISTANCES[28..], [(16385, 13), (24577, 13)]);
    }

    #[test]
    fn checksum_of_known_bytes() {
        assert_eq!(adler32(b""), 1);
        assert_eq!(adler32(b"Wikipedia"), 0x11e6_0398);
    }

    #[test]
    fn small_streams_are_fixed_or_stored() {
        // The same bytes as python3's zlib.compress(b"") and of three equal letters.
        assert_eq!(zlib(b""), [0x78, 0x9c, 3, 0, 0, 0, 0, 1]);
        assert_eq!(
            zlib(b"aaa"),
            [0x78, 0x9c, 0x4b, 0x4c, 0x4c, 4, 0, 2, 0x49, 1, 0x24]
        );
    }

    #[test]
    fn lengths_keep_their_limit_and_fill_the_code() {
        // Fibonacci counts would need as many bits as there are symbols.
        let mut counts = vec![1u32, 1];
        for index in 2..40 {
            counts.push(counts[index - 1] + counts[index - 2]);
        }
        for limit in [6, 7, 15] {
            let lengths = code_lengths(&counts, limit);
            assert!(lengths
                .iter()
                .all(|&length| (1..=limit as u8).contains(&length)));
            let filled: u32 = lengths
                .iter()
                .map(|&length| 1 << (limit as u8 - length))
                .sum();
            assert_eq!(filled, 1 << limit);
        }
    }

    #[test]
    fn repeated_bytes_shrink() {
        assert!(zlib(&vec![7; 1_000_000]).len() < 1100);
        let text = b"a strip of a background, ".repeat(1000);
        assert!(zlib(&text).len() < 250);
    }
}
