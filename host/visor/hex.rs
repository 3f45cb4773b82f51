//! Bytes out of text: hex as people have it in logs and mails. Read are the forms of xxd (and its
//! -p and -i), `hexdump -C`, `od -A x -t x1`, gdb's `x/40xb`, `\x`, `0x..,` and bare digits. Text
//! that could be read in two ways is refused: a wrong byte is worse than none.

/// No dump of objects or records repeats more bytes by `*`.
const REPEATED: u64 = 1 << 20;

/// The bytes of a text. What is wrong with it is said with its name, line and column.
pub fn bytes(name: &str, text: &str) -> Result<Vec<u8>, String> {
    let text = inside_braces(text.trim_start_matches('\u{feff}'));
    let mut dump = Dump::default();
    for (number, line) in (1..).zip(text.split('\n')) {
        dump.line(Cursor::new(number, line))
            .map_err(|wrong| wrong.told(name))?;
    }
    let bytes = dump.finish().map_err(|wrong| wrong.told(name))?;
    if bytes.is_empty() {
        return Err(format!("{name}: there are no hex digits in it"));
    }
    Ok(bytes)
}

/// Of an array in C the part between its braces; all else becomes blanks, so that lines and columns
/// stay. A brace further inside a text is one of an ASCII column.
fn inside_braces(text: &str) -> String {
    let Some(open) = text.find('{') else {
        return text.to_string();
    };
    let before = text[..open].trim();
    if !before.is_empty() && !before.ends_with('=') {
        return text.to_string();
    }
    let close = text.rfind('}').filter(|close| *close > open);
    let inside = open + 1..close.unwrap_or(text.len());
    let keep = |(at, letter): (usize, char)| match letter {
        '\n' => '\n',
        _ if inside.contains(&at) => letter,
        _ => ' ',
    };
    text.char_indices().map(keep).collect()
}

/// A line and a column, from 1, in characters.
#[derive(Clone, Copy, Debug, PartialEq, Eq)]
struct Place {
    line: usize,
    column: usize,
}

impl Place {
    fn wrong<T>(self, said: impl Into<String>) -> Result<T, Wrong> {
        Err(Wrong {
            place: self,
            said: said.into(),
        })
    }
}

#[derive(Debug)]
struct Wrong {
    place: Place,
    said: String,
}

impl Wrong {
    fn told(&self, name: &str) -> String {
        let Place { line, column } = self.place;
        format!("{name}:{line}:{column}: {}", self.said)
    }
}

/// What is left of a line.
#[derive(Clone, Copy)]
struct Cursor<'a> {
    rest: &'a str,
    place: Place,
}

impl<'a> Cursor<'a> {
    fn new(line: usize, text: &'a str) -> Cursor<'a> {
        Cursor {
            rest: text,
            place: Place { line, column: 1 },
        }
    }

    fn next(&self) -> Option<char> {
        self.rest.chars().next()
    }

    fn take_while(&mut self, wanted: impl Fn(char) -> bool) -> &'a str {
        let end = self.rest.find(|letter| !wanted(letter));
        self.take(end.unwrap_or(self.rest.len()))
    }

    /// So many bytes, which end between two characters.
    fn take(&mut self, bytes: usize) -> &'a str {
        let (taken, rest) = self.rest.split_at(bytes);
        self.place.column += taken.chars().count();
        self.rest = rest;
        taken
    }

    fn digits(&mut self) -> &'a str {
        self.take_while(|letter| letter.is_ascii_hexdigit())
    }

    fn blanks(&mut self) -> usize {
        self.take_while(char::is_whitespace).chars().count()
    }

    /// Whether a word ends here.
    fn at_blank(&self) -> bool {
        self.next().is_none_or(char::is_whitespace)
    }

    fn take_prefix(&mut self, prefixes: &[&str]) -> bool {
        let found = prefixes
            .iter()
            .find(|prefix| self.rest.starts_with(**prefix));
        if let Some(prefix) = found {
            self.take(prefix.len());
        }
        found.is_some()
    }
}

/// How the bytes of a line stand.
#[derive(Clone, Copy, Debug, PartialEq, Eq)]
enum Layout {
    /// No offset: digits in any groups.
    Bare,
    /// xxd: after an offset with a colon, up to two blanks.
    Groups,
    /// hexdump -C: after an offset without a colon, pairs up to a bar or a wide gap.
    Pairs,
    /// gdb: after an address with a colon, each with its 0x.
    Prefixed,
}

impl Layout {
    /// Neither colons nor dashes: they would make bytes of the times and dates of a log.
    fn separates(self, letter: char) -> bool {
        letter.is_whitespace() || self == Layout::Bare && ",;\"'{}[]()".contains(letter)
    }

    /// What may stand behind so many bytes of a line: a letter for each, some between bars.
    fn letters(self, bytes: usize) -> usize {
        match self {
            Layout::Pairs => bytes + 2,
            _ => bytes,
        }
    }

    /// Whether the bytes of a line end at this gap, which is so wide.
    fn ends(self, gap: usize, next: Option<char>) -> bool {
        match self {
            Layout::Bare | Layout::Prefixed => false,
            Layout::Groups => gap >= 2,
            Layout::Pairs => gap >= 3 || next.is_some_and(|letter| "|>".contains(letter)),
        }
    }
}

/// What stands before the bytes of a line.
struct Head {
    offset: u64,
    layout: Layout,
}

/// The bytes of the lines so far.
#[derive(Default)]
struct Dump {
    bytes: Vec<u8>,
    /// The digits of all bytes, also of those after an odd run.
    digits: usize,
    odd: Option<Place>,
    /// Whether lines begin with offsets, once one has shown it.
    offsets: Option<bool>,
    /// The offset that the next line has, and the bytes of the line before.
    next: u64,
    before: usize,
    /// Where a `*` repeats the line before.
    star: Option<Place>,
}

impl Dump {
    fn line(&mut self, mut cursor: Cursor) -> Result<(), Wrong> {
        cursor.blanks();
        let prompts = ["(gdb)", "(lldb)", "$ "];
        let prompt = prompts.iter().any(|prompt| cursor.rest.starts_with(prompt));
        if cursor.rest.is_empty() || prompt {
            return Ok(());
        }
        if cursor.rest.trim_end() == "*" && self.offsets == Some(true) {
            self.star = Some(cursor.place);
            return Ok(());
        }
        let place = cursor.place;
        let head = head(&mut cursor, self.offsets == Some(true))?;
        match (self.offsets, &head) {
            (Some(false), Some(_)) => {
                return place.wrong("this line begins with an offset, and those before have none")
            }
            (Some(true), None) => {
                return place.wrong("the lines before begin with offsets, and this one has none")
            }
            _ => self.offsets = Some(head.is_some()),
        }
        if let Some(head) = &head {
            self.go_on(head.offset, place)?;
        }
        let layout = head.map_or(Layout::Bare, |head| head.layout);
        self.data(&mut cursor, layout)
    }

    /// Offsets go on from the first one.
    fn go_on(&mut self, offset: u64, place: Place) -> Result<(), Wrong> {
        if self.digits == 0 {
            self.next = offset;
        }
        if self.star.take().is_some() {
            self.repeat(offset, place)?;
        }
        // After an odd run the bytes are counted wrong, which is said at the end.
        if offset == self.next || self.odd.is_some() {
            return Ok(());
        }
        let how = if offset > self.next {
            "missing before this line"
        } else {
            "there twice"
        };
        let next = self.next;
        place.wrong(format!(
            "bytes are {how}: its offset is {offset:#x}, and {next:#x} would be next"
        ))
    }

    /// The line before again and again, up to the offset.
    fn repeat(&mut self, offset: u64, place: Place) -> Result<(), Wrong> {
        let (count, line) = (offset.wrapping_sub(self.next), self.before as u64);
        if count > REPEATED || line == 0 || count % line != 0 {
            return place.wrong("the `*` before it repeats no whole number of lines");
        }
        for _ in 0..count / line {
            let from = self.bytes.len() - self.before;
            self.bytes.extend_from_within(from..);
        }
        self.digits += 2 * count as usize;
        self.next = offset;
        Ok(())
    }

    fn data(&mut self, cursor: &mut Cursor, layout: Layout) -> Result<(), Wrong> {
        let (before, digits) = (self.bytes.len(), self.digits);
        loop {
            let separators = cursor.take_while(|letter| layout.separates(letter));
            let ends = layout.ends(separators.chars().count(), cursor.next());
            if cursor.rest.is_empty() || (self.digits > digits && ends) {
                break;
            }
            self.token(cursor, layout)?;
        }
        self.before = self.bytes.len() - before;
        self.next = self.next.wrapping_add(self.before as u64);
        let letters = cursor.rest.trim_end().chars().count();
        if letters > layout.letters(self.before) && self.odd.is_none() {
            let said = "behind this gap there is more than a letter for each byte before it";
            return cursor.place.wrong(said);
        }
        Ok(())
    }

    fn token(&mut self, cursor: &mut Cursor, layout: Layout) -> Result<(), Wrong> {
        let place = cursor.place;
        if cursor.take_prefix(&["0x", "0X"]) {
            return self.prefixed(cursor.digits(), place);
        }
        if cursor.take_prefix(&["\\x", "\\X"]) {
            let run = cursor.digits();
            if run.len() != 2 {
                return place.wrong("\\x wants two hex digits");
            }
            self.push(run);
            return Ok(());
        }
        // Python's bytes begin with b and a quote.
        if layout == Layout::Bare && ["b'", "b\""].iter().any(|b| cursor.rest.starts_with(b)) {
            cursor.take(1);
            return Ok(());
        }
        let run = cursor.digits();
        match (run.len(), layout) {
            (0, _) => {
                let letter = cursor.next().unwrap_or(' ');
                place.wrong(format!("{letter:?} is no hex digit"))
            }
            (_, Layout::Prefixed) => place.wrong("each byte after such an address begins with 0x"),
            (8 | 16, Layout::Groups) => place.wrong(
                "groups of 8 digits may be words whose bytes are swapped, as xxd -e prints them; \
                 use xxd alone",
            ),
            (3.., Layout::Pairs) => place.wrong("each byte after such an offset is two hex digits"),
            _ => {
                self.run(run, place);
                Ok(())
            }
        }
    }

    /// The digits after a 0x: a byte, or so many that they are no word.
    fn prefixed(&mut self, run: &str, place: Place) -> Result<(), Wrong> {
        match run.len() {
            0 => place.wrong("0x wants hex digits"),
            1 => {
                self.push(&format!("0{run}"));
                Ok(())
            }
            3..=16 => place.wrong(format!(
                "0x{run} is a word whose byte order is unknown; print single bytes, as gdb's \
                 x/40xb does"
            )),
            _ => {
                self.run(run, place);
                Ok(())
            }
        }
    }

    fn run(&mut self, run: &str, place: Place) {
        if run.len() % 2 != 0 {
            self.odd = self.odd.or(Some(place));
            self.digits += run.len();
        } else {
            self.push(run);
        }
    }

    /// An even number of digits.
    fn push(&mut self, run: &str) {
        let value = |digit: u8| char::from(digit).to_digit(16).unwrap_or(0) as u8;
        let pairs = run.as_bytes().chunks_exact(2);
        self.digits += run.len();
        self.bytes
            .extend(pairs.map(|pair| value(pair[0]) << 4 | value(pair[1])));
    }

    fn finish(self) -> Result<Vec<u8>, Wrong> {
        if let Some(place) = self.odd {
            let whole = self.digits / 2;
            return place.wrong(format!(
                "odd number of hex digits; an object needs 40 bytes, got {whole}"
            ));
        }
        match self.star {
            Some(place) => place.wrong("`*` repeats a line, and no offset says how often"),
            None => Ok(self.bytes),
        }
    }
}

/// The offset that a line begins with, if it does; the cursor goes behind it.
fn head(cursor: &mut Cursor, offsets: bool) -> Result<Option<Head>, Wrong> {
    let (place, mut ahead) = (cursor.place, *cursor);
    let prefixed = ahead.take_prefix(&["0x", "0X"]);
    let digits = ahead.digits();
    if digits.is_empty() {
        return Ok(None);
    }
    if digits.len() == 7 && !prefixed && ahead.at_blank() {
        return place.wrong(
            "an offset of seven digits: hexdump without -C and od print words whose bytes may be \
             swapped; use hexdump -C or xxd",
        );
    }
    let layout = match colon(&mut ahead, prefixed) {
        true if prefixed && begins_prefixed(ahead) => Layout::Prefixed,
        true => Layout::Groups,
        false if !prefixed && (alone(ahead, digits) && offsets || before_pair(ahead, digits)) => {
            Layout::Pairs
        }
        false => return Ok(None),
    };
    let Ok(offset) = u64::from_str_radix(digits, 16) else {
        return place.wrong("the offset has more than 16 digits");
    };
    *cursor = ahead;
    Ok(Some(Head { offset, layout }))
}

/// Goes behind the colon of an offset, or behind gdb's `<name+8>:`.
fn colon(ahead: &mut Cursor, prefixed: bool) -> bool {
    let mut past = *ahead;
    past.blanks();
    if prefixed && past.rest.starts_with('<') {
        // A name in C++ may have `>:` inside.
        let ends = |end: &usize| {
            past.rest[end + 2..]
                .chars()
                .next()
                .is_none_or(char::is_whitespace)
        };
        let mut found = past.rest.match_indices(">:").map(|(end, _)| end);
        if let Some(end) = found.find(ends) {
            past.take(end + 1);
            *ahead = past;
        }
    }
    let mut past = *ahead;
    let found = past.take_prefix(&[":"]) && past.at_blank();
    if found {
        *ahead = past;
    }
    found
}

fn begins_prefixed(mut ahead: Cursor) -> bool {
    ahead.blanks();
    ahead.take_prefix(&["0x", "0X"])
}

/// Whether the digits are all of a line: the last one of hexdump -C, which is only an offset.
fn alone(mut ahead: Cursor, digits: &str) -> bool {
    ahead.blanks();
    ahead.rest.is_empty() && digits.len() >= 6
}

/// Whether the digits stand before a pair as an offset does, and not as bare digits would.
fn before_pair(mut ahead: Cursor, digits: &str) -> bool {
    let gap = ahead.blanks();
    let pair = ahead.digits().len() == 2 && ahead.at_blank();
    pair && (digits.len() >= 4 && gap >= 2 || digits.len() >= 6 && gap == 1)
}

#[cfg(test)]
mod tests {
    use super::*;

    const TEXT: &str = "0000050000000500000003c0000003c000000000fff40002";

    fn wanted() -> Vec<u8> {
        bytes("", TEXT).unwrap()
    }

    fn wrong(text: &str) -> String {
        bytes("log.txt", text).unwrap_err()
    }

    #[test]
    fn bare_digits_in_any_groups() {
        assert_eq!(wanted().len(), 24);
        assert_eq!(wanted()[10..13], [3, 0xc0, 0]);
        let pairs: Vec<&str> = TEXT
            .as_bytes()
            .chunks(2)
            .map(|p| std::str::from_utf8(p).unwrap())
            .collect();
        for between in [" ", "\n", "\r\n", "\t", ", ", ",", ";", "\u{a0}"] {
            assert_eq!(bytes("", &pairs.join(between)), Ok(wanted()), "{between:?}");
        }
        let words = format!("{} {}\n\n  {}", &TEXT[..8], &TEXT[8..30], &TEXT[30..]);
        assert_eq!(bytes("", &words), Ok(wanted()));
        assert_eq!(bytes("", &TEXT.to_uppercase()), Ok(wanted()));
        assert_eq!(bytes("", &format!("\u{feff}0x{TEXT}")), Ok(wanted()));
    }

    #[test]
    fn dumps_with_offsets() {
        let xxd = "00000000: 0000 0500 0000 0500 0000 03c0 0000 03c0  ......{...ab cd.\n\
                   00000010: 0000 0000 fff4 0002                      ........\n";
        assert_eq!(bytes("", xxd), Ok(wanted()));
        let canonical =
            "00000000  00 00 05 00 00 00 05 00  00 00 03 c0 00 00 03 c0  |00 11|.>|\r\n\
                         00000010  00 00 00 00 ff f4 00 02                           |........|\r\n\
                         00000018\r\n";
        assert_eq!(bytes("", canonical), Ok(wanted()));
        let od = "000000 00 00 05 00 00 00 05 00 00 00 03 c0 00 00 03 c0  >................<\n\
                  000010 00 00 00 00 ff f4 00 02                          >........<\n000018\n";
        assert_eq!(bytes("", od), Ok(wanted()));
        let gdb = "(gdb) x/24xb &bg\n\
                   0x7ffd10 <a<b>::bg>:\t0x00\t0x00\t0x05\t0x00\t0x00\t0x00\t0x05\t0x00\n\
                   0x7ffd18 <a<b>::bg+8>:\t0x00\t0x00\t0x03\t0xc0\t0x00\t0x00\t0x03\t0xc0\n\
                   0x7ffd20:\t0x00\t0x00\t0x00\t0x00\t0xff\t0xf4\t0x00\t0x02\n";
        assert_eq!(bytes("", gdb), Ok(wanted()));
        let lldb = "(lldb) memory read &bg\n\
                    0x100: 00 00 05 00 00 00 05 00 00 00 03 c0 00 00 03 c0  ................\n\
                    0x110: 00 00 00 00 ff f4 00 02                          ........\n";
        assert_eq!(bytes("", lldb), Ok(wanted()));
    }

    #[test]
    fn arrays_and_escapes() {
        let pairs = || {
            TEXT.as_bytes()
                .chunks(2)
                .map(|p| std::str::from_utf8(p).unwrap())
        };
        let escaped: String = pairs().map(|pair| format!("\\x{pair}")).collect();
        for text in [
            escaped.clone(),
            format!("\"{escaped}\";"),
            format!("b'{escaped}'"),
        ] {
            assert_eq!(bytes("", &text), Ok(wanted()), "{text}");
        }
        let list: String = pairs().map(|pair| format!("0x{pair}, ")).collect();
        let array =
            format!("unsigned char bad[] = {{\n  {list}\n}};\nunsigned int bad_len = 24;\n");
        for text in [list.clone(), format!("{{{list}}}"), array] {
            assert_eq!(bytes("", &text), Ok(wanted()), "{text}");
        }
        assert_eq!(bytes("", "0x0, 0x5"), Ok(vec![0, 5]));
    }

    #[test]
    fn a_star_repeats_the_line_before() {
        let zeros =
            "00000000  00 00 00 00 00 00 00 00  00 00 00 00 00 00 00 00  |................|\n";
        assert_eq!(bytes("", &format!("{zeros}*\n00000040\n")), Ok(vec![0; 64]));
        assert_eq!(
            wrong(&format!("{zeros}*\n")),
            "log.txt:2:1: `*` repeats a line, and no offset says how often"
        );
        for end in ["00000041", "ffffffff0", "00000008"] {
            let said = wrong(&format!("{zeros}*\n{end}\n"));
            assert_eq!(
                said,
                "log.txt:3:1: the `*` before it repeats no whole number of lines"
            );
        }
    }

    #[test]
    fn bad_digits_have_their_place() {
        assert_eq!(
            wrong("0000\n00\n0000 0000 0000 00g0"),
            "log.txt:3:18: 'g' is no hex digit"
        );
        assert_eq!(wrong("00 é0"), "log.txt:1:4: 'é' is no hex digit");
        assert_eq!(wrong("0000 \0"), "log.txt:1:6: '\\0' is no hex digit");
        assert_eq!(wrong(" \n\t"), "log.txt: there are no hex digits in it");
        assert_eq!(wrong("\\x0"), "log.txt:1:1: \\x wants two hex digits");
        assert_eq!(wrong("\\x00A"), "log.txt:1:1: \\x wants two hex digits");
        assert_eq!(wrong("0x"), "log.txt:1:1: 0x wants hex digits");
        assert_eq!(wrong("02:24:59 0000"), "log.txt:1:3: ':' is no hex digit");
        assert_eq!(wrong("2026-11-18 0000"), "log.txt:1:5: '-' is no hex digit");
        assert_eq!(wrong(":10000000"), "log.txt:1:1: ':' is no hex digit");
    }

    #[test]
    fn odd_digits_have_their_place_and_the_bytes_that_there_are() {
        let line = "00000000: 0000 0500 0000 0500 0000 03c0 0000 03c0  ................\n";
        let second = line.replace("00000000:", "00000010:");
        let third = "00000020: 0 0000 0000\n";
        assert_eq!(
            wrong(&[line, &second, third].concat()),
            "log.txt:3:11: odd number of hex digits; an object needs 40 bytes, got 36"
        );
        let alone = "00000000: 0  .\n";
        assert!(wrong(alone).starts_with("log.txt:1:11: odd number of hex digits;"));
        // The offset after an odd run says nothing.
        let short = line.replace("0500 ", "050 ");
        let said = wrong(&[&short, &second[..]].concat());
        assert_eq!(
            said,
            "log.txt:1:16: odd number of hex digits; an object needs 40 bytes, got 31"
        );
    }

    #[test]
    fn what_could_be_misread_is_refused() {
        let line = "00000000: 0000 0500 0000 0500 0000 03c0 0000 03c0  ................\n";
        let later = line.replace("00000000:", "00000020:");
        assert_eq!(
            wrong(&[line, &later].concat()),
            "log.txt:2:1: bytes are missing before this line: its offset is 0x20, and 0x10 would \
             be next"
        );
        assert!(wrong(&[line, line].concat()).contains("bytes are there twice"));
        assert!(wrong(&[line, "0000\n"].concat()).contains("this one has none"));
        assert!(wrong(&["0000\n", line].concat()).contains("those before have none"));
        assert!(wrong("0000000 0000 0005 0000\n0000006\n").contains("hexdump -C"));
        assert!(wrong("0000000 00 00 05 00\n0000004\n").contains("hexdump -C"));
        assert!(wrong("0x4020:\t0x00050000\t0x00000000\n").contains("x/40xb"));
        assert!(wrong("0x4020:\t0x00\t64\n").contains("begins with 0x"));
        assert!(wrong("00000000  00 00  abcd\n").contains("two hex digits"));
        for torn in [
            "00000000: 0000  0500  ....\n",
            "00000000  00 00   05 00  |....|\n",
        ] {
            assert!(
                wrong(torn).contains("more than a letter for each byte"),
                "{torn}"
            );
        }
        assert!(wrong("00000000: 00050000 00000000  ........\n").contains("xxd -e"));
        assert!(wrong("f0000000000000000: 00").contains("16 digits"));
    }

    /// Pieces of all forms in a random order never end in anything but bytes or a sentence.
    #[test]
    fn any_text_is_answered() {
        let pieces = [
            "0",
            "00",
            "0000050",
            "00000000",
            "00000010:",
            "0x",
            "0x00",
            "\\x",
            "\\x05",
            ":",
            "*",
            "|",
            ">",
            "<",
            "{",
            "}",
            "=",
            " ",
            "  ",
            "   ",
            "\t",
            "\n",
            "\n",
            "\r\n",
            ",",
            "g",
            "é",
            "\u{0}",
            "\u{2028}",
            "b'",
            "(gdb)",
            "$ ",
            "0x7ffd <bg+8>:",
            "ffffffffffffffff:",
            "-",
        ];
        let mut random = crate::fuzz::Random::new(7);
        for _ in 0..20_000 {
            let count = random.below(40);
            let text: String = (0..count)
                .map(|_| pieces[random.below(pieces.len())])
                .collect();
            if let Err(said) = bytes("log.txt", &text) {
                assert!(said.starts_with("log.txt:"), "{text:?}: {said}");
            }
        }
    }
}
