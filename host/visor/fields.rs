//! The names of the numbers: the fields of an object, of a request and of a plan's entries, with
//! their places and units. All commands take them from here.

use visorlongan::Mode;

/// What one step of a stored number is (1.6).
#[derive(Clone, Copy, Debug, PartialEq, Eq)]
pub enum Measure {
    /// 1/4 of a texel.
    TexelQuarters,
    /// 1/4 of a pixel.
    PixelQuarters,
    /// 1/32 of a texel.
    ThirtySeconds,
    /// 1/1,024 of a texel for each pixel.
    Scale,
    /// Whole pixels.
    Pixels,
    /// A plain number.
    Number,
    /// A pattern of bits or an address, written in hex.
    Bits,
}

impl Measure {
    /// The unit; nothing where the number has none.
    pub const fn unit(self) -> &'static str {
        match self {
            Measure::TexelQuarters => "1/4 texel",
            Measure::PixelQuarters => "1/4 pixel",
            Measure::ThirtySeconds => "1/32 texel",
            Measure::Scale => "1/1,024",
            Measure::Pixels => "pixels",
            Measure::Number | Measure::Bits => "",
        }
    }
}

/// A field of stored bytes, big-endian.
#[derive(Debug)]
pub struct Field {
    pub name: &'static str,
    pub offset: usize,
    pub bytes: usize,
    pub signed: bool,
    pub measure: Measure,
    pub meaning: &'static str,
}

impl Field {
    const fn new(
        name: &'static str,
        offset: usize,
        bytes: usize,
        measure: Measure,
        meaning: &'static str,
    ) -> Field {
        Field {
            name,
            offset,
            bytes,
            signed: false,
            measure,
            meaning,
        }
    }

    const fn signed(mut self) -> Field {
        self.signed = true;
        self
    }

    /// The number that the bytes store, as it is written; none where they are too few.
    pub fn stored(&self, bytes: &[u8]) -> Option<String> {
        let bytes = bytes.get(self.offset..self.offset + self.bytes)?;
        let number = bytes
            .iter()
            .fold(0, |sum, byte| sum << 8 | u64::from(*byte));
        let unused = 64 - 8 * self.bytes as u32;
        Some(match self.measure {
            Measure::Bits => format!("0x{number:0width$x}", width = 2 * self.bytes),
            _ if self.signed => ((number << unused) as i64 >> unused).to_string(),
            _ => number.to_string(),
        })
    }
}

use Measure::{Bits, Number, PixelQuarters, Pixels, Scale, TexelQuarters, ThirtySeconds};

/// The fields that both kinds of objects have (3.1).
const BOTH: &[Field] = &[
    Field::new(
        "image_x",
        0,
        2,
        ThirtySeconds,
        "left end of what is shown of the image",
    ),
    Field::new("image_w", 2, 2, TexelQuarters, "width of the image"),
    Field::new(
        "frame_x",
        4,
        2,
        PixelQuarters,
        "left edge of the frame on the screen",
    )
    .signed(),
    Field::new("frame_w", 6, 2, PixelQuarters, "width of the frame"),
    Field::new(
        "image_y",
        8,
        2,
        ThirtySeconds,
        "top of what is shown of the image",
    ),
    Field::new("image_h", 10, 2, TexelQuarters, "height of the image"),
    Field::new(
        "frame_y",
        12,
        2,
        PixelQuarters,
        "upper edge of the frame on the screen",
    )
    .signed(),
    Field::new("frame_h", 14, 2, PixelQuarters, "height of the frame"),
    Field::new(
        "image_ptr",
        16,
        4,
        Bits,
        "pointer to the image; plans do not use it",
    ),
    Field::new(
        "image_load",
        20,
        2,
        Bits,
        "0xfff4 loads by tile, 0x0033 by block",
    ),
    Field::new(
        "image_fmt",
        22,
        1,
        Number,
        "format: 0 RGBA, 1 YUV, 2 CI, 3 IA, 4 I",
    ),
    Field::new(
        "image_siz",
        23,
        1,
        Number,
        "size: 0 to 3 for texels of 4, 8, 16 and 32 bits",
    ),
    Field::new("image_pal", 24, 2, Number, "number of the palette"),
    Field::new("image_flip", 26, 2, Number, "bit 0 flips left and right"),
];

/// Those of a copy object alone (3.2).
const COPY: &[Field] = &[
    Field::new("tmem_w", 28, 2, Number, "plans do not use it"),
    Field::new("tmem_h", 30, 2, TexelQuarters, "greatest height of a strip"),
    Field::new(
        "tmem_load_sh",
        32,
        2,
        Number,
        "low half of tmem_h x tmem_size_w",
    ),
    Field::new("tmem_load_th", 34, 2, Number, "plans do not use it"),
    Field::new(
        "tmem_size_w",
        36,
        2,
        Number,
        "words of an image row, or those times 2",
    ),
    Field::new(
        "tmem_size",
        38,
        2,
        Number,
        "high half of tmem_h x tmem_size_w",
    ),
];

/// Those of a scaled object alone (3.3).
const SCALED: &[Field] = &[
    Field::new(
        "scale_w",
        28,
        2,
        Scale,
        "texels from pixel to pixel; 0 is read as 1",
    ),
    Field::new(
        "scale_h",
        30,
        2,
        Scale,
        "texels from line to line; 0 is read as 1",
    ),
    Field::new(
        "image_y_orig",
        32,
        4,
        ThirtySeconds,
        "where strips are counted from",
    )
    .signed(),
];

/// What a record has after the 40 bytes of its object; offsets are the record's (12.1).
pub const REQUEST: &[Field] = &[
    Field::new("ulx", 40, 2, Pixels, "left edge of the scissor"),
    Field::new("uly", 42, 2, Pixels, "upper edge of the scissor"),
    Field::new(
        "lrx",
        44,
        2,
        Pixels,
        "right edge of the scissor, the first column outside",
    ),
    Field::new(
        "lry",
        46,
        2,
        Pixels,
        "lower edge of the scissor, the first line outside",
    ),
    Field::new(
        "mode",
        48,
        4,
        Bits,
        "render mode; bit 3 is the bilinear filter",
    ),
    Field::new("opcode", 52, 1, Number, "9 scaled, 10 copy"),
    Field::new("address", 53, 8, Bits, "address of the image's first byte"),
];

/// The fields of an object, in their order.
pub fn of(mode: Mode) -> impl Iterator<Item = &'static Field> + Clone {
    let further = match mode {
        Mode::Copy => COPY,
        Mode::Scaled => SCALED,
    };
    BOTH.iter().chain(further)
}

/// The field of a name, in an object of either kind or in a record.
pub fn named(name: &str) -> Option<&'static Field> {
    let all = [BOTH, COPY, SCALED, REQUEST].into_iter().flatten();
    all.into_iter().find(|field| field.name == name)
}

/// The formats, each at its number.
const FORMATS: [&str; 5] = ["RGBA", "YUV", "CI", "IA", "I"];

/// The bits of a texel, each at its size.
const BITS: [u8; 4] = [4, 8, 16, 32];

/// What a format is called.
pub fn format_name(fmt: u8) -> String {
    let name = FORMATS.get(usize::from(fmt)).copied();
    name.map_or(format!("unknown format {fmt}"), str::to_string)
}

/// What texels are called, by their format and size.
pub fn texels(fmt: u8, siz: u8) -> String {
    [format_name(fmt), texel_bits(siz)].join(" ")
}

/// The names of all formats, in their order.
pub fn format_names() -> String {
    FORMATS.join(", ")
}

/// The format of a name, in letters of either case.
pub fn format_number(name: &str) -> Option<u64> {
    let place = FORMATS
        .iter()
        .position(|format| format.eq_ignore_ascii_case(name));
    place.map(|place| place as u64)
}

/// The bits of a texel, by its size.
pub fn texel_bits(siz: u8) -> String {
    let bits = BITS.get(usize::from(siz));
    bits.map_or(format!("unknown size {siz}"), |bits| format!("{bits} bits"))
}

/// The sizes by their bits, as the microcode's headers write them.
fn sizes() -> [String; 4] {
    BITS.map(|bits| format!("{bits}b"))
}

/// The names of all sizes, in their order.
pub fn size_names() -> String {
    sizes().join(", ")
}

/// The size of a name, in letters of either case.
pub fn size_number(name: &str) -> Option<u64> {
    let place = sizes()
        .iter()
        .position(|size| size.eq_ignore_ascii_case(name));
    place.map(|place| place as u64)
}

/// How a number of an entry is written.
#[derive(Clone, Copy, Debug, PartialEq, Eq)]
pub enum Form {
    Plain,
    /// Stored modulo 2^64.
    Signed,
    /// In hex, with all its 16 digits.
    Address,
}

/// A number of an entry.
#[derive(Debug)]
pub struct Part {
    pub name: &'static str,
    /// Nothing where the number has none.
    pub unit: &'static str,
    pub form: Form,
}

impl Part {
    /// The number in a word, as it is written.
    pub fn text(&self, word: u64) -> String {
        match self.form {
            Form::Plain => word.to_string(),
            Form::Signed => (word as i64).to_string(),
            Form::Address => address(word),
        }
    }
}

/// An address as it is written everywhere.
pub fn address(number: u64) -> String {
    format!("0x{number:016x}")
}

const fn plain(name: &'static str, unit: &'static str) -> Part {
    Part {
        name,
        unit,
        form: Form::Plain,
    }
}

const fn signed(name: &'static str, unit: &'static str) -> Part {
    Part {
        name,
        unit,
        form: Form::Signed,
    }
}

const fn place(name: &'static str) -> Part {
    Part {
        name,
        unit: "",
        form: Form::Address,
    }
}

/// A kind of entry: its name, and its numbers in the order of its words.
#[derive(Debug)]
pub struct EntryKind {
    pub name: &'static str,
    pub parts: &'static [Part],
}

/// The kinds of entries from 1 on (9.2 to 9.6).
const KINDS: &[EntryKind] = &[
    EntryKind {
        name: "image",
        parts: &[
            plain("fmt", ""),
            plain("siz", ""),
            plain("width", "columns less 1"),
            place("address"),
        ],
    },
    EntryKind {
        name: "tile",
        parts: &[
            plain("index", ""),
            plain("fmt", ""),
            plain("siz", ""),
            plain("line", "words of 8 bytes"),
            plain("tmem", "words of 8 bytes"),
            plain("palette", ""),
            plain("cms", ""),
            plain("cmt", ""),
            plain("masks", "bits"),
            plain("maskt", "bits"),
        ],
    },
    EntryKind {
        name: "size",
        parts: &[
            plain("index", ""),
            plain("uls", "1/4 texel"),
            plain("ult", "1/4 texel"),
            plain("lrs", "1/4 texel"),
            plain("lrt", "1/4 texel"),
        ],
    },
    EntryKind {
        name: "load",
        parts: &[
            plain("index", ""),
            plain("uls", "1/4 texel"),
            plain("ult", "1/4 texel"),
            plain("lrs", "1/4 texel"),
            plain("lrt", "1/4 texel"),
            plain("words", "words of 8 bytes"),
            plain("rows", ""),
            plain("stride", "bytes"),
            place("start"),
            plain("length", "bytes"),
        ],
    },
    EntryKind {
        name: "rect",
        parts: &[
            plain("tile", ""),
            plain("ulx", "1/4 pixel"),
            plain("uly", "1/4 pixel"),
            plain("lrx", "1/4 pixel"),
            plain("lry", "1/4 pixel"),
            signed("uls", "1/32 texel"),
            signed("ult", "1/32 texel"),
            signed("dsdx", "1/1,024 texel"),
            signed("dtdy", "1/1,024 texel"),
            plain("row", "row of the image"),
        ],
    },
];

/// The numbers of an end (10.1).
pub const END: &[Part] = &[
    plain("verdict", ""),
    plain("entries", ""),
    plain("rectangles", ""),
    plain("tile_words", "words of 8 bytes"),
];

/// All kinds of entries, in the order of their numbers.
pub fn kinds() -> impl Iterator<Item = &'static EntryKind> {
    KINDS.iter()
}

/// The kind of an entry, by its first word.
pub fn kind(number: u64) -> Option<&'static EntryKind> {
    let place = usize::try_from(number).ok()?.checked_sub(1)?;
    KINDS.get(place)
}

/// A number with its thousands set apart, as in 1,024.
pub fn grouped(number: impl Into<i128>) -> String {
    let number = number.into();
    let digits = number.unsigned_abs().to_string();
    let mut text = String::from(if number < 0 { "-" } else { "" });
    for (place, digit) in digits.char_indices() {
        if place > 0 && (digits.len() - place) % 3 == 0 {
            text.push(',');
        }
        text.push(digit);
    }
    text
}

/// A count and what is counted, one or more: "1 entry", "6 entries".
pub fn counted(number: u64, one: &str, more: &str) -> String {
    let what = if number == 1 { one } else { more };
    format!("{} {what}", grouped(number))
}

#[cfg(test)]
mod tests {
    use super::*;
    use visorlongan::{Entry, Kind, Object, Quarters, Record, ThirtySeconds};

    /// Each field begins where the one before ends, and the last ends the object.
    #[test]
    fn fields_leave_no_gap() {
        for mode in [Mode::Copy, Mode::Scaled] {
            let end = of(mode).fold(0, |end, field| {
                assert_eq!(field.offset, end, "{}", field.name);
                end + field.bytes
            });
            assert_eq!(end, mode.object_bytes());
        }
        let end = REQUEST.iter().fold(40, |end, field| {
            assert_eq!(field.offset, end, "{}", field.name);
            end + field.bytes
        });
        assert_eq!(end, Record::BYTES);
    }

    /// The places and signs are those by which the library's crate decodes an object.
    #[test]
    fn fields_are_the_crate_s() {
        let bytes: Vec<u8> = (0..40u8)
            .map(|n| n.wrapping_mul(5).wrapping_add(130))
            .collect();
        let object = Object::decode(&bytes, Mode::Scaled).unwrap();
        let stored = |name| named(name).unwrap().stored(&bytes).unwrap();
        assert_eq!(Quarters(stored("frame_x").parse().unwrap()), object.frame_x);
        assert_eq!(Quarters(stored("image_h").parse().unwrap()), object.image_h);
        assert_eq!(stored("image_ptr"), format!("0x{:08x}", object.image_ptr));
        assert_eq!(stored("image_siz"), object.image_siz.to_string());
        let Kind::Scaled { image_y_orig, .. } = object.kind else {
            panic!("a scaled object");
        };
        assert_eq!(
            ThirtySeconds(stored("image_y_orig").parse().unwrap()),
            image_y_orig
        );
        assert_eq!(named("scale_w").unwrap().stored(&bytes[..29]), None);
    }

    /// Every word that a kind names is one that the crate reads, and no other.
    #[test]
    fn entries_have_the_crate_s_words() {
        for (number, kind) in (1..).zip(kinds()) {
            assert_eq!(super::kind(number).unwrap().name, kind.name);
            for place in 1..visorlongan::ENTRY_WORDS {
                let mut words = [0; visorlongan::ENTRY_WORDS];
                words[0] = number;
                words[place] = 1;
                let read = Entry::from_words(&words, Mode::Copy).is_ok();
                assert_eq!(read, place <= kind.parts.len(), "{} {place}", kind.name);
            }
        }
        assert!(super::kind(0).is_none() && super::kind(6).is_none());
    }

    #[test]
    fn formats_and_sizes_by_name() {
        for number in 0..5 {
            let name = format_name(number);
            assert_eq!(format_number(&name), Some(number.into()));
            assert_eq!(format_number(&name.to_lowercase()), Some(number.into()));
        }
        for name in ["", "rgb", "rgba ", "0", "unknown format 5"] {
            assert_eq!(format_number(name), None);
        }
        let sizes = ["4b", "8B", "16b", "32b", "16", "64b", "b", ""].map(size_number);
        let wanted = [Some(0), Some(1), Some(2), Some(3), None, None, None, None];
        assert_eq!(sizes, wanted);
        assert_eq!(format_names(), "RGBA, YUV, CI, IA, I");
        assert_eq!(size_names(), "4b, 8b, 16b, 32b");
        assert_eq!(texels(3, 1), "IA 8 bits");
    }

    #[test]
    fn numbers_as_people_write_them() {
        let written = [0, 999, 1000, -1030, 5_232_646].map(grouped);
        assert_eq!(written, ["0", "999", "1,000", "-1,030", "5,232,646"]);
        assert_eq!(counted(1, "entry", "entries"), "1 entry");
        assert_eq!(counted(1046, "entry", "entries"), "1,046 entries");
        assert_eq!(format_name(2), "CI");
        assert_eq!(format_name(5), "unknown format 5");
        assert_eq!(
            [0, 3, 4].map(texel_bits),
            ["4 bits", "32 bits", "unknown size 4"]
        );
        assert_eq!(grouped(i64::MIN), "-9,223,372,036,854,775,808");
        assert_eq!(grouped(u64::MAX), "18,446,744,073,709,551,615");
    }
}
