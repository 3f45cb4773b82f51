//! A page for each verdict: when it comes, what it leaves, and what to look at. A new verdict is
//! one entry more, at its number.

use visorlongan::Verdict;

pub struct Page {
    pub verdict: Verdict,
    pub name: &'static str,
    /// Exactly when it comes, and the statement of docs/SPECIFICATION.md that says so.
    pub when: &'static str,
    pub statement: &'static str,
    pub left: &'static str,
    /// The fields to look at first, by name.
    pub look: &'static [&'static str],
    pub right: &'static str,
    /// A line for a shell in the folder of the worked cases, and what to see in its answer.
    pub example: &'static str,
    pub seen: &'static str,
}

const NOTHING: &str = "Nothing: there is no entry, and the tiles are as they were.";
const BEFORE: &str = "The entries before it stand, and the tiles are as after them.";

/// The pages, each at its verdict's number.
pub const ALL: &[Page] = &[
    Page {
        verdict: Verdict::Finished,
        name: "finished",
        when: "No other verdict came. A frame of which nothing is left to draw is finished too, \
               with no entries.",
        statement: "4.1, 4.6",
        left: "All entries of the plan.",
        look: &[
            "frame_x", "frame_w", "frame_y", "frame_h", "ulx", "uly", "lrx", "lry",
        ],
        right: "All is right. Where nothing is drawn all the same, the frame lies outside the \
                scissor or is less than a pixel wide or high.",
        example: "visor plan L.bin",
        seen: "6 entries that draw 16 by 2 pixels in one rectangle.",
    },
    Page {
        verdict: Verdict::Opcode,
        name: "opcode",
        when: "The opcode is neither 9 (scaled, gSPBgRect1Cyc) nor 10 (copy, gSPBgRectCopy). It \
               is looked at before anything else.",
        statement: "4.1",
        left: NOTHING,
        look: &["opcode"],
        right: "9 or 10. Another number at this place often means that the record is shifted, or \
                that the command was not one of a background.",
        example: "(head -c 52 L.bin; printf '\\013\\0\\0\\0\\0\\0\\0\\020\\0') | visor plan -",
        seen: "Case L with the opcode 11.",
    },
    Page {
        verdict: Verdict::Short,
        name: "short",
        when: "The object has fewer than 40 bytes and the opcode is 10, or fewer than 36 and it \
               is 9.",
        statement: "4.2",
        left: NOTHING,
        look: &["opcode"],
        right: "All 40 bytes of uObjBg, or all 36 of uObjScaleBg. A dump that ends too early lost \
                its last line; a host that sees this hands over too short a slice.",
        example: "head -c 39 L.bin | visor plan - --as copy",
        seen: "Case L without the last byte of its object.",
    },
    Page {
        verdict: Verdict::Scissor,
        name: "scissor",
        when: "An edge of the scissor is below 0 or above 1,023. That the right edge is right of \
               the left one is not asked.",
        statement: "4.3",
        left: NOTHING,
        look: &["ulx", "uly", "lrx", "lry"],
        right: "Whole pixels, as 0, 0, 320, 240. The machine's command has quarters of a pixel: \
                divide them by 4.",
        example: "visor plan L.bin --scissor 0,0,1280,960",
        seen: "Case L with a scissor in quarters of a pixel.",
    },
    Page {
        verdict: Verdict::Object,
        name: "object",
        when: "At least one of image_w, image_h, frame_w and frame_h is 0, or image_siz is above \
               3, or image_fmt is above 4, or image_load is neither 0x0033 nor 0xfff4.",
        statement: "4.4",
        left: NOTHING,
        look: &[
            "image_w",
            "frame_w",
            "image_h",
            "frame_h",
            "image_load",
            "image_fmt",
            "image_siz",
        ],
        right: "Widths and heights in quarters (1280 is 320 texels), a format from 0 to 4, a size \
                from 0 to 3, and a load of 0xfff4. Where several are wrong at once, the bytes are \
                no object, are little-endian, or have a pointer of 8 bytes.",
        example: "visor plan M-copy-fmt-5.bin",
        seen: "Case L with format 5.",
    },
    Page {
        verdict: Verdict::Copy,
        name: "copy",
        when: "In a copy object at least one holds: image_load is not 0xfff4; tmem_h, image_w or \
               image_h is below 4; tmem_size_w is 0; tmem_size x 65,536 + tmem_load_sh is not \
               tmem_h x tmem_size_w; image_flip is above 1.",
        statement: "4.5",
        left: NOTHING,
        look: &[
            "image_load",
            "tmem_h",
            "tmem_size_w",
            "tmem_load_sh",
            "tmem_size",
            "image_flip",
            "image_w",
            "image_h",
        ],
        right: "An object that guS2DInitBg has filled or `visor make` has made. Zeros from tmem_w \
                on mean that neither has; a scaled object has its scales there, and wants the \
                opcode 9.",
        example: "visor plan N-copy.bin",
        seen: "Case L with a load of 0x0033.",
    },
    Page {
        verdict: Verdict::Slices,
        name: "slices",
        when: "A scaled object whose frame is not empty has an image_h below 4, or image rows of \
               less than 8 bytes, or shows so much of a row that texture memory does not hold it, \
               or not twice where the bilinear filter is on. It has 512 words for that, and 256 \
               where the format is CI.",
        statement: "8.6",
        left: NOTHING,
        look: &[
            "image_h",
            "image_w",
            "image_siz",
            "image_fmt",
            "frame_w",
            "scale_w",
            "mode",
        ],
        right: "An image at least one row high and 8 bytes wide, and a frame_w x scale_w that is \
                not too wide: at 16 bits up to 2,044 texels of a row fit, or 1,019 with the \
                bilinear filter.",
        example: "echo 0000000400000500000003c0000003c000000000fff40002000000000200040000000000 | \
                  visor plan -",
        seen: "An image one texel wide: its rows have 2 bytes.",
    },
    Page {
        verdict: Verdict::TooBig,
        name: "too big",
        when: "The rows of a copy strip, each rounded up to whole words, need more words than \
               texture memory has for them: 256 where the format is CI or a texel has 32 bits, \
               else 512. The first such strip ends the plan.",
        statement: "7.8 step 1",
        left: BEFORE,
        look: &["tmem_h", "image_w", "frame_w", "image_fmt", "image_siz"],
        right: "A tmem_h of at most 4 times the rows that fit (words of texture memory / words of \
                a row, rounded down), and tmem_load_sh and tmem_size made anew from it. A strip \
                that does not begin at a whole word needs one word more in each row. `visor make` \
                makes an object of a picture that has it right for every frame.",
        example: "visor plan B.bin",
        seen: "Rows of 80 words, 7 at once: 560 of 512 words. Case A has 6 at once and is planned.",
    },
    Page {
        verdict: Verdict::Piece,
        name: "piece",
        when: "A strip of a scaled plan is loaded in parts, and a part has no rows, no width, or \
               its place would lie before texture memory. As far as is known it comes only where \
               what is shown reaches the image's right edge, so that its last row runs over into \
               the first.",
        statement: "8.19",
        left: BEFORE,
        look: &[
            "image_x",
            "image_w",
            "frame_w",
            "scale_w",
            "image_siz",
            "image_flip",
        ],
        right: "An image_x and a frame so that what is shown ends before the image's right edge. \
                With texels of 32 bits a strip has room for rows of 320 texels, whatever the \
                frame.",
        example: "visor plan I.bin",
        seen: "324 texels of 32 bits, shown from column 700 of 1,024.",
    },
    Page {
        verdict: Verdict::Address,
        name: "address",
        when: "An address that the plan comes to lies below 0, or at 2^64 or above; or a load's \
               start and its length add up to 2^64 or more.",
        statement: "6.4, 8.8",
        left: "The entries before it stand, and the tiles are as after them; a load that is \
               refused has set the bounds of tile 7 already.",
        look: &["address", "image_x", "image_y", "image_y_orig", "image_h"],
        right: "The address of the image's first byte, resolved from the object's pointer. Near 0 \
                it is an offset or a null pointer: a strip that wraps may read one row before the \
                image. Near 2^64 the image reaches beyond the last address.",
        example: "visor plan J.bin",
        seen: "Case I at address 0.",
    },
    Page {
        verdict: Verdict::Full,
        name: "full",
        when: "Another entry follows, and fewer than 11 words are left of the plan buffer that \
               the host lent. visor lends none, and never gives this verdict.",
        statement: "10.4",
        left: "The entries that fitted, and the tiles as after them.",
        look: &[],
        right: "11 words for each entry: visor_count says how many there are, and a planner that \
                is stepped needs no buffer.",
        example: "visor plan L.bin",
        seen: "6 entries: a plan buffer of fewer than 66 words ends in verdict 10.",
    },
];

/// The page of a verdict.
pub fn of(verdict: Verdict) -> Option<&'static Page> {
    ALL.iter().find(|page| page.verdict == verdict)
}

/// What a verdict is called.
pub fn name(verdict: Verdict) -> &'static str {
    of(verdict).map_or("", |page| page.name)
}

#[cfg(test)]
mod tests {
    use super::*;
    use crate::fields;

    #[test]
    fn each_verdict_has_its_page_at_its_number() {
        let verdicts: Vec<Verdict> = ALL.iter().map(|page| page.verdict).collect();
        assert_eq!(verdicts, Verdict::ALL);
        for page in ALL {
            for name in page.look {
                assert!(fields::named(name).is_some(), "{name}");
            }
        }
    }

    /// What is printed as JSON is not escaped.
    #[test]
    fn names_and_sentences_have_plain_letters() {
        for page in ALL {
            let plain =
                |text: &str| !text.contains(['"', '\\']) && !text.contains(char::is_control);
            assert!(
                plain(page.name) && plain(page.verdict.sentence()),
                "{}",
                page.name
            );
        }
    }
}
