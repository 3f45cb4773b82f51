//! What a single cell of a copied background shows.

use crate::ffi;
use crate::request::Scissor;
use crate::verdict::Verdict;

/// What a cell of the clipped frame shows.
#[derive(Clone, Copy, Debug, PartialEq, Eq, Hash)]
pub enum Sample {
    /// A texel of the image, by its column and row from 0.
    Texel {
        /// The column.
        column: u64,
        /// The row.
        row: u64,
    },
    /// The clipped frame has no such cell; an empty one has none at all.
    Outside,
    /// The object or the scissor is refused: by [`Verdict::Short`], [`Verdict::Scissor`],
    /// [`Verdict::Object`] or [`Verdict::Copy`], in this order.
    Refused(Verdict),
}

/// What one cell of a copied background shows, without a plan.
///
/// `column` and `line` count the cells of the clipped frame, which are as large as pixels, across
/// and down from its left and upper edge. The object is read as one of
/// [`BG_COPY`](crate::BG_COPY). A refusal comes before [`Sample::Outside`]. A plan may stop for
/// another reason, by [`Verdict::TooBig`] or [`Verdict::Address`]: its cells are answered all the
/// same.
///
/// ```
/// use visorlongan::{copy_object, sample, Sample, Scissor};
///
/// // 32 by 8 texels of 16 bits, in a frame as large as they are that begins with column 24.
/// let mut object = copy_object(32, 8, 0, 2, 0)?;
/// object[..2].copy_from_slice(&u16::to_be_bytes(24 * 32));
/// let shows = |object: &[u8], column| sample(object, Scissor::new(0, 0, 320, 240), column, 5);
///
/// // Where the image wraps, its first column comes after the last.
/// assert_eq!(shows(&object, 7), Sample::Texel { column: 31, row: 5 });
/// assert_eq!(shows(&object, 8), Sample::Texel { column: 0, row: 5 });
///
/// // Flipped, columns are counted from the frame's right end.
/// object[27] = 1;
/// assert_eq!(shows(&object, 31), Sample::Texel { column: 24, row: 5 });
/// assert_eq!(shows(&object, 24), Sample::Texel { column: 31, row: 5 });
/// assert_eq!(shows(&object, 23), Sample::Texel { column: 0, row: 5 });
/// assert_eq!(shows(&object, 32), Sample::Outside);
/// # Ok::<(), visorlongan::NoObject>(())
/// ```
///
/// # Beside a plan
///
/// It is proved of each cell of a finished copied plan that the one rectangle that meets it shows
/// there, by the load before it, the same column and row, which are among the load's, if that load
/// has at most 1,024 columns or the frame is not flipped. Cell i of a [`Rect`](crate::Rect) shows
/// number `uls` / 32 + i of its [`Load`](crate::Load): 0 is the load's first column, and counting
/// down from it -1 is the first again and -2 the second. Its line j shows the load's first row
/// plus j.
#[must_use]
pub fn sample(object: &[u8], scissor: Scissor, column: u64, line: u64) -> Sample {
    match ffi::sample(object, &scissor.words(), column, line) {
        [0, column, row] => Sample::Texel { column, row },
        [1, ..] => Sample::Outside,
        [2, verdict, _] => {
            Sample::Refused(Verdict::try_from(verdict).expect("a verdict of the library"))
        }
        [kind, ..] => unreachable!("{kind} is no kind of a sample"),
    }
}

#[cfg(test)]
mod tests {
    use super::*;
    use crate::picture::copy_object;

    const SCREEN: Scissor = Scissor::new(0, 0, 320, 240);

    /// Cells inside the frame of `object`, at its edges, beyond them and far away.
    const CELLS: [u64; 8] = [0, 1, 9, 10, 1 << 31, 1 << 32, 1 << 63, u64::MAX];

    /// 5 by 4 texels under a frame of 12 by 4 cells at (-2, 1), shown from column 4 and row 1.
    fn object(flip: u8) -> [u8; 40] {
        let mut object = copy_object(5, 4, 4, 1, 0).expect("an object");
        let fields = [(0, 4 * 32 + 31), (4, -8), (6, 51), (8, 32), (12, 4)];
        for (at, field) in fields {
            object[at..at + 2].copy_from_slice(&i16::to_be_bytes(field));
        }
        object[27] = flip;
        object
    }

    fn shown(column: u64, row: u64) -> Sample {
        Sample::Texel { column, row }
    }

    /// Every one of the cells is refused so.
    fn refused(object: &[u8], scissor: Scissor, verdict: Verdict) {
        for column in CELLS {
            for line in CELLS {
                let answer = sample(object, scissor, column, line);
                assert_eq!(answer, Sample::Refused(verdict), "{column} {line}");
            }
        }
    }

    /// Two cells are left out on the left and, under the scissor, two lines above.
    #[test]
    fn cells_of_a_frame() {
        let scissor = Scissor::new(0, 3, 320, 240);
        for column in 0..10 {
            let [plain, flipped] = [0, 1].map(object);
            let (forward, backward) = ((4 + 2 + column) % 5, (4 + 12 - 1 - 2 - column) % 5);
            for (line, row) in [(0, 3), (1, 0)] {
                let answers = [plain, flipped].map(|o| sample(&o, scissor, column, line));
                assert_eq!(answers, [shown(forward, row), shown(backward, row)]);
            }
            assert_eq!(sample(&plain, scissor, column, 2), Sample::Outside);
        }
        for column in &CELLS[3..] {
            assert_eq!(sample(&object(0), scissor, *column, 0), Sample::Outside);
            assert_eq!(sample(&object(0), scissor, 0, *column), Sample::Outside);
        }
        let longer = [&object(1)[..], &[255; 60]].concat();
        assert_eq!(sample(&longer, scissor, 0, 0), shown(3, 3));
    }

    /// What lies outside the scissor, and what is less than a cell wide or high.
    #[test]
    fn an_empty_frame_has_no_cells() {
        let mut narrow = object(0);
        narrow[6..8].copy_from_slice(&[0, 11]);
        for (object, scissor) in [
            (object(0), Scissor::new(10, 0, 320, 240)),
            (object(0), Scissor::new(0, 5, 320, 240)),
            (object(0), Scissor::new(320, 240, 0, 0)),
            (object(0), Scissor::new(0, 0, 0, 0)),
            (narrow, SCREEN),
        ] {
            for cell in CELLS {
                assert_eq!(sample(&object, scissor, cell, 0), Sample::Outside);
                assert_eq!(sample(&object, scissor, 0, cell), Sample::Outside);
            }
        }
    }

    /// Each fault hides those that are tested after it, and the cell is looked at last.
    #[test]
    fn refusals_come_in_their_order() {
        let outside = [
            Scissor::new(-1, 0, 320, 240),
            Scissor::new(0, i32::MIN, 320, 240),
            Scissor::new(0, 0, 1_024, 240),
            Scissor::new(0, 0, 320, i32::MAX),
        ];
        let mut bytes = object(2);
        refused(&bytes, SCREEN, Verdict::Copy);
        bytes[22] = 5;
        refused(&bytes, SCREEN, Verdict::Object);
        for scissor in outside {
            refused(&object(2), scissor, Verdict::Scissor);
            refused(&bytes, scissor, Verdict::Scissor);
            refused(&bytes[..39], scissor, Verdict::Short);
            refused(&[], scissor, Verdict::Short);
        }
        for edge in [1_024, 1 << 32, 1 << 63, u64::MAX] {
            for place in 0..4 {
                let mut words = SCREEN.words();
                words[place] = edge;
                assert_eq!(ffi::sample(&object(0), &words, 0, 0), [2, 3, 0]);
            }
        }
        // The load of scaled objects alone, under a frame of which nothing is left.
        let mut bytes = object(0);
        bytes[20..22].copy_from_slice(&[0, 0x33]);
        refused(&bytes, Scissor::new(0, 0, 0, 0), Verdict::Copy);
        refused(&[0; 40], Scissor::new(0, 0, 0, 0), Verdict::Object);
    }
}
