//! How far the lines of a scaled plan are from their exact place in the image.

use crate::ffi::{self, DRIFT_WORDS};
use crate::request::Request;
use core::iter::FusedIterator;
use core::slice::ChunksExact;

/// One rectangle of a scaled plan, measured. Distances are 1,024ths of an image row, and the same
/// for all lines of the rectangle; below 0 they are behind the exact place, that is above it.
#[derive(Clone, Copy, Debug, PartialEq, Eq, Hash)]
pub struct Drift {
    /// The lines of the plan's earlier rectangles.
    pub line: u64,
    /// The number of its strip, counted from the image's origin.
    pub strip: i64,
    /// How far ahead of its exact place each line samples the image.
    pub distance: i64,
    /// The least distance that the limits allow: one line step and 30 behind, or one line step and
    /// 1,022 where the origin lies between two rows. A line step is the object's `scale_h`.
    pub behind: i64,
    /// The greatest: one line step ahead, and a 1,024th of one more for each strip from the origin.
    pub ahead: i64,
}

impl Drift {
    /// The words that [`drift`] wants for each rectangle.
    pub const WORDS: usize = DRIFT_WORDS;

    fn from_words(words: &[u64]) -> Drift {
        let signed = |at: usize| words[at] as i64;
        Drift {
            line: words[0],
            strip: signed(1),
            distance: signed(2),
            behind: signed(3),
            ahead: signed(4),
        }
    }

    /// Whether the distance lies within the limits.
    #[must_use]
    pub const fn is_near(&self) -> bool {
        self.behind <= self.distance && self.distance <= self.ahead
    }
}

/// Measures the rectangles of a request's plan into words that it is lent, [`Drift::WORDS`] a
/// rectangle: as many as there is room for, from the first on. [`count`](crate::count) says how many
/// rectangles there are. A plan that is copied has no drift, and nothing is measured.
///
/// ```
/// use visorlongan::{count, drift, Drift, Request, Scissor};
///
/// // 320 by 240 texels of 16 bits, drawn at 1,000/1,024 of their size.
/// let mut object = [0; 40];
/// for (at, field) in [(2, 1280), (6, 1280), (10, 960), (14, 960), (20, 0xfff4), (28, 1000), (30, 1000)] {
///     object[at..at + 2].copy_from_slice(&u16::to_be_bytes(field));
/// }
/// object[23] = 2;
/// let request = Request::scaled(&object, Scissor::new(0, 0, 320, 240), 0, 0x1000);
///
/// let mut words = vec![0; count(&request).rectangles as usize * Drift::WORDS];
/// let measured = drift(&request, &mut words);
/// assert!(measured.proved);
/// let worst = measured.map(|rectangle| rectangle.distance).max();
/// assert_eq!(worst, Some(896));
/// ```
#[must_use]
pub fn drift<'a>(request: &Request, words: &'a mut [u64]) -> Drifts<'a> {
    let [measured, proved] = ffi::drift(request.object, &request.words(), words);
    Drifts {
        words: words[..measured as usize * DRIFT_WORDS].chunks_exact(DRIFT_WORDS),
        proved: proved == 1,
    }
}

/// The measured rectangles of a plan, in order: see [`drift`].
#[derive(Clone, Debug)]
pub struct Drifts<'a> {
    words: ChunksExact<'a, u64>,
    /// Whether the limits are proved for this plan: its image height is a multiple of 4 units, and
    /// its start at or below the origin. Otherwise a distance may lie outside of them.
    pub proved: bool,
}

impl Iterator for Drifts<'_> {
    type Item = Drift;

    fn next(&mut self) -> Option<Drift> {
        self.words.next().map(Drift::from_words)
    }

    fn size_hint(&self) -> (usize, Option<usize>) {
        self.words.size_hint()
    }
}

impl ExactSizeIterator for Drifts<'_> {}

impl FusedIterator for Drifts<'_> {}
