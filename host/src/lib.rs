//! Strip plans of Nintendo 64 backgrounds, as the S2DEX2 microcode draws them.
//!
//! A background object (`uObjBg` or `uObjScaleBg`) is an image larger than texture memory. A
//! *plan* cuts it into strips that fit: a list of [`Entry`]s that set the texture image, set
//! tiles, load rows and draw rectangles, and an [`End`] that says how the list ended. The planner
//! behind this library is written in Rattle and proved; this crate only gives its numbers types.
//! docs/SPECIFICATION.md of the project has every rule.
//!
//! ```
//! use visorlongan::{Bank, Buffer, Entry, Request, Scissor};
//!
//! // 64 by 8 units (16 by 2 texels) of 16 bits at the screen's corner.
//! let mut object = [0; 40];
//! for (at, field) in [(2, 64), (6, 64), (10, 8), (14, 8), (20, 0xfff4), (30, 8), (32, 8), (36, 1)] {
//!     object[at..at + 2].copy_from_slice(&u16::to_be_bytes(field));
//! }
//! object[23] = 2;
//!
//! let request = Request::copy(&object, Scissor::new(0, 0, 320, 240), 0x1000);
//! let before = Bank::default();
//! let mut bank = before;
//! let mut buffer = Buffer::new();
//! let plan = buffer.plan(&request, &mut bank);
//!
//! let (mut bytes, mut drawn) = (0, 0);
//! for (entry, bank) in plan.steps(before) {
//!     match entry {
//!         // Reading goes into texture memory as tile 7 says, drawing comes out of it as tile 0 says.
//!         Entry::Load(load) => {
//!             bytes += load.length;
//!             assert_eq!(bank.tiles[load.index as usize].line, 4);
//!         }
//!         Entry::Rect(rect) => drawn += rect.pixels().x.len() * rect.pixels().y.len(),
//!         Entry::Image(image) => assert_eq!(image.address, 0x1000),
//!         Entry::Tile(_) | Entry::Size(_) => {} // `bank` has it already
//!     }
//! }
//! assert_eq!((bytes, drawn), (64, 32));
//! plan.result()?;
//! # Ok::<(), visorlongan::Refusal>(())
//! ```
//!
//! The image pointer inside the object is not used: the caller resolves it ([`Object`] has it) and
//! hands over the address. Reading texels, choosing materials and drawing stay with the caller.
//!
//! # The bank in the middle of a plan
//!
//! A plan sets tiles 0 and 7 again and again, and each load and rectangle is meant for the tiles as
//! they are *there*. The [`Bank`] that a plan hands back is the one after its last entry, so a host
//! that acts on entries with it loads and draws with the wrong tiles. [`Plan::steps`] gives each
//! entry with its own bank; [`Bank::apply`] does the same one entry at a time. A host that stops in
//! the middle of a plan keeps the bank of the last entry that it has done: that is the machine's
//! state there, and the rest of the plan can be done later from it.
//!
//! # Stepping
//!
//! [`run`] and [`Buffer`] make a whole plan at once, in some 6 to 12 ns an entry, and want memory for
//! all of it. A [`Planner`] makes one entry at a time, in some 50 to 100 ns however far the plan is,
//! and keeps the bank beside it; it wants no memory but its own. Run where the whole plan is wanted;
//! step for a progress bar, for an inspector, for a cabinet that shares a frame's time.
//!
//! ```
//! use visorlongan::{Entry, Planner, Request, Scissor};
//!
//! # let mut object = [0; 40];
//! # for (at, field) in [(2, 64), (6, 64), (10, 8), (14, 8), (20, 0xfff4), (30, 8), (32, 8), (36, 1)] {
//! #     object[at..at + 2].copy_from_slice(&u16::to_be_bytes(field));
//! # }
//! # object[23] = 2;
//! let mut planner = Planner::new(&Request::copy(&object, Scissor::new(0, 0, 320, 240), 0x1000));
//! let load = planner.find(|entry| matches!(entry, Entry::Load(_)));
//! assert!(load.is_some());
//!
//! // Stopped at a load, with the tiles that it is meant for; from the snapshot the plan goes on.
//! assert_eq!(planner.bank().tiles[7].line, 4);
//! let snapshot = planner.clone();
//! assert!(snapshot.eq(planner));
//! ```
//!
//! A snapshot is a clone: 39 words of planner and the bank's 136. What the words say belongs to one
//! version of the library, so that they are not for keeping in a file: a [`Planner`] does not hand
//! them out.
//!
//! # From a picture
//!
//! [`copy_object`] makes the copy object of a picture from its width, height, format and size, so
//! that nobody has to work out the fields of texture memory. Frame, start and flip may be changed
//! afterwards.
//!
//! # What a finished copied plan draws and loads
//!
//! Of every copied plan that ends with [`Verdict::Finished`] this is proved. Its rectangles meet each
//! cell of the clipped frame exactly once and meet nothing else, so that a host may lay captions of
//! its own over it. Cells are as large as pixels and are counted from the clipped frame's left and
//! upper edge: where that lies inside a pixel, so do they. Each load's columns and rows lie inside the
//! image, and its tile's line times its rows fits texture memory. So whoever reads texels needs the
//! image's own rows, and the bytes that fill the last word of a row: these may lie past the row's
//! end, and nothing is claimed of them. Rows of an odd number of 4-bit texels lie half a byte less
//! apart than they are long, so that the last texel of the last one is in the byte after all rows.
//!
//! ```
//! use visorlongan::{copy_object, Entry, Planner, Request, Scissor};
//!
//! let object = copy_object(320, 240, 0, 2, 0x0600_0000)?;
//! let request = Request::copy(&object, Scissor::new(8, 8, 312, 232), 0x8020_0000);
//!
//! // How many rectangles meet a pixel of the screen.
//! let meet = |x, y| {
//!     let meets = |entry: &Entry| match entry {
//!         Entry::Rect(rect) => rect.pixels().x.contains(&x) && rect.pixels().y.contains(&y),
//!         _ => false,
//!     };
//!     Planner::new(&request).filter(meets).count()
//! };
//! assert_eq!([meet(8, 8), meet(160, 120), meet(311, 231)], [1, 1, 1]);
//! assert_eq!([meet(7, 120), meet(160, 232)], [0, 0]);
//! # Ok::<(), Box<dyn std::error::Error>>(())
//! ```
//!
//! # What a single cell shows
//!
//! [`sample`] takes one cell of a copied background's clipped frame and gives the image's column and
//! row that it shows, without a plan: to check a renderer with, or to answer whoever asks of one
//! pixel. Of every finished plan it is proved that rectangles and loads give the same, but for flipped
//! loads of more than 1,024 columns.
//!
//! # Without an allocator
//!
//! The crate needs no `std`. [`Buffer`], which owns its memory, is behind the feature `alloc`, which
//! is on by default; [`run`] plans into words that the caller lends, and [`Planner`] into none.

#![no_std]
#![deny(missing_docs)]
#![warn(clippy::must_use_candidate)]

#[cfg(feature = "alloc")]
extern crate alloc;
#[cfg(test)]
extern crate std;

mod bank;
#[cfg(feature = "alloc")]
mod buffer;
mod drift;
mod entry;
mod ffi;
mod length;
mod library;
mod measure;
mod object;
mod picture;
mod plan;
mod planner;
mod request;
mod sample;
mod verdict;

pub use bank::{Bank, Tile};
#[cfg(feature = "alloc")]
pub use buffer::Buffer;
pub use drift::{drift, Drift, Drifts};
pub use entry::{Entry, Image, Load, NoEntry, Pixels, Rect, SetTile, Size, ENTRY_WORDS};
pub use length::WrongLength;
pub use measure::{Quarters, Scale, ThirtySeconds};
pub use object::{Kind, Object};
pub use picture::{copy_object, NoObject};
pub use plan::{count, run, Entries, Plan, Steps};
pub use planner::Planner;
pub use request::{Mode, Record, Request, Scissor, BG_1CYC, BG_COPY};
pub use sample::{sample, Sample};
pub use verdict::{End, NoVerdict, Refusal, Verdict};

/// The version of the linked library: major, minor, patch. It is this crate's.
#[must_use]
pub fn version() -> [u64; 3] {
    let version = ffi::version();
    [version >> 16, version >> 8 & 255, version & 255]
}
