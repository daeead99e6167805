//! QL double-density disks in HFE images: the safe binding of the proved
//! library.
//!
//! - [`unpack`] reads an HFE image of version 1 or 3 into a block image, and
//!   [`pack`] writes one of version 1; [`rewrite`] changes one sector in an image
//!   of version 1. [`Edition::of`] tells which version an image is of.
//! - [`format()`], [`format_bad`], [`check`], [`list`], [`read`], [`add`] and [`remove`] work on
//!   a block image and the files in it; [`batch`] makes many removes and adds in
//!   one call.
//! - [`first_track`] judges the first track alone, and [`place`] tells where a
//!   sector of a block stands in a block image.
//!
//! File names are equal if they have the same length and the same bytes, where
//! a capital letter, A to Z, counts as its small one; no other byte counts as
//! another. A disk keeps the spelling that a file was added with.
//!
//! All memory is lent by the caller and used only during the call. The
//! library keeps no state, so that several threads may call it at once, each
//! with its own memory. No input makes a call panic: what cannot be done is a
//! [`Refusal`] with its number and places, and a refused call has changed
//! nothing; of a batch that holds for the refused item.
//!
//! ```
//! use dhegluubin::{add, format, pack, read, unpack, Refusal, HFE_LEN, IMAGE_LEN};
//!
//! // A new disk with one file, as an HFE image.
//! let mut image = vec![0xE5; IMAGE_LEN];
//! format(&mut image, b"WORK", 1)?;
//! add(&mut image, b"letter_txt", 0, b"Dear client")?;
//! let mut hfe = vec![0; HFE_LEN];
//! pack(&image, &mut hfe)?;
//!
//! // And back.
//! let mut back = vec![0; IMAGE_LEN];
//! unpack(&hfe, &mut back)?;
//! let mut out = [0; 100];
//! let count = read(&back, b"letter_txt", &mut out)?;
//! assert_eq!(out[..count], *b"Dear client");
//!
//! // The signature is wrong: nothing is written.
//! hfe[0] = b'X';
//! let refusal = unpack(&hfe, &mut back).unwrap_err();
//! assert_eq!(refusal, Refusal::HfeHeader { offset: 0 });
//! assert_eq!(refusal.to_string(), "refused 2: HFE header wrong at byte 0");
//! assert_eq!(back, image);
//! # Ok::<(), Refusal>(())
//! ```

#![deny(unsafe_code)]
#![warn(missing_docs)]

mod batch;
mod edition;
// Calls into C need unsafe code; it stands in this file alone.
#[allow(unsafe_code)]
mod ffi;
mod files;
mod refusal;
mod reply;
mod sectors;

/// The readme's example is tested with those of this documentation.
#[cfg(doctest)]
#[doc = include_str!("../../../README.md")]
struct Readme;

pub use batch::{BatchList, BatchRefusal};
pub use edition::Edition;
pub use files::{
    add, batch, check, first_track, format, format_bad, list, read, remove, DISK_NAME_LEN,
    ENTRY_LEN, FILE_NAME_LEN, FIRST_TRACK_LEN,
};
pub use refusal::Refusal;
pub use reply::{FirstTrack, Lent, Reply};
pub use sectors::{pack, place, rewrite, unpack, HFE_LEN, IMAGE_LEN, SECTOR_LEN, SHORTEST_HFE_LEN};

/// The same calls with the answer as the library gives it, a number and three
/// places.
///
/// ```
/// assert_eq!(dhegluubin::raw::place(1, 2).parts(), [0, 15, 0, 0]);
/// assert_eq!(dhegluubin::raw::place(1, 3).parts(), [12, 0, 0, 0]);
/// ```
pub mod raw {
    pub use crate::ffi::{
        add, batch, check, first_track, format, format_bad, list, pack, place, read, remove,
        rewrite, unpack,
    };
}
