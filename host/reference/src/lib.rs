//! A plain second implementation of the disk rules, for comparison.
//!
//! It is written to be easy to check by eye, not to be fast or small: a side
//! of a track becomes a `Vec<u8>` with one entry, 0 or 1, for each cell,
//! every search tries every cell place, and the calls of the file layer work
//! on a copy of the disk in block order.
//!
//! - Cell layer: `cells`, `codes`, `mfm`, `crc`, `header`, `field`, `sector`,
//!   `written`.
//! - Sector layer: `geometry`, `hfe`, `track_table`, `unpack`, `pack`,
//!   `rewrite`.
//! - File layer: `layout`, `disk`, `disk_header`, `map`, `directory`, `names`,
//!   `sound`, `volume`, `buffer`, `items`, and a file for each call.
//! - Beside it: `model`, which gives the answers of a whole history without
//!   looking at an image.

#![forbid(unsafe_code)]
#![warn(missing_docs)]

pub mod add;
pub mod batch;
pub mod buffer;
pub mod cells;
pub mod check;
pub mod codes;
pub mod crc;
pub mod directory;
pub mod disk;
pub mod disk_header;
pub mod field;
pub mod first_track;
pub mod format;
pub mod geometry;
pub mod header;
pub mod hfe;
pub mod items;
pub mod layout;
pub mod list;
pub mod map;
pub mod mfm;
pub mod model;
pub mod names;
pub mod pack;
pub mod read;
pub mod remove;
pub mod reply;
pub mod rewrite;
pub mod sector;
pub mod sound;
pub mod track_table;
pub mod unpack;
pub mod volume;
pub mod written;

pub use add::add;
pub use batch::batch;
pub use check::check;
pub use first_track::{first_track, first_track_text, FirstTrack};
pub use format::{format, format_bad};
pub use geometry::place;
pub use list::list;
pub use pack::pack;
pub use read::read;
pub use remove::remove;
pub use reply::Reply;
pub use rewrite::rewrite;
pub use unpack::unpack;
