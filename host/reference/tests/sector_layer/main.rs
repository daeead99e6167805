//! Tests of the sector layer: placement, HFE header and track table, whole
//! disks, and the outside answers in `tests/data`.

mod answer;
mod geometry;
mod header;
mod pack;
mod shared;
mod table;
