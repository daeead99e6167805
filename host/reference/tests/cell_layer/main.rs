//! Tests of the cell layer, by hand-made values and streams.

mod build;
mod cells;
mod codes;
mod crc;
mod fields;
mod headers;
mod mfm;
mod written;
