//! What the tests need beside the disk rules: JSON, SHA-256, gzip and properties
//! of random input as thin functions over libraries, blocks of Markdown, bytes
//! made from a seed, and HFE images with codes.

#![forbid(unsafe_code)]
#![warn(missing_docs)]

pub mod cases;
pub mod codes;
pub mod fenced;
pub mod gzip;
pub mod hex;
pub mod json;
pub mod levels;
pub mod noise;
pub mod property;
pub mod sha256;
