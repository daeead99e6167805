//! The built tool, run in folders of its own.

mod any_image;
mod bad_blocks;
mod batch;
mod bench;
mod completion;
mod copies;
mod damaged;
mod edit;
mod files;
mod folders;
mod help;
mod images;
mod interchange;
mod json;
mod many;
mod map;
mod name_patterns;
mod poke;
mod progress;
mod quiet;
mod readme;
mod several;
mod usage;
mod version_3;
mod whole_disks;
mod writing;
