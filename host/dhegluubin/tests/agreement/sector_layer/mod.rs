//! Reading and writing HFE images, and placement.

pub mod both;
mod clocks;
mod codes;
mod cuts;
mod damage;
mod fields;
mod headers;
mod hfe_header;
mod layouts;
mod named;
mod round_trip;
#[path = "../../../../reference/tests/sector_layer/shared/mod.rs"]
mod shared;
mod soup;

// What the shared tests ask.
use both as answer;
pub use shared::build;
pub use shared::rewrite::random as rewrites;
use shared::side;
pub use shared::version_3 as coded;
