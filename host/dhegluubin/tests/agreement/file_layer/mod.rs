//! Files on block images.

pub mod both;
mod named;
mod program;
#[path = "../../../../reference/tests/file_layer/shared/mod.rs"]
mod shared;

// What the shared tests ask.
use both as answer;
pub use shared::bad_blocks::random_bad;
pub use shared::batch::WRONG_ENDS;
pub use shared::build::{self, set_word};
pub use shared::call::{add_item, remove_item};
pub use shared::free_tails::random_tails;
