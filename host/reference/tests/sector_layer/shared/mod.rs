//! Tests of the sector layer for whoever answers the calls: the module
//! `answer` beside this one. With the reference they are part of its own
//! tests; in `dhegluubin/tests/agreement` library and reference answer.

use super::answer;

pub mod build;
mod damaged;
mod mame;
mod moved_tracks;
mod new_runs;
pub mod placement;
mod recipe;
mod recipe_answers;
mod refusals;
pub mod rewrite;
mod sectors;
pub mod side;
mod sizes;
pub mod spoil;
mod track_table;
pub mod version_3;
mod wrong_bits;
