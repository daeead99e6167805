//! Tests of the file layer and of the model: images made by hand, the outside
//! answers in `tests/data`, and random histories.

mod answer;
mod record;
mod shared;
