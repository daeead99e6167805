//! Documents and comments: what they say of the tree is there, and what is
//! there has its line.

mod names;
mod promises;
mod rules;
mod shape;
mod sources;
