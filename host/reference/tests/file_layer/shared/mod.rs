//! Tests of the file layer for whoever answers the calls: the module `answer`
//! beside this one. With the reference they are part of its own tests; in
//! `dhegluubin/tests/agreement` library, reference and program answer.

use super::answer;

pub mod all_calls;
pub mod bad_blocks;
pub mod batch;
pub mod build;
pub mod call;
mod calls;
mod changes;
mod corrupted;
mod corruption;
mod directory;
mod disk;
mod disk_header;
mod first_track;
mod foreign;
mod format;
mod format_call;
pub mod free_tails;
mod growth;
mod histories;
mod history;
mod map;
mod names;
mod outside;
mod random_histories;
mod requests;
mod secrets;
mod values;
