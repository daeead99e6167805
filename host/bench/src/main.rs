//! Times of the proved library and of the reference, in one run, and of batches
//! and their single calls:
//! `host/run-cargo run --release -p bench`, with the number of runs as an argument.
//!
//! Nothing is judged here; the limits are printed for comparison.

#![forbid(unsafe_code)]

mod batches;
mod files;
mod measure;
mod sectors;

use measure::{Row, Runs};

/// Runs of each call unless the command line says otherwise.
const USUAL_RUNS: usize = 15;

fn main() {
    let runs = match std::env::args().nth(1).map(|text| text.parse()) {
        None => USUAL_RUNS,
        Some(Ok(runs)) if runs > 0 => runs,
        Some(_) => {
            eprintln!("usage: bench [RUNS]");
            std::process::exit(2);
        }
    };
    println!("median of {runs} runs each, library and reference in turn");
    println!(
        "each call gets its own copy of what is lent for writing, made before its time begins"
    );
    println!("result buffers are full of 55 hex before a call, not cleared");
    if cfg!(debug_assertions) {
        println!("not a release build: times mean nothing");
    }
    println!();
    println!("{}", Row::HEADING);
    for rows in [sectors::rows, files::rows, batches::rows] {
        for row in rows(Runs(runs)) {
            println!("{row}");
        }
    }
    println!();
    println!("a batch and the same single calls, both of the library, in turn");
    println!("{}", Row::HEADING_OF_BATCHES);
    for row in batches::against_calls(Runs(runs)) {
        println!("{row}");
    }
}
