//! The library, called through the binding, against the reference and the
//! outside answers: equal replies, equal places, and every lent byte.
//!
//! Random tests have fixed seeds. With `DHEG_CASES=n` each of them runs n
//! cases instead of its usual number; name the test when n is large, as in
//! `DHEG_CASES=100000 host/run-cargo test -p dhegluubin random_headers`.

mod file_layer;
mod lent;
mod random_calls;
mod sector_layer;
mod threads;
