//! Medians of times, and a line of the table.

use std::fmt;
use std::hint::black_box;
use std::time::{Duration, Instant};

/// How often each call is made.
#[derive(Clone, Copy)]
pub struct Runs(pub usize);

/// The times of one call of the library, and of what it is compared with.
pub struct Row {
    name: String,
    library: Duration,
    other: Duration,
    limit: Option<Duration>,
}

impl Row {
    /// Of rows that compare a call with the reference's.
    pub const HEADING: &'static str = "\
call                          library ms  reference ms  library / reference  limit ms";

    /// Of rows that compare a batch with its single calls.
    pub const HEADING_OF_BATCHES: &'static str = "\
batch                           batch ms      calls ms        batch / calls";

    /// Makes both calls in turn, each on its own copy of what is lent.
    /// A call tells whether it was done.
    pub fn measured<L: Clone>(
        runs: Runs,
        name: &str,
        limit: impl Into<Option<Duration>>,
        lent: &L,
        library: impl Fn(&mut L) -> bool,
        other: impl Fn(&mut L) -> bool,
    ) -> Row {
        let mut library_times = Vec::new();
        let mut other_times = Vec::new();
        for _ in 0..runs.0 {
            library_times.push(time(name, lent, &library));
            other_times.push(time(name, lent, &other));
        }
        Row {
            name: name.to_string(),
            library: median(library_times),
            other: median(other_times),
            limit: limit.into(),
        }
    }
}

impl fmt::Display for Row {
    fn fmt(&self, f: &mut fmt::Formatter<'_>) -> fmt::Result {
        let ms = |time: Duration| 1000.0 * time.as_secs_f64();
        write!(
            f,
            "{:<28}{:>12.3}{:>14.3}{:>21.3}",
            self.name,
            ms(self.library),
            ms(self.other),
            self.library.as_secs_f64() / self.other.as_secs_f64(),
        )?;
        match self.limit {
            Some(limit) => write!(f, "{:>10.0}", ms(limit)),
            None => Ok(()),
        }
    }
}

fn time<L: Clone>(name: &str, lent: &L, call: impl Fn(&mut L) -> bool) -> Duration {
    let mut lent = black_box(lent.clone());
    let start = Instant::now();
    let done = call(&mut lent);
    let time = start.elapsed();
    black_box(lent);
    assert!(done, "{name} was refused");
    time
}

fn median(mut times: Vec<Duration>) -> Duration {
    times.sort();
    times[times.len() / 2]
}
