//! What is being done, for someone who waits at a terminal.

use indicatif::{ProgressBar, ProgressDrawTarget, ProgressStyle};

/// Most characters of a message, so that it stays on its line.
const WIDTH: usize = 50;

/// A line on standard error that shows the state, and is gone at the end.
/// Nothing is written where that is not a terminal.
pub struct Progress {
    bar: ProgressBar,
}

impl Progress {
    /// Of one job, whose steps are shown.
    pub fn of_one(quiet: bool) -> Progress {
        Progress::new(quiet, None, "{spinner} {wide_msg}")
    }

    /// Of so many jobs: a bar, the count of those done and the last of them.
    pub fn of_many(quiet: bool, jobs: usize) -> Progress {
        let jobs = u64::try_from(jobs).unwrap_or(u64::MAX);
        Progress::new(quiet, Some(jobs), "[{bar:20}] {pos}/{len} {wide_msg}")
    }

    fn new(quiet: bool, jobs: Option<u64>, template: &str) -> Progress {
        let target = match quiet {
            true => ProgressDrawTarget::hidden(),
            false => ProgressDrawTarget::stderr(),
        };
        let style = ProgressStyle::with_template(template);
        let style = style.unwrap_or_else(|_| ProgressStyle::default_bar());
        let bar = ProgressBar::with_draw_target(jobs, target).with_style(style);
        Progress { bar }
    }

    /// Shows what is being done.
    pub fn show(&self, text: &str) {
        self.bar.set_message(fit(text));
        self.bar.tick();
    }

    /// Shows that one more job is done.
    pub fn done(&self, text: &str) {
        self.bar.set_message(fit(text));
        self.bar.inc(1);
    }

    /// Does what writes to the terminal, without the line in its way.
    pub fn aside<T>(&self, write: impl FnOnce() -> T) -> T {
        self.bar.suspend(write)
    }
}

/// Control characters of a file name would move the cursor.
fn fit(text: &str) -> String {
    let shown = text.chars().filter(|letter| !letter.is_control());
    shown.take(WIDTH).collect()
}

impl Drop for Progress {
    fn drop(&mut self) {
        self.bar.finish_and_clear();
    }
}
