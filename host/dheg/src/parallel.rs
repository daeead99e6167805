//! Jobs on all processors, their results in order.

use std::collections::BTreeMap;
use std::num::NonZeroUsize;
use std::sync::atomic::{AtomicUsize, Ordering};
use std::sync::mpsc::{self, Receiver, Sender};
use std::thread;

/// Runs `count` jobs, as many at once as there are processors, and gives each
/// result to `take`, in the order of the jobs and as early as that allows. Where
/// `take` fails, no further job is begun.
pub fn in_order<T: Send, E>(
    count: usize,
    job: impl Fn(usize) -> T + Sync,
    take: impl FnMut(usize, T) -> Result<(), E>,
) -> Result<(), E> {
    let next = AtomicUsize::new(0);
    let begin = || Some(next.fetch_add(1, Ordering::Relaxed)).filter(|&index| index < count);
    let (send, results) = mpsc::channel();
    let work = |send: Sender<(usize, T)>| {
        while let Some(index) = begin() {
            // Nobody listens any more where `take` has failed.
            let _ = send.send((index, job(index)));
        }
    };
    let work = &work;
    thread::scope(|scope| {
        let start = |_| {
            let send = send.clone();
            let thread = thread::Builder::new().spawn_scoped(scope, move || work(send));
            thread.is_ok()
        };
        // A system may refuse threads; without any, all is done here.
        if !(0..processors().min(count))
            .map(start)
            .fold(false, |any, one| any | one)
        {
            work(send.clone());
        }
        drop(send);
        let outcome = give_in_order(&results, take);
        next.store(count, Ordering::Relaxed);
        outcome
    })
}

fn processors() -> usize {
    thread::available_parallelism().map_or(1, NonZeroUsize::get)
}

/// A result waits for those before it.
fn give_in_order<T, E>(
    results: &Receiver<(usize, T)>,
    mut take: impl FnMut(usize, T) -> Result<(), E>,
) -> Result<(), E> {
    let mut waiting = BTreeMap::new();
    let mut due = 0;
    for (index, result) in results {
        waiting.insert(index, result);
        while let Some(result) = waiting.remove(&due) {
            take(due, result)?;
            due += 1;
        }
    }
    Ok(())
}

#[cfg(test)]
mod tests {
    use super::*;
    use std::time::Duration;

    /// The earlier a job is, the longer it takes.
    #[test]
    fn results_in_order() {
        let mut taken = Vec::new();
        let job = |index: usize| {
            let wait = u64::try_from(20 - index).unwrap();
            thread::sleep(Duration::from_millis(wait));
            index * index
        };
        let outcome = in_order::<_, ()>(20, job, |index, square| {
            taken.push((index, square));
            Ok(())
        });
        assert_eq!(outcome, Ok(()));
        let expected: Vec<_> = (0..20).map(|index| (index, index * index)).collect();
        assert_eq!(taken, expected);
    }

    #[test]
    fn no_jobs() {
        let outcome = in_order(0, |index| index, |_, _| Err("taken"));
        assert_eq!(outcome, Ok(()));
    }

    /// Every job is begun once, and two of them at once where there are two
    /// processors.
    #[test]
    fn several_at_once() {
        let (running, most) = (AtomicUsize::new(0), AtomicUsize::new(0));
        let job = |_| {
            let now = running.fetch_add(1, Ordering::SeqCst) + 1;
            most.fetch_max(now, Ordering::SeqCst);
            thread::sleep(Duration::from_millis(20));
            running.fetch_sub(1, Ordering::SeqCst);
        };
        let mut count = 0;
        in_order::<_, ()>(12, job, |_, ()| {
            count += 1;
            Ok(())
        })
        .unwrap();
        assert_eq!(count, 12);
        assert_eq!(most.into_inner(), processors().min(12));
    }

    #[test]
    fn no_further_job_after_a_failure() {
        let begun = AtomicUsize::new(0);
        let job = |index| {
            begun.fetch_add(1, Ordering::SeqCst);
            thread::sleep(Duration::from_millis(5));
            index
        };
        let outcome = in_order(1000, job, |index, _| match index {
            3 => Err("closed"),
            _ => Ok(()),
        });
        assert_eq!(outcome, Err("closed"));
        assert!(begun.into_inner() < 1000);
    }
}
