//! Properties of random input, always the same for a seed. Input that shows a
//! property to be false is made as small as it goes: calls and damage are left
//! out and numbers lowered while it still fails.

use proptest::strategy::Strategy;
use proptest::test_runner::{Config, RngAlgorithm, TestError, TestRng, TestRunner};
use std::fmt::Debug;

/// How often smaller input is tried.
const SHRINKS: u32 = 20_000;

/// For how many milliseconds at most.
const SHRINK_TIME: u32 = 120_000;

/// The smallest input found that makes the property panic, with the panic's
/// words; none where it holds in all cases.
pub fn counterexample<S: Strategy>(
    seed: u8,
    cases: u32,
    input: &S,
    property: impl Fn(&S::Value),
) -> Option<(String, S::Value)> {
    let config = Config {
        cases,
        max_shrink_iters: SHRINKS,
        max_shrink_time: SHRINK_TIME,
        // The seed is fixed, so that a failure comes again without a file of it.
        failure_persistence: None,
        ..Config::default()
    };
    let rng = TestRng::from_seed(RngAlgorithm::ChaCha, &[seed; 32]);
    let run = TestRunner::new_with_rng(config, rng).run(input, |value| {
        property(&value);
        Ok(())
    });
    match run {
        Ok(()) => None,
        Err(TestError::Fail(why, value)) => Some((why.to_string(), value)),
        Err(TestError::Abort(why)) => panic!("no input: {why}"),
    }
}

/// Asserts that the property panics for none of so many random inputs.
pub fn assert_holds<S: Strategy>(seed: u8, cases: u32, input: &S, property: impl Fn(&S::Value))
where
    S::Value: Debug,
{
    if let Some((why, value)) = counterexample(seed, cases, input, property) {
        panic!("{why}\nsmallest failing input: {value:?}");
    }
}

#[cfg(test)]
mod tests {
    use super::*;
    use proptest::collection::vec;
    use std::cell::RefCell;

    fn numbers() -> impl Strategy<Value = Vec<u32>> {
        vec(0..1_u32 << 24, 0..50)
    }

    /// What is not needed for the failure is left out, and the rest is lowered.
    #[test]
    fn smallest_input() {
        let found = counterexample(1, 100, &numbers(), |numbers| {
            assert!(numbers.iter().all(|&number| number <= 1000), "above 1000");
        });
        let (why, numbers) = found.expect("some number is above 1000");
        assert_eq!(numbers, [1001]);
        assert!(why.contains("above 1000"), "{why}");
    }

    #[test]
    fn none_where_the_property_holds() {
        let runs = RefCell::new(0);
        let found = counterexample(1, 100, &numbers(), |numbers| {
            *runs.borrow_mut() += 1;
            assert!(numbers.len() < 50);
        });
        assert_eq!((found, runs.into_inner()), (None, 100));
    }

    /// A seed gives the same input in each run, and another seed another.
    #[test]
    fn input_of_a_seed() {
        let input = |seed| {
            let all = RefCell::new(Vec::new());
            assert_holds(seed, 10, &numbers(), |numbers| {
                all.borrow_mut().push(numbers.clone());
            });
            all.into_inner()
        };
        assert_eq!(input(1), input(1));
        assert_ne!(input(1), input(2));
    }

    #[test]
    #[should_panic(expected = "smallest failing input: [1001]")]
    fn failure_shows_the_smallest_input() {
        assert_holds(1, 100, &numbers(), |numbers| {
            assert!(numbers.iter().all(|&number| number <= 1000));
        });
    }
}
