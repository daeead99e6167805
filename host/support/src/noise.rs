//! Bytes made from a seed.

/// A 32-bit linear congruential generator.
#[derive(Clone, Debug)]
pub struct Generator {
    state: u32,
}

impl Generator {
    /// A generator that starts at the seed.
    pub fn new(seed: u32) -> Generator {
        Generator { state: seed }
    }

    /// The next byte: the highest eight bits of the next state.
    pub fn byte(&mut self) -> u8 {
        self.state = self
            .state
            .wrapping_mul(1_664_525)
            .wrapping_add(1_013_904_223);
        (self.state >> 24) as u8
    }

    /// The next number below `limit`, from three bytes. The limit is at
    /// least 1 and at most 2^24.
    pub fn below(&mut self, limit: usize) -> usize {
        let mut number = 0;
        for _ in 0..3 {
            number = number * 256 + usize::from(self.byte());
        }
        number % limit
    }

    /// One of the choices, which are not none.
    pub fn choice<'a, T>(&mut self, choices: &'a [T]) -> &'a T {
        &choices[self.below(choices.len())]
    }
}

/// The first `count` bytes of the generator that starts at `seed`.
pub fn noise(seed: u32, count: usize) -> Vec<u8> {
    let mut generator = Generator::new(seed);
    (0..count).map(|_| generator.byte()).collect()
}

#[cfg(test)]
mod tests {
    use super::*;

    #[test]
    fn begins_as_stated() {
        // From 0: x = 3C6EF35F hex, then 47502932 hex.
        assert_eq!(noise(0, 2), [0x3C, 0x47]);
    }

    #[test]
    fn below_its_limit() {
        let mut generator = Generator::new(5);
        for limit in 1..200 {
            assert!(generator.below(limit) < limit);
        }
    }
}
