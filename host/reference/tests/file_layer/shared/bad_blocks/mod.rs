//! Bad blocks: formats with a list of them, disks of other makers, the good
//! word, and room beside them.

mod disks;
mod lists;
mod room;
mod words;

use super::build::{free_blocks, mark_bad, patch};
use support::noise::Generator;

/// A list of up to so many blocks, in any order and some of them more than
/// once; often it is empty.
pub fn random_list(generator: &mut Generator, most: usize) -> Vec<u16> {
    let len = generator.below(2) * generator.below(most + 1);
    let lowest = *generator.choice(&[2, 2, 400]);
    let mut block = || (lowest + generator.below(480 - lowest)) as u16;
    (0..len).map(|_| block()).collect()
}

/// Makes some of the free blocks bad, as another program may, with old bytes in
/// them. Both words are those of the map then.
pub fn random_bad(generator: &mut Generator, image: &mut [u8]) {
    for _ in 0..generator.below(12) {
        let free = free_blocks(image);
        if free.is_empty() {
            return;
        }
        let reach = *generator.choice(&[9, 480]);
        let block = free[generator.below(free.len().min(reach))];
        mark_bad(image, block);
        patch(image, block, 0, &[generator.byte(); 1536]);
    }
}
