//! A copy of the block image, in block order (§1.3). Only this file and `first_track` know where the sectors of a
//! block stand in the image.

use crate::field::SECTOR_LEN;
use crate::geometry::{image_sector, BLOCKS, BLOCK_LEN, IMAGE_LEN, SECTORS};
use crate::reply::{Lent, Refusal};

/// The disk's blocks, one after another.
#[derive(Clone, Debug, PartialEq, Eq)]
pub struct Disk {
    bytes: Vec<u8>,
}

impl Disk {
    /// A disk of zero bytes.
    pub fn zero() -> Disk {
        Disk {
            bytes: vec![0; IMAGE_LEN],
        }
    }

    /// The disk of an image (§1.3); refusal 1 if the image has a wrong length.
    pub fn of_image(image: &[u8]) -> Result<Disk, Refusal> {
        judge_image_len(image)?;
        let mut disk = Disk::zero();
        for running in 0..SECTORS {
            let sector = sector_at(image_sector(running));
            disk.bytes[sector_at(running)].copy_from_slice(&image[sector]);
        }
        Ok(disk)
    }

    /// Writes the disk over an image, every sector at its place.
    pub fn write_to(&self, image: &mut [u8]) {
        for running in 0..SECTORS {
            let sector = sector_at(image_sector(running));
            image[sector].copy_from_slice(&self.bytes[sector_at(running)]);
        }
    }

    /// The bytes of a block.
    pub fn block(&self, block: usize) -> &[u8] {
        assert!(block < BLOCKS);
        &self.bytes[BLOCK_LEN * block..BLOCK_LEN * (block + 1)]
    }

    /// The bytes of a block, to change them.
    pub fn block_mut(&mut self, block: usize) -> &mut [u8] {
        assert!(block < BLOCKS);
        &mut self.bytes[BLOCK_LEN * block..BLOCK_LEN * (block + 1)]
    }
}

/// Refusal 1 if the slice has not the bytes of a block image (§7.1).
pub fn judge_image_len(image: &[u8]) -> Result<(), Refusal> {
    if image.len() == IMAGE_LEN {
        Ok(())
    } else {
        Err(Refusal::Size(Lent::Blocks))
    }
}

/// Where the bytes of the sector with this number stand (§1.2).
fn sector_at(number: usize) -> std::ops::Range<usize> {
    SECTOR_LEN * number..SECTOR_LEN * (number + 1)
}
