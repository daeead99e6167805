//! A disk and its model, which get the same calls.

use super::answer::{add, check, format, format_bad, remove, Parts};
use super::build::word;
use reference::geometry::IMAGE_LEN;
use reference::model::Model;
use support::noise::noise;

pub struct Disk {
    pub image: Vec<u8>,
    pub model: Model,
}

impl Disk {
    pub fn fresh() -> Disk {
        Disk::formatted(b"DISK", 7, 0)
    }

    /// A disk that is formatted over the bytes of a seed.
    pub fn formatted(name: &[u8], number: u16, seed: u32) -> Disk {
        let mut image = noise(seed, IMAGE_LEN);
        assert_eq!(format(&mut image, name, number), [0; 4]);
        Disk::of(image, Model::format(name, number))
    }

    /// The same with a list of bad blocks.
    pub fn formatted_bad(name: &[u8], number: u16, seed: u32, bad: &[u16]) -> Disk {
        let mut image = noise(seed, IMAGE_LEN);
        assert_eq!(format_bad(&mut image, name, number, bad), [0; 4]);
        Disk::of(image, Model::format_bad(name, number, bad))
    }

    fn of(image: Vec<u8>, model: Option<Model>) -> Disk {
        let model = model.unwrap();
        let disk = Disk { image, model };
        disk.assert_is_the_models();
        disk
    }

    pub fn add(&mut self, name: &[u8], data: &[u8]) -> Parts {
        let reply = add(&mut self.image, name, 5, data);
        assert_eq!(reply, self.model.add(name, 5, data).parts());
        reply
    }

    pub fn remove(&mut self, name: &[u8]) -> Parts {
        let reply = remove(&mut self.image, name);
        assert_eq!(reply, self.model.remove(name).parts());
        reply
    }

    /// The free word, which the model shares.
    pub fn free(&self) -> usize {
        let free = word(&self.image, 20);
        assert_eq!(free, self.model.free_word());
        free
    }

    /// The directory's length in slots.
    pub fn slots(&self) -> usize {
        24 * word(&self.image, 34) + word(&self.image, 36) / 64
    }

    pub fn assert_is_the_models(&self) {
        assert!(self.image == self.model.image(), "another image");
        assert_eq!(check(&self.image), [0; 4]);
    }
}
