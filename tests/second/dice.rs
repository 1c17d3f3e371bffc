//! Pseudo-random numbers (splitmix64): the same ones from the same seed, so that a difference can
//! be made again.

// each program that takes this file in uses only a part of it
#![allow(dead_code)]

pub struct Dice(pub u64);

impl Dice {
    pub fn next(&mut self) -> u64 {
        self.0 = self.0.wrapping_add(0x9E37_79B9_7F4A_7C15);
        let mut z = self.0;
        z = (z ^ (z >> 30)).wrapping_mul(0xBF58_476D_1CE4_E5B9);
        z = (z ^ (z >> 27)).wrapping_mul(0x94D0_49BB_1331_11EB);
        z ^ (z >> 31)
    }

    pub fn between(&mut self, least: u32, most: u32) -> u32 {
        let values = u64::from(most - least) + 1;
        least + (self.next() % values) as u32
    }

    /// True once in so many throws.
    pub fn once_in(&mut self, throws: u32) -> bool {
        self.between(1, throws) == 1
    }

    pub fn one_of<T: Copy>(&mut self, list: &[T]) -> T {
        list[self.between(0, list.len() as u32 - 1) as usize]
    }
}
