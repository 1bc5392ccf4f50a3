//! For the tests: images by their bytes, as docs/IMAGE.md has them, and chance from a fixed seed.

#![allow(dead_code)]

use lobstercreel::{ProcessId, System, IMAGE};
use std::collections::hash_map::DefaultHasher;
use std::hash::{Hash, Hasher};

pub type Image = [u8; IMAGE];

/// The tag of a message.
pub const PROPOSE: u8 = 0;
pub const RETRY: u8 = 1;
pub const ACC: u8 = 2;
pub const COMMIT: u8 = 3;

/// The places of an image: process p, and in it a record and an entry; a channel; a set of trust.
pub fn process_at(p: u8) -> usize {
    1 + 62 * (usize::from(p) - 1)
}

pub fn record_at(p: u8, q: u8) -> usize {
    process_at(p) + 6 + 3 * (usize::from(q) - 1)
}

pub fn entry_at(p: u8, i: u8) -> usize {
    process_at(p) + 29 + usize::from(i)
}

pub fn channel_at(q: u8, p: u8) -> usize {
    497 + 200 * (usize::from(q) - 1) + 25 * (usize::from(p) - 1)
}

pub fn trust_at(p: u8) -> usize {
    2096 + usize::from(p)
}

/// Where the length of a channel is.
pub const LENGTH: usize = 24;

/// A fresh image of n processes.
pub fn image(n: u8) -> Image {
    *System::fresh(n).unwrap().image()
}

/// Puts a message last on the channel from q to p.
pub fn send(image: &mut Image, q: u8, p: u8, message: [u8; 3]) {
    let channel = channel_at(q, p);
    let length = usize::from(image[channel + LENGTH]);
    image[channel + 3 * length..][..3].copy_from_slice(&message);
    image[channel + LENGTH] += 1;
}

/// The byte of the view of two.
pub fn both(p: u8, q: u8) -> u8 {
    1 << (p - 1) | 1 << (q - 1)
}

/// Every pair of 1 to n.
pub fn pairs(n: u8) -> impl Iterator<Item = (u8, u8)> {
    (1..=n).flat_map(move |q| (1..=n).map(move |p| (q, p)))
}

/// Every process number.
pub fn ids() -> impl Iterator<Item = ProcessId> {
    (0..=u8::MAX).map(ProcessId)
}

pub fn hash(value: &impl Hash) -> u64 {
    let mut hasher = DefaultHasher::new();
    value.hash(&mut hasher);
    hasher.finish()
}

/// Xorshift.
pub struct Chance(u64);

impl Chance {
    pub fn new(seed: u64) -> Chance {
        Chance(seed.wrapping_mul(0x9e37_79b9_7f4a_7c15) | 1)
    }

    pub fn byte(&mut self) -> u8 {
        self.0 ^= self.0 << 13;
        self.0 ^= self.0 >> 7;
        self.0 ^= self.0 << 17;
        (self.0 >> 32) as u8
    }

    /// Less than a limit, which is not 0.
    pub fn below(&mut self, limit: usize) -> usize {
        let wide = usize::from(self.byte()) << 8 | usize::from(self.byte());
        wide % limit
    }

    pub fn one_in(&mut self, times: usize) -> bool {
        self.below(times) == 0
    }
}
