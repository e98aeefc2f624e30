//! The memory behind all banks: the words of each line that was stored. All others are zeros.
use crate::network::Words;
use std::collections::HashMap;
use std::hash::{BuildHasherDefault, Hasher};

/// The hash of a line's number: the halves of a product, one on the other.
#[derive(Default)]
struct LineHasher(u64);

impl Hasher for LineHasher {
    fn finish(&self) -> u64 {
        self.0
    }

    fn write(&mut self, _: &[u8]) {
        unreachable!("a line has a number")
    }

    fn write_u64(&mut self, line: u64) {
        let product = u128::from(line ^ 0x9e37_79b9_7f4a_7c15) * 0xd6e8_feb8_6659_fd93_u128;
        self.0 = (product >> 64) as u64 ^ product as u64;
    }
}

#[derive(Default)]
pub struct Dram {
    lines: HashMap<u64, Words, BuildHasherDefault<LineHasher>>,
}

impl Dram {
    pub fn load(&self, line: u64) -> Words {
        self.lines.get(&line).copied().unwrap_or_default()
    }

    pub fn store(&mut self, line: u64, words: Words) {
        self.lines.insert(line, words);
    }
}
