//! Writes bits into bytes, the most significant first.
use crate::cover::{Cover, Field};

#[derive(Default)]
pub struct Pen {
    pub bytes: Vec<u8>,
    pub cover: Cover,
    held: u64,
    count: u32,
}

impl Pen {
    pub fn clear(&mut self) {
        self.bytes.clear();
        self.held = 0;
        self.count = 0;
    }

    /// How many bits were written.
    pub fn position(&self) -> u32 {
        8 * self.bytes.len() as u32 + self.count
    }

    /// The low `bits` bits of the value; at most 56.
    pub fn put(&mut self, value: u64, bits: u32) {
        self.held = self.held << bits | value & ((1 << bits) - 1);
        self.count += bits;
        while self.count >= 8 {
            self.count -= 8;
            self.bytes.push((self.held >> self.count) as u8);
        }
    }

    /// A field whose values are counted.
    pub fn field(&mut self, field: Field, value: u32, bits: u32) {
        self.cover.mark(field, u64::from(value));
        self.put(u64::from(value), bits);
    }

    /// Zeros, then a one.
    pub fn unary(&mut self, mut zeros: u32) {
        while zeros >= 32 {
            self.put(0, 32);
            zeros -= 32;
        }
        self.put(1, zeros + 1);
    }

    /// Fills up the last byte with bits of `padding`.
    pub fn align(&mut self, padding: u64) {
        self.put(padding, (8 - self.count) % 8);
    }
}
