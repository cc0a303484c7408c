//! Generated numbers, calls, lists and damage, from a fixed seed.

use crate::Record;

/// Numbers from a fixed seed (xorshift).
pub struct Numbers(pub u64);

impl Numbers {
    pub fn next(&mut self) -> u64 {
        self.0 ^= self.0 << 13;
        self.0 ^= self.0 >> 7;
        self.0 ^= self.0 << 17;
        self.0
    }

    pub fn below(&mut self, bound: u64) -> u64 {
        self.next() % bound
    }

    /// Periods that share many divisors, with some that do not and some out of range.
    pub fn period(&mut self) -> u64 {
        match self.below(8) {
            0 => self.next() >> self.below(64),
            1 => self.below(4200),
            2 => 1 << self.below(12),
            3 => 7 * (1 + self.below(500)),
            _ => 12 * (1 + self.below(341)),
        }
    }

    /// Rounds near 0, near 2^32, near 2^64 and anywhere.
    pub fn round(&mut self) -> u64 {
        let near = self.below(8192);
        match self.below(4) {
            0 => near,
            1 => (1 << 32) - 4096 + near,
            2 => u64::MAX - near,
            _ => self.next(),
        }
    }

    /// Numbers of rounds of a sheet: none, one, up to 999 and the most.
    pub fn rounds(&mut self) -> u16 {
        match self.below(8) {
            0 => 0,
            1 => 1,
            2 => u16::MAX,
            _ => self.below(1000) as u16,
        }
    }

    /// First rounds of a sheet of so many: near 0, near 2^32, near 2^64 and anywhere. About half of the longer sheets
    /// that begin near 2^32 or 2^64 go over it.
    pub fn first(&mut self, rounds: u16) -> u64 {
        let near = self.below(2 * u64::from(rounds) + 2);
        match self.below(4) {
            0 => near,
            1 => (1 << 32) - near,
            2 => u64::MAX - near,
            _ => self.next(),
        }
    }

    /// Three bytes: mostly an order that can be read.
    pub fn order(&mut self) -> [u8; 3] {
        let line = self.below(64) as u8;
        match self.below(16) {
            0 => [self.next() as u8, self.next() as u8, self.next() as u8],
            1..=5 => [64 + line, 0, 0],
            _ => order(0, line, self.period() as u16 % 4096),
        }
    }

    /// Bytes of a list: mostly some whole orders, some of them with a part of one more.
    pub fn list(&mut self) -> Vec<u8> {
        let count = self.below(40);
        let mut list: Vec<u8> = (0..count).flat_map(|_| self.order()).collect();
        if self.below(8) == 0 {
            list.extend_from_slice(&[0, 1][..1 + self.below(2) as usize]);
        }
        list
    }

    /// Damage to a record: a number changed, or the rows of one line written over another's.
    pub fn damage(&mut self, rows: &mut Record) {
        let line = 22 * self.below(64) as usize;
        let row = 2 * self.below(11) as usize;
        match self.below(4) {
            0 => rows[line + row] = self.below(65536) as u16,
            1 => rows[line + row + 1] = self.below(12) as u16,
            2 => rows[line] = self.below(6) as u16,
            _ => {
                let from = 22 * self.below(64) as usize;
                rows.copy_within(from..from + 22, line);
            }
        }
    }

    fn bytes(&mut self, count: u64) -> Vec<u8> {
        (0..count).map(|_| self.next() as u8).collect()
    }

    /// Damage to a copy of an image: bytes cut off or added, other bytes, or a bit changed, of the first bytes, of the last
    /// one or of any.
    pub fn damaged_image(&mut self, image: &[u8]) -> Vec<u8> {
        let length = image.len() as u64;
        let (kind, count) = (self.below(8), self.below(40));
        match kind {
            0 => image[..self.below(length) as usize].to_vec(),
            1 => [image, &self.bytes(1 + count / 10)].concat(),
            2 => self.bytes(count),
            3 => with_bit_changed(image, self.below(8 * length.min(3))),
            4 => with_bit_changed(image, 8 * (length - 1) + self.below(8)),
            _ => with_bit_changed(image, self.below(8 * length)),
        }
    }
}

/// The bits are counted from the most significant one of the first byte on.
fn with_bit_changed(bytes: &[u8], bit: u64) -> Vec<u8> {
    let mut changed = bytes.to_vec();
    changed[bit as usize / 8] ^= 128 >> (bit % 8);
    changed
}

/// The three bytes of an order.
pub fn order(kind: u8, line: u8, period: u16) -> [u8; 3] {
    [kind << 6 | line, (period >> 4) as u8, (period << 4) as u8]
}
