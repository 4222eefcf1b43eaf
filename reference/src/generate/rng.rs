//! Random numbers, and the numbers of records that look for edges.

use crate::numbers::ONE;

/// A small source of random numbers (xorshift), the same ones for the same seed.
#[derive(Clone, Debug)]
pub struct Rng(u64);

impl Rng {
    /// A source that starts from the given seed.
    pub fn new(seed: u64) -> Self {
        // The state must not be zero; spread small seeds over all the bits.
        Rng(seed.wrapping_mul(0x9e37_79b9_7f4a_7c15) | 1)
    }

    /// The next 64 random bits.
    #[allow(clippy::should_implement_trait)]
    pub fn next(&mut self) -> u64 {
        self.0 ^= self.0 << 13;
        self.0 ^= self.0 >> 7;
        self.0 ^= self.0 << 17;
        self.0.wrapping_mul(0x2545_f491_4f6c_dd1d)
    }

    /// A random number below n; 0 where n is 0.
    pub fn below(&mut self, n: usize) -> usize {
        // The high bits are the better ones.
        ((self.next() >> 11) % (n.max(1) as u64)) as usize
    }

    /// Yes, once in n times on the whole.
    pub fn once_in(&mut self, n: usize) -> bool {
        self.below(n) == 0
    }

    /// One of a few things; the given one where there are none.
    pub fn pick<T: Copy>(&mut self, from: &[T], otherwise: T) -> T {
        let at = self.below(from.len());
        from.get(at).copied().unwrap_or(otherwise)
    }

    /// A random number lo..hi, both ends among them; lo where hi is below it.
    pub fn between(&mut self, lo: i32, hi: i32) -> i32 {
        let span = (i64::from(hi) - i64::from(lo)).max(0) + 1;
        (i64::from(lo) + self.below(span as usize) as i64) as i32
    }

    /// A random record number: common ones, small ones, edges, and any at all.
    pub fn number(&mut self) -> i32 {
        match self.below(8) {
            0 => 0,
            1 => self.pick(&[1, -1, ONE, -ONE, ONE - 1, ONE + 1, 500_000, -500_000], 0),
            2 => self.pick(&[i32::MIN, i32::MAX, i32::MIN + 1, i32::MAX - 1], 0),
            3 => self.between(-10, 10),
            4 | 5 => self.between(0, ONE),
            6 => self.between(-100 * ONE, 100 * ONE),
            _ => self.next() as i32,
        }
    }

    /// A random record number that is not below the given one.
    pub(super) fn number_from(&mut self, lo: i32) -> i32 {
        let v = self.number();
        if v >= lo {
            v
        } else {
            self.between(lo, i32::MAX)
        }
    }

    /// A gamma that is carried, in millionths: a whole one, or any count of tenths.
    pub(super) fn gamma(&mut self) -> i32 {
        if self.once_in(2) {
            self.between(1, 4) * ONE
        } else {
            self.between(1, 40) * (ONE / 10)
        }
    }

    /// A gamma near those that are carried, in millionths: a count of twentieths, below 0 and above 4 too.
    pub fn near_gamma(&mut self) -> i32 {
        self.between(-3, 90) * (ONE / 20)
    }

    /// A byte, zero and the ends more often than the others.
    pub(super) fn byte(&mut self) -> u8 {
        match self.below(6) {
            0 => 0,
            1 => 255,
            _ => self.next() as u8,
        }
    }
}
