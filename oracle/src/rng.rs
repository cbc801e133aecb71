//! Random numbers, the same for the same seed.
use crate::cases::PAGE;

/// Splitmix64.
pub struct Rng(u64);

impl Rng {
    pub fn new(seed: u64) -> Self {
        Self(seed)
    }

    pub fn next(&mut self) -> u64 {
        self.0 = self.0.wrapping_add(0x9e37_79b9_7f4a_7c15);
        let x = (self.0 ^ self.0 >> 30).wrapping_mul(0xbf58_476d_1ce4_e5b9);
        let x = (x ^ x >> 27).wrapping_mul(0x94d0_49bb_1331_11eb);
        x ^ x >> 31
    }

    pub fn below(&mut self, n: u64) -> u64 {
        self.next() % n
    }

    pub fn one_in(&mut self, n: u64) -> bool {
        self.below(n) == 0
    }

    pub fn pick<A: Copy>(&mut self, from: &[A]) -> A {
        from[self.below(from.len() as u64) as usize]
    }

    pub fn shuffle<A>(&mut self, items: &mut [A]) {
        for i in (1..items.len()).rev() {
            items.swap(i, self.below(i as u64 + 1) as usize);
        }
    }

    /// A number at, or close to, x.
    pub fn near(&mut self, x: u64) -> u64 {
        match self.below(10) {
            0..=4 => x,
            5 => x.wrapping_add(1),
            6 => x.wrapping_sub(1),
            7 => x.wrapping_add(self.pick(&[2, 0x7ff, 0x800, 0xfff, 0x1001])),
            8 => x.wrapping_sub(self.pick(&[2, 0x7ff, 0x800, 0xfff, 0x1001])),
            _ => x.wrapping_add(self.below(PAGE)),
        }
    }
}
