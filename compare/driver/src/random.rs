//! Numbers for the inputs: the same ones in every run.

/// SplitMix64.
#[derive(Clone)]
pub struct Random(u64);

impl Random {
    pub fn new(seed: u64) -> Self {
        Self(seed)
    }

    pub fn word(&mut self) -> u64 {
        self.0 = self.0.wrapping_add(0x9e37_79b9_7f4a_7c15);
        let mut z = self.0;
        z = (z ^ (z >> 30)).wrapping_mul(0xbf58_476d_1ce4_e5b9);
        z = (z ^ (z >> 27)).wrapping_mul(0x94d0_49bb_1331_11eb);
        z ^ (z >> 31)
    }

    /// A number below n.
    pub fn below(&mut self, n: u64) -> u64 {
        ((u128::from(self.word()) * u128::from(n)) >> 64) as u64
    }

    pub fn index(&mut self, n: usize) -> usize {
        self.below(n as u64) as usize
    }

    /// True once in n.
    pub fn once_in(&mut self, n: u64) -> bool {
        self.below(n) == 0
    }

    pub fn pick<T: Copy>(&mut self, among: &[T]) -> T {
        among[self.index(among.len())]
    }

    pub fn bytes<const N: usize>(&mut self) -> [u8; N] {
        std::array::from_fn(|_| self.word() as u8)
    }

    /// A 64-bit number of any size: near a power of two, near 0, or anywhere.
    pub fn long(&mut self) -> i64 {
        let near = self.below(5) as i64 - 2;
        match self.below(4) {
            0 => (1i64 << self.below(64)).wrapping_add(near),
            1 => (1i64 << self.below(64)).wrapping_neg().wrapping_add(near),
            2 => self.below(200) as i64 - 100,
            _ => (self.word() >> self.below(64)) as i64,
        }
    }

    pub fn int(&mut self) -> i32 {
        match self.below(6) {
            0 => i32::MAX - self.below(2) as i32,
            1 => i32::MIN + self.below(2) as i32,
            2 => -(self.below(3) as i32),
            3 => (self.word() >> 32 >> self.below(32)) as i32,
            _ => self.below(6) as i32,
        }
    }
}
