//! Random choices (splitmix64): a seed gives the same calls everywhere.
pub struct Rng(u64);

impl Rng {
    pub fn new(seed: u64) -> Self {
        Rng(seed)
    }
    pub fn word(&mut self) -> u64 {
        self.0 = self.0.wrapping_add(0x9e37_79b9_7f4a_7c15);
        let z = (self.0 ^ self.0 >> 30).wrapping_mul(0xbf58_476d_1ce4_e5b9);
        let z = (z ^ z >> 27).wrapping_mul(0x94d0_49bb_1331_11eb);
        z ^ z >> 31
    }
    pub fn wide(&mut self) -> u128 {
        (self.word() as u128) << 64 | self.word() as u128
    }
    /// Below n, which is not 0.
    pub fn below(&mut self, n: usize) -> usize {
        ((self.word() as u128 * n as u128) >> 64) as usize
    }
    /// From a to b, both included.
    pub fn between(&mut self, a: usize, b: usize) -> usize {
        a + self.below(b - a + 1)
    }
    pub fn once_in(&mut self, n: usize) -> bool {
        self.below(n) == 0
    }
    pub fn pick<T: Clone>(&mut self, from: &[T]) -> T {
        from[self.below(from.len())].clone()
    }
    pub fn bytes(&mut self, n: usize) -> Vec<u8> {
        (0..n).map(|_| self.word() as u8).collect()
    }
    pub fn shuffle<T>(&mut self, v: &mut [T]) {
        for i in (1..v.len()).rev() {
            v.swap(i, self.below(i + 1));
        }
    }
    /// Shannons: few, as cells have them, or at an end of the range.
    pub fn shannons(&mut self) -> u64 {
        match self.below(16) {
            0 => 0,
            1 => u64::MAX - self.below(3) as u64,
            2 => self.word(),
            3 => self.word() >> self.below(64),
            4..=6 => self.below(300) as u64,
            _ => 6_100_000_000 + self.below(50_000_000_000) as u64,
        }
    }
    /// Tokens: few, or near an edge of a half, or at an end of the range.
    pub fn tokens(&mut self) -> u128 {
        match self.below(16) {
            0 => 0,
            1 => u128::MAX - self.below(3) as u128,
            2 => self.wide(),
            3 => self.wide() >> self.below(128),
            4 => (1 << 64) - 1 + self.below(3) as u128,
            5 => (1 << 127) - 1 + self.below(3) as u128,
            _ => self.below(1_000) as u128,
        }
    }
    /// A total in n parts, n not 0.
    pub fn parts(&mut self, total: u128, n: usize, most: u128) -> Vec<u128> {
        let mut left = total;
        let mut parts = vec![];
        for rest in (0..n as u128).rev() {
            // what the parts behind this one can't carry has to be in it
            let least = left.saturating_sub(most.saturating_mul(rest));
            let part = match self.below(4) {
                _ if rest == 0 => left,
                0 => left,
                1 => left / 2,
                2 => least,
                _ => left / (rest + 1),
            };
            let part = part.clamp(least.min(most), most.min(left));
            left -= part;
            parts.push(part);
        }
        self.shuffle(&mut parts);
        parts
    }
}
