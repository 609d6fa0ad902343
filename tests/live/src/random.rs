//! Repeatable random numbers: splitmix64 (Steele, Lea and Flood, 2014).

pub struct Random {
    state: u64,
}

impl Random {
    /// Each name has numbers of its own, so that a routine's inputs do not depend on which others are run.
    pub fn new(seed: u64, name: &str) -> Self {
        let mut random = Random { state: seed };
        for byte in name.bytes() {
            random.state = random.bits() ^ u64::from(byte);
        }
        random
    }

    pub fn bits(&mut self) -> u64 {
        self.state = self.state.wrapping_add(0x9e37_79b9_7f4a_7c15);
        let z = (self.state ^ (self.state >> 30)).wrapping_mul(0xbf58_476d_1ce4_e5b9);
        let z = (z ^ (z >> 27)).wrapping_mul(0x94d0_49bb_1331_11eb);
        z ^ (z >> 31)
    }

    /// A whole number below n.
    pub fn below(&mut self, n: u64) -> u64 {
        ((u128::from(self.bits()) * u128::from(n)) >> 64) as u64
    }

    /// A whole number from -n to n.
    pub fn around_zero(&mut self, n: i64) -> i64 {
        self.below(2 * n as u64 + 1) as i64 - n
    }

    pub fn one_in(&mut self, n: u64) -> bool {
        self.below(n) == 0
    }

    pub fn pick<T: Copy>(&mut self, from: &[T]) -> T {
        from[self.below(from.len() as u64) as usize]
    }
}
