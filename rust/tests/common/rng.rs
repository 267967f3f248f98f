//! Random numbers.

/// splitmix64: small, and the same on every machine.
pub struct Rng(u64);

impl Rng {
    pub fn new(seed: u64) -> Self {
        Rng(seed)
    }

    pub fn next(&mut self) -> u64 {
        self.0 = self.0.wrapping_add(0x9e37_79b9_7f4a_7c15);
        let mut z = self.0;
        z = (z ^ z >> 30).wrapping_mul(0xbf58_476d_1ce4_e5b9);
        z = (z ^ z >> 27).wrapping_mul(0x94d0_49bb_1331_11eb);
        z ^ z >> 31
    }

    pub fn byte(&mut self) -> u8 {
        self.next() as u8
    }

    pub fn word(&mut self) -> u32 {
        (self.next() >> 32) as u32
    }

    /// A number below `end`, which is not 0.
    pub fn below(&mut self, end: usize) -> usize {
        (self.next() % end as u64) as usize
    }

    /// The same of 32 bits.
    pub fn under(&mut self, end: u32) -> u32 {
        self.below(end as usize) as u32
    }

    pub fn between(&mut self, low: usize, high: usize) -> usize {
        low + self.below(high - low + 1)
    }

    pub fn chance(&mut self, percent: usize) -> bool {
        self.below(100) < percent
    }

    pub fn pick<T: Copy>(&mut self, from: &[T]) -> T {
        from[self.below(from.len())]
    }

    /// Random cells, one in eight any number, one in eight 255, the others
    /// small, such as states and addresses.
    pub fn cells(&mut self, length: usize) -> Vec<u32> {
        let below = (1 << self.below(14)) - 1;
        let masks = [u32::MAX, 0, below, below, below, below, below, below];
        let fixed = [0, 255, 0, 0, 0, 0, 0, 0];
        let mut cell = || {
            let random = self.next();
            let at = (random % 8) as usize;
            (random >> 32) as u32 & masks[at] | fixed[at]
        };
        (0..length).map(|_| cell()).collect()
    }
}
