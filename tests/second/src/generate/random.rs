//! A small random number generator (splitmix64), the same on every machine.

pub struct Random(u64);

impl Random {
    /// A sequence of its own for each seed and index.
    pub fn new(seed: u64, index: u64) -> Random {
        let mut random = Random(seed);
        let start = random.next() ^ index.wrapping_mul(0xd134_2543_de82_ef95);
        let mut random = Random(start);
        Random(random.next())
    }

    pub fn next(&mut self) -> u64 {
        self.0 = self.0.wrapping_add(0x9e37_79b9_7f4a_7c15);
        let mut z = self.0;
        z = (z ^ (z >> 30)).wrapping_mul(0xbf58_476d_1ce4_e5b9);
        z = (z ^ (z >> 27)).wrapping_mul(0x94d0_49bb_1331_11eb);
        z ^ (z >> 31)
    }

    pub fn word(&mut self) -> u32 {
        self.next() as u32
    }

    /// A number below `limit`, which is not 0.
    pub fn below(&mut self, limit: u32) -> u32 {
        let product = u64::from(self.word()) * u64::from(limit);
        (product >> 32) as u32
    }

    /// A number from `low` to `high`, both included.
    pub fn between(&mut self, low: u32, high: u32) -> u32 {
        low + self.below(high - low + 1)
    }

    /// True `percent` times in a hundred.
    pub fn percent(&mut self, percent: u32) -> bool {
        self.below(100) < percent
    }

    /// One of `items`, of which there is one at least.
    pub fn pick<T: Copy>(&mut self, items: &[T]) -> T {
        items[self.index(items.len())]
    }

    /// An index into a list of `length`, which is not 0.
    pub fn index(&mut self, length: usize) -> usize {
        self.below(length as u32) as usize
    }

    /// An index, each as likely as its weight says.
    pub fn weighted(&mut self, weights: &[u32]) -> usize {
        let mut rest = self.below(weights.iter().sum());
        for (i, &weight) in weights.iter().enumerate() {
            if rest < weight {
                return i;
            }
            rest -= weight;
        }
        weights.len() - 1
    }

    /// A word such as ints and offsets have: small, near 2^32, or anything.
    pub fn number(&mut self) -> u32 {
        match self.weighted(&[60, 20, 8, 6, 6]) {
            0 => self.below(5),
            1 => 0u32.wrapping_sub(self.between(1, 4)),
            2 => self.below(40),
            3 => self.word(),
            _ => self.pick(&[65_535, 65_536, 65_537, 1 << 31, u32::MAX]),
        }
    }
}
