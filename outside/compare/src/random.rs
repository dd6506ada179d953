//! Random numbers that a seed repeats (SplitMix64).

#[derive(Clone)]
pub struct Random(u64);

impl Random {
    /// The numbers of one pair depend on the run's seed and the pair's index alone, so that each pair can be made again by itself.
    pub fn of_pair(seed: u64, index: u64) -> Random {
        let mut start = Random(seed);
        let mixed = start.next() ^ index.wrapping_mul(0xD134_2543_DE82_EF95);
        Random(Random(mixed).next())
    }

    pub fn next(&mut self) -> u64 {
        self.0 = self.0.wrapping_add(0x9E37_79B9_7F4A_7C15);
        let mut z = self.0;
        z = (z ^ (z >> 30)).wrapping_mul(0xBF58_476D_1CE4_E5B9);
        z = (z ^ (z >> 27)).wrapping_mul(0x94D0_49BB_1331_11EB);
        z ^ (z >> 31)
    }

    /// A number below `bound`, which is not 0.
    pub fn below(&mut self, bound: usize) -> usize {
        ((self.next() as u128 * bound as u128) >> 64) as usize
    }

    /// A number from `low` to `high`, both included.
    pub fn within(&mut self, low: usize, high: usize) -> usize {
        low + self.below(high - low + 1)
    }

    /// True in about `percent` of 100 cases.
    pub fn chance(&mut self, percent: usize) -> bool {
        self.below(100) < percent
    }

    pub fn pick<T: Copy>(&mut self, from: &[T]) -> T {
        from[self.below(from.len())]
    }

    /// An index below `count` for which `wanted` holds, or none.
    pub fn index_where(&mut self, count: usize, wanted: impl Fn(usize) -> bool) -> Option<usize> {
        let found: Vec<usize> = (0..count).filter(|&i| wanted(i)).collect();
        if found.is_empty() {
            None
        } else {
            Some(self.pick(&found))
        }
    }

    pub fn bytes(&mut self, count: usize) -> Vec<u8> {
        let mut bytes: Vec<u8> = (0..(count + 7) / 8).flat_map(|_| self.next().to_le_bytes()).collect();
        bytes.truncate(count);
        bytes
    }
}
