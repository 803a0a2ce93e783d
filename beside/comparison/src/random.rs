//! A small seeded generator (splitmix64), so that a seed and an index name one script for good.

const STEP: u64 = 0x9e37_79b9_7f4a_7c15;

pub struct Random(u64);

impl Random {
    /// The numbers of script `index` under `seed`.
    pub fn of(seed: u64, index: u64) -> Self {
        let mut random = Self(seed);
        let mixed = random.word();
        random.0 = mixed ^ index.wrapping_mul(STEP);
        random.word();
        random
    }

    pub fn word(&mut self) -> u64 {
        self.0 = self.0.wrapping_add(STEP);
        let mut word = self.0;
        word = (word ^ (word >> 30)).wrapping_mul(0xbf58_476d_1ce4_e5b9);
        word = (word ^ (word >> 27)).wrapping_mul(0x94d0_49bb_1331_11eb);
        word ^ (word >> 31)
    }

    /// 0 to `count` - 1.
    pub fn below(&mut self, count: u64) -> u64 {
        self.word() % count
    }

    /// `low` to `high`, both included.
    pub fn between(&mut self, low: u64, high: u64) -> u64 {
        low + self.below(high - low + 1)
    }

    pub fn percent(&mut self, share: u64) -> bool {
        self.below(100) < share
    }

    pub fn pick<T: Copy>(&mut self, items: &[T]) -> T {
        items[self.below(items.len() as u64) as usize]
    }
}
