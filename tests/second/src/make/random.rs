//! A small generator of random numbers (splitmix64), so that a seed decides a pack.

pub struct Random {
    state: u64,
}

impl Random {
    pub fn new(seed: u64, case: u64) -> Random {
        let mut random = Random { state: seed };
        let start = random.bits();
        Random {
            state: start ^ case.wrapping_mul(0xD6E8_FEB8_6659_FD93),
        }
    }

    pub fn bits(&mut self) -> u64 {
        self.state = self.state.wrapping_add(0x9E37_79B9_7F4A_7C15);
        let mut mixed = self.state;
        mixed = (mixed ^ (mixed >> 30)).wrapping_mul(0xBF58_476D_1CE4_E5B9);
        mixed = (mixed ^ (mixed >> 27)).wrapping_mul(0x94D0_49BB_1331_11EB);
        mixed ^ (mixed >> 31)
    }

    /// A number from 0 up to, not including, `n`.
    pub fn below(&mut self, n: usize) -> usize {
        (self.bits() % n as u64) as usize
    }

    /// A number from `low` to `high`, both included.
    pub fn range(&mut self, low: i64, high: i64) -> i64 {
        low + self.below((high - low + 1) as usize) as i64
    }

    pub fn one_in(&mut self, n: usize) -> bool {
        self.below(n) == 0
    }

    pub fn pick<T: Copy>(&mut self, list: &[T]) -> T {
        list[self.below(list.len())]
    }

    /// The column of a base.
    pub fn base(&mut self) -> usize {
        24 + self.below(8)
    }

    /// A column that a sheet with V unknowns may use.
    pub fn column(&mut self, v: usize) -> usize {
        if v > 0 && self.one_in(2) {
            self.below(v)
        } else {
            self.base()
        }
    }

    pub fn sign(&mut self) -> i64 {
        self.pick(&[-1, 1])
    }
}
