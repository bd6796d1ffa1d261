//! splitmix64: a case is found again from seed, kind and number alone.

pub struct Rng(u64);

impl Rng {
    pub fn of_case(seed: u64, kind: u64, index: u64) -> Rng {
        let mut mixed = Rng(seed);
        let a = mixed.next() ^ kind.wrapping_mul(0xD1B5_4A32_D192_ED03);
        let b = Rng(a).next() ^ index;
        Rng(Rng(b).next())
    }

    pub fn next(&mut self) -> u64 {
        self.0 = self.0.wrapping_add(0x9E37_79B9_7F4A_7C15);
        let mut z = self.0;
        z = (z ^ (z >> 30)).wrapping_mul(0xBF58_476D_1CE4_E5B9);
        z = (z ^ (z >> 27)).wrapping_mul(0x94D0_49BB_1331_11EB);
        z ^ (z >> 31)
    }

    /// From low to high, both included; low where the two are the wrong way round.
    pub fn range(&mut self, low: i64, high: i64) -> i64 {
        if high <= low {
            return low;
        }
        low + (self.next() % (high - low + 1) as u64) as i64
    }

    pub fn below(&mut self, n: usize) -> usize {
        self.range(0, n as i64 - 1) as usize
    }

    pub fn chance(&mut self, percent: i64) -> bool {
        self.range(0, 99) < percent
    }

    pub fn pick<T: Copy>(&mut self, from: &[T]) -> T {
        from[self.below(from.len())]
    }

    /// An end of the range as often as something between.
    pub fn edge(&mut self, low: i64, high: i64) -> i64 {
        match self.range(0, 3) {
            0 => low,
            1 => high.max(low),
            _ => self.range(low, high),
        }
    }
}
