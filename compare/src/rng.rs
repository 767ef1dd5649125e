//! Random numbers that a seed gives again.

/// A stream of random numbers.
pub struct Rng(u64);

impl Rng {
    /// The stream of a layout: its place among those of a seed tells it from the others.
    pub fn new(seed: u64, place: u64) -> Rng {
        let mut rng = Rng(seed);
        rng.0 = rng.bits() ^ place.wrapping_mul(0xD6E8_FEB8_6659_FD93);
        rng.bits();
        rng
    }

    /// 64 random bits.
    pub fn bits(&mut self) -> u64 {
        self.0 = self.0.wrapping_add(0x9E37_79B9_7F4A_7C15);
        let x = (self.0 ^ (self.0 >> 30)).wrapping_mul(0xBF58_476D_1CE4_E5B9);
        let x = (x ^ (x >> 27)).wrapping_mul(0x94D0_49BB_1331_11EB);
        x ^ (x >> 31)
    }

    /// A number below `n`, which is not 0.
    pub fn below(&mut self, n: u64) -> u64 {
        ((u128::from(self.bits()) * u128::from(n)) >> 64) as u64
    }

    /// A place below `n`, which is not 0.
    pub fn place(&mut self, n: usize) -> usize {
        self.below(n as u64) as usize
    }

    /// A count from `low` to `high`.
    pub fn count(&mut self, low: usize, high: usize) -> usize {
        low + self.place(high - low + 1)
    }

    /// True once in `n` times.
    pub fn one_in(&mut self, n: u64) -> bool {
        self.below(n) == 0
    }

    /// One of some things.
    pub fn pick<T: Clone>(&mut self, of: &[T]) -> T {
        of[self.place(of.len())].clone()
    }

    /// A number of random length.
    pub fn number(&mut self) -> u64 {
        let length = self.below(64);
        self.bits() >> length
    }

    /// `k` of the numbers below `n`, at most all, in order.
    pub fn choose(&mut self, k: usize, n: usize) -> Vec<usize> {
        let mut left = k.min(n);
        let mut chosen = Vec::with_capacity(left);
        for i in 0..n {
            if self.place(n - i) < left {
                chosen.push(i);
                left -= 1;
            }
        }
        chosen
    }

    /// A number near another one, or the same.
    pub fn near(&mut self, n: u64) -> u64 {
        match self.below(4) {
            0 => n.saturating_sub(1),
            1 => n.saturating_add(1),
            _ => n,
        }
    }
}
