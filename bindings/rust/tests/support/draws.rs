//! Random numbers from a fixed seed (xorshift64*).

pub struct Draws(u64);

impl Draws {
    /// The seed is not 0.
    pub fn new(seed: u64) -> Draws {
        let mut draws = Draws(seed);
        for _ in 0..8 {
            draws.next();
        }
        draws
    }

    pub fn next(&mut self) -> u64 {
        self.0 ^= self.0 >> 12;
        self.0 ^= self.0 << 25;
        self.0 ^= self.0 >> 27;
        self.0.wrapping_mul(0x2545_F491_4F6C_DD1D)
    }

    /// 0 to n - 1; n is at most 2^32.
    pub fn below(&mut self, n: usize) -> usize {
        (((self.next() >> 32) * n as u64) >> 32) as usize
    }

    pub fn between(&mut self, least: i64, most: i64) -> i64 {
        least + self.below((most - least + 1) as usize) as i64
    }

    /// True once in n times.
    pub fn once_in(&mut self, n: usize) -> bool {
        self.below(n) == 0
    }

    pub fn one_of<T: Copy>(&mut self, list: &[T]) -> T {
        list[self.below(list.len())]
    }

    /// A length that is enough, exactly or with entries to spare.
    pub fn enough(&mut self, need: usize) -> usize {
        need + if self.once_in(2) { 0 } else { self.below(40) }
    }
}
