//! Random numbers that a seed repeats (splitmix64).

pub struct Rng(u64);

impl Rng {
    /// The numbers of one list: each list has its own, so that it can be played again by itself.
    pub fn of_list(seed: u64, list: u64) -> Rng {
        let mut mixed = Rng(seed);
        let start = mixed.next();
        Rng(start ^ list.wrapping_mul(0xd1342543de82ef95))
    }

    pub fn next(&mut self) -> u64 {
        self.0 = self.0.wrapping_add(0x9e3779b97f4a7c15);
        let z = (self.0 ^ (self.0 >> 30)).wrapping_mul(0xbf58476d1ce4e5b9);
        let z = (z ^ (z >> 27)).wrapping_mul(0x94d049bb133111eb);
        z ^ (z >> 31)
    }

    /// A number below n.
    pub fn below(&mut self, n: u64) -> u64 {
        (self.next() >> 16) % n
    }

    /// True p times out of 100.
    pub fn chance(&mut self, p: u64) -> bool {
        self.below(100) < p
    }

    pub fn pick<T: Copy>(&mut self, of: &[T]) -> T {
        of[self.below(of.len() as u64) as usize]
    }

    /// A small number, one near a limit, or any.
    pub fn word(&mut self) -> u64 {
        match self.below(8) {
            0..=3 => self.below(10),
            4 => 60 + self.below(10),
            5 => u64::MAX - self.below(3),
            6 => 1 << self.below(64),
            _ => self.next(),
        }
    }

    /// A word near an end of the range of words, or near its middle, or any.
    pub fn total(&mut self) -> u64 {
        let some = self.below(12);
        match self.below(8) {
            0..=1 => some,
            2 => (1 << 63) - 6 + some,
            3..=5 => u64::MAX - some,
            6 => self.next(),
            _ => self.word(),
        }
    }
}
