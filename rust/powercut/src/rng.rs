//! Random numbers that a seed repeats (splitmix64).

pub struct Rng(u64);

impl Rng {
    /// The numbers that belong to a few words: the same for the same ones.
    pub fn of(words: &[u64]) -> Rng {
        let mut mixed = Rng(0);
        for word in words {
            mixed.0 ^= word;
            mixed.0 = mixed.next();
        }
        mixed
    }

    pub fn next(&mut self) -> u64 {
        self.0 = self.0.wrapping_add(0x9e3779b97f4a7c15);
        let z = (self.0 ^ (self.0 >> 30)).wrapping_mul(0xbf58476d1ce4e5b9);
        let z = (z ^ (z >> 27)).wrapping_mul(0x94d049bb133111eb);
        z ^ (z >> 31)
    }

    /// A number below n.
    pub fn below(&mut self, n: u64) -> u64 {
        (self.next() >> 16) % n
    }
}
