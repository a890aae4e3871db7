//! Random numbers, drawn by a seed.

/// A small generator of numbers.
#[derive(Clone)]
pub struct Dice(u64);

impl Dice {
    /// Starts with a seed.
    pub fn start(seed: u64) -> Dice {
        Dice(seed.wrapping_mul(0x9e3779b97f4a7c15) ^ 0x5851f42d4c957f2d)
    }
    fn next_number(&mut self) -> u64 {
        self.0 = self.0.wrapping_add(0x9e3779b97f4a7c15);
        let mut z = self.0;
        z = (z ^ (z >> 30)).wrapping_mul(0xbf58476d1ce4e5b9);
        z = (z ^ (z >> 27)).wrapping_mul(0x94d049bb133111eb);
        z ^ (z >> 31)
    }
    /// Draws a number below `n`.
    pub fn below(&mut self, n: u64) -> u64 {
        self.next_number() % n
    }
    /// Draws a number from `a` to `b`.
    pub fn from_to(&mut self, a: u64, b: u64) -> u64 {
        a + self.below(b - a + 1)
    }
    /// Draws yes with so many percent.
    pub fn chance(&mut self, percent: u64) -> bool {
        self.below(100) < percent
    }
    /// Draws one of these.
    pub fn pick<T: Clone>(&mut self, all: &[T]) -> T {
        all[self.below(all.len() as u64) as usize].clone()
    }
}
