//! A small generator of numbers for tests: SplitMix64.

pub struct Rng(u64);

impl Rng {
    pub fn new(seed: u64) -> Rng {
        Rng(seed)
    }

    pub fn draw(&mut self) -> u64 {
        self.0 = self.0.wrapping_add(0x9e37_79b9_7f4a_7c15);
        let mut z = self.0;
        z = (z ^ (z >> 30)).wrapping_mul(0xbf58_476d_1ce4_e5b9);
        z = (z ^ (z >> 27)).wrapping_mul(0x94d0_49bb_1331_11eb);
        z ^ (z >> 31)
    }

    pub fn word(&mut self) -> u32 {
        (self.draw() >> 32) as u32
    }

    /// A number below a limit over 0.
    pub fn below(&mut self, limit: usize) -> usize {
        (self.draw() % limit as u64) as usize
    }

    /// Yes, so many times in a hundred.
    pub fn percent(&mut self, times: usize) -> bool {
        self.below(100) < times
    }

    pub fn bit(&mut self) -> u32 {
        self.below(2) as u32
    }

    /// One of a list that is not empty.
    pub fn pick<T: Copy>(&mut self, list: &[T]) -> T {
        list[self.below(list.len())]
    }

    /// A random part of a list with so many members, in the list's order; none where it has
    /// fewer.
    pub fn part<T: Copy>(&mut self, list: &[T], size: usize) -> Option<Vec<T>> {
        let mut left: Vec<usize> = (0..list.len()).collect();
        while left.len() > size {
            left.remove(self.below(left.len()));
        }
        (left.len() == size).then(|| left.into_iter().map(|i| list[i]).collect())
    }
}
