//! A small generator of our own (splitmix64): the same numbers from the same seed everywhere.
#[derive(Clone)]
pub struct Prng(pub u64);
impl Prng {
    pub fn next(&mut self) -> u64 {
        self.0 = self.0.wrapping_add(0x9E37_79B9_7F4A_7C15);
        let mut z = self.0;
        z = (z ^ (z >> 30)).wrapping_mul(0xBF58_476D_1CE4_E5B9);
        z = (z ^ (z >> 27)).wrapping_mul(0x94D0_49BB_1331_11EB);
        z ^ (z >> 31)
    }
    /// below `n`
    pub fn below(&mut self, n: usize) -> usize { (self.next() % n as u64) as usize }
    pub fn between(&mut self, low: usize, high: usize) -> usize { low + self.below(high - low + 1) }
    pub fn one_in(&mut self, n: usize) -> bool { self.below(n) == 0 }
}
