//! Random numbers: splitmix64.
#[derive(Clone)]
pub struct Rng(pub u64);
impl Rng {
    /// For one case of one part of the program
    pub fn of_case(seed: u64, part: &str, number: u64) -> Rng {
        let part = part.bytes().fold(0u64, |h, b| (h ^ b as u64).wrapping_mul(0x100_0000_01B3));
        let mut rng = Rng(seed ^ part.rotate_left(32) ^ number.wrapping_mul(0xD1B5_4A32_D192_ED03));
        rng.next();
        rng
    }
    pub fn next(&mut self) -> u64 {
        self.0 = self.0.wrapping_add(0x9E37_79B9_7F4A_7C15);
        let z = (self.0 ^ (self.0 >> 30)).wrapping_mul(0xBF58_476D_1CE4_E5B9);
        let z = (z ^ (z >> 27)).wrapping_mul(0x94D0_49BB_1331_11EB);
        z ^ (z >> 31)
    }
    pub fn below(&mut self, n: u32) -> u32 {
        ((self.next() >> 32) % n as u64) as u32
    }
    pub fn one_in(&mut self, n: u32) -> bool {
        self.below(n) == 0
    }
    pub fn of<T: Copy>(&mut self, list: &[T]) -> T {
        list[self.below(list.len() as u32) as usize]
    }
    /// A word that is often near the edge of some list of codes
    pub fn code(&mut self) -> u32 {
        match self.below(4) {
            0 => self.below(14),
            1 => self.of(&[
                1, 3, 5, 11, 15, 27, 35, 43, 59, 75, 129, 2, 4, 6, 9, 10, 11, 128, 130, 255, 256, 257, 259, 261, 385,
                1025, 4096,
            ]),
            2 => 1 << self.below(32),
            _ => self.next() as u32,
        }
    }
}
