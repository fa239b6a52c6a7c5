//! Random words, the same for the same seed: xorshift64*. The seed isn't 0.
#![allow(dead_code)] // not every part picks

pub struct Random(pub u64);

impl Random {
    /// By a seed that may be 0
    pub fn seeded(seed: u64) -> Random {
        Random(seed.wrapping_mul(0x9E37_79B9_7F4A_7C15) | 1)
    }

    pub fn word(&mut self) -> u32 {
        self.0 ^= self.0 >> 12;
        self.0 ^= self.0 << 25;
        self.0 ^= self.0 >> 27;
        (self.0.wrapping_mul(0x2545_F491_4F6C_DD1D) >> 32) as u32
    }

    pub fn below(&mut self, n: u32) -> usize {
        (self.word() % n) as usize
    }

    pub fn pick<T: Copy>(&mut self, list: &[T]) -> T {
        list[self.below(list.len() as u32)]
    }

    /// From -most to most.
    pub fn small(&mut self, most: i64) -> i64 {
        i64::from(self.word()) % (2 * most + 1) - most
    }

    /// Words to take noise from
    pub fn pool(&mut self, words: usize) -> Vec<u32> {
        (0..words).map(|_| self.word()).collect()
    }

    /// Words of the pool: any bits. If they are more than it has, over and over
    pub fn noise(&mut self, pool: &[u32], words: usize) -> Vec<u32> {
        if words >= pool.len() {
            return pool.iter().copied().cycle().take(words).collect();
        }
        let at = self.below((pool.len() - words) as u32);
        pool[at..at + words].to_vec()
    }
}
