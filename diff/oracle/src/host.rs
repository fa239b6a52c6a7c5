//! Hosts: a list of replies, and a pseudo-random one that another program can reproduce (README).
use crate::case::{CANDIDATE, LAYER, MOST_LAYER};
use crate::run::{Host, Kind, Question};

/// Gives the listed replies in turn
pub struct Replies(pub std::vec::IntoIter<Vec<u32>>);

impl Replies {
    pub fn new(replies: Vec<Vec<u32>>) -> Self {
        Self(replies.into_iter())
    }
}
impl Host for Replies {
    fn answer(&mut self, question: &Question) -> Vec<u32> {
        let words = self.0.next().unwrap_or_else(|| panic!("no reply left for {question:?}"));
        let fits = match question.kind {
            Kind::Both => words.len() == 2,
            Kind::Width | Kind::Height => words.len() == 1,
            Kind::LayOut => words.len() >= 4 && (words.len() - 4) % CANDIDATE == 0,
        };
        assert!(fits, "reply {words:?} does not fit {question:?}");
        words
    }
}

#[derive(Copy, Clone, Debug, PartialEq, Eq)]
pub enum Profile {
    Quarter,
    Wild,
    Typical,
}
impl Profile {
    pub const NAMES: [(&'static str, Profile); 3] =
        [("quarter", Profile::Quarter), ("wild", Profile::Wild), ("typical", Profile::Typical)];
    pub fn named(name: &str) -> Option<Profile> {
        Self::NAMES.iter().find(|(n, _)| *n == name).map(|(_, p)| *p)
    }
}

pub const SPECIAL: [u32; 16] = [
    0x0000_0000,
    0x8000_0000,
    0x7F80_0000,
    0xFF80_0000,
    0x7FC0_0000,
    0xFFC0_0001,
    0x0000_0001,
    0x8000_0001,
    0x7F7F_FFFF,
    0xFF7F_FFFF,
    0x0080_0000,
    0x3F80_0000,
    0xBF80_0000,
    0x3F00_0000,
    0x4280_0000,
    0x7F80_0001,
];

/// Layers that tell most: both ends, and small ones
pub const LAYERS: [u32; 4] = [0, 1, 7, MOST_LAYER];

/// state := (1664525 × state + 1013904223) mod 2^32, then the number is floor(state / 65536) mod n
fn draw(state: &mut u32, n: u32) -> u32 {
    *state = state.wrapping_mul(1_664_525).wrapping_add(1_013_904_223);
    (*state >> 16) % n
}

pub struct Random {
    pub state: u32,
    /// Of the layers, so that no other word depends on them
    layers: u32,
    pub profile: Profile,
    /// Items of the case
    pub n: u32,
    /// Candidates still to surface at most
    pub budget: u32,
}
impl Random {
    pub fn new(seed: u32, profile: Profile, n: usize, budget: u32) -> Self {
        Self { state: seed, layers: !seed, profile, n: n as u32, budget }
    }
    pub fn draw(&mut self, n: u32) -> u32 {
        draw(&mut self.state, n)
    }
    fn layer(&mut self) -> u32 {
        let state = &mut self.layers;
        match draw(state, 2) {
            0 => LAYERS[draw(state, 4) as usize],
            _ => draw(state, MOST_LAYER + 1),
        }
    }
    fn wild(&mut self) -> u32 {
        match self.draw(4) {
            0 => {
                let high = self.draw(65536);
                (high << 16) | self.draw(65536)
            }
            1 => SPECIAL[self.draw(16) as usize],
            2 => quarters(self.draw(1601) as i32 - 800),
            _ => quarters(4 * self.draw(101) as i32),
        }
    }
    /// A measured size
    fn size(&mut self) -> u32 {
        match self.profile {
            Profile::Quarter => quarters(self.draw(16385) as i32),
            Profile::Wild => self.wild(),
            Profile::Typical => quarters(4 * self.draw(801) as i32),
        }
    }
    /// A coordinate of either sign
    fn place(&mut self) -> u32 {
        match self.profile {
            Profile::Quarter => quarters(self.draw(32769) as i32 - 16384),
            Profile::Wild => self.wild(),
            Profile::Typical => quarters(4 * (self.draw(1001) as i32 - 200)),
        }
    }
    fn surfaced(&mut self) -> [u32; CANDIDATE] {
        let mut w = [0; CANDIDATE];
        w[0] = self.draw(self.n);
        w[1] = self.draw(8);
        w[2] = [2, 3, 2, 3, 0, 1, 4][self.draw(7) as usize];
        for at in [3, 8] {
            w[at] = self.place();
            w[at + 1] = self.place();
            for i in 2..5 {
                w[at + i] = self.draw(3);
            }
        }
        w[LAYER] = self.layer();
        w
    }
}
pub fn quarters(q: i32) -> u32 {
    (q as f32 * 0.25).to_bits()
}
impl Host for Random {
    fn answer(&mut self, question: &Question) -> Vec<u32> {
        let count = match question.kind {
            Kind::Both => 2,
            Kind::Width | Kind::Height => 1,
            Kind::LayOut => {
                let mut words: Vec<u32> = (0..4).map(|_| self.place()).collect();
                let count = self.draw(3).min(self.budget);
                self.budget -= count;
                (0..count).for_each(|_| words.extend(self.surfaced()));
                return words;
            }
        };
        (0..count).map(|_| self.size()).collect()
    }
}
