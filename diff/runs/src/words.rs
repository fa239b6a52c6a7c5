//! All that a run lends, as words, and calls of the library's entries.
use crate::rng::Rng;
use oof::ffi::{self, Lent, Reply, ANSWER, STATE};
use oracle::case::{Case, CANDIDATE, LAYOUT, STYLE};
use oracle::run::Kind;

#[derive(Clone, PartialEq, Debug)]
pub struct Words {
    /// width, height, offset x, offset y, direction, claims, overflow x, overflow y
    pub area: [u32; 8],
    pub styles: Vec<u32>,
    pub candidates: Vec<u32>,
    pub layouts: Vec<u32>,
    pub working: Vec<u32>,
    pub unclaimed: Vec<u32>,
    /// A word for each item: how many of the run's questions about it are answered
    pub tally: Vec<u32>,
    pub state: [u32; STATE],
    pub answer: [u32; ANSWER],
}

/// A reply's kind and its words: 2, 1, 1 or 4 of them
#[derive(Clone, Debug)]
pub struct Said {
    pub kind: Kind,
    pub values: [u32; 4],
    pub surfaced: Vec<u32>,
}
impl Said {
    /// From the words of an oracle's host
    pub fn new(kind: Kind, words: &[u32]) -> Said {
        let mut values = [0; 4];
        let count = words.len().min(4);
        values[..count].copy_from_slice(&words[..count]);
        Said { kind, values, surfaced: words[count..].to_vec() }
    }
    /// As an entry takes it
    pub fn reply(&self) -> Reply {
        let [a, b, c, d] = self.values.map(f32::from_bits);
        match self.kind {
            Kind::Both => Reply::Both(a, b),
            Kind::Width => Reply::Width(a),
            Kind::Height => Reply::Height(a),
            Kind::LayOut => Reply::LaidOut([a, b, c, d]),
        }
    }
}

impl Words {
    /// A case's words; what the library is to write holds noise
    pub fn lend(case: &Case, working: usize, unclaimed: usize, rng: &mut Rng) -> Words {
        let mut noise = |count: usize| (0..count).map(|_| rng.next() as u32 | 0x0100_0000).collect::<Vec<u32>>();
        Words {
            area: case.area,
            styles: case.styles.concat(),
            candidates: case.candidates.concat(),
            layouts: noise(LAYOUT * case.styles.len()),
            working: noise(CANDIDATE * working),
            unclaimed: noise(CANDIDATE * unclaimed),
            tally: noise(case.styles.len()),
            state: noise(STATE).try_into().unwrap(),
            answer: noise(ANSWER).try_into().unwrap(),
        }
    }
    pub fn items(&self) -> usize {
        self.styles.len() / STYLE
    }
}

/// The library, and one who spoils what it says
#[derive(Default)]
pub struct Library {
    pub saboteur: Option<Saboteur>,
}
impl Library {
    pub fn open(&mut self, w: &mut Words) -> u32 {
        let [width, height, x, y, codes @ ..] = w.area;
        let area = [width, height, x, y].map(f32::from_bits);
        let mut lent = Lent {
            styles: &w.styles,
            layouts: &mut w.layouts,
            working: &mut w.working,
            unclaimed: &mut w.unclaimed,
            tally: &mut w.tally,
            state: &mut w.state,
            answer: &mut w.answer,
        };
        let result = ffi::open(area, codes, &w.candidates, &mut lent);
        self.spoil(result, w)
    }
    pub fn reply(&mut self, said: &Said, w: &mut Words) -> u32 {
        let mut lent = Lent {
            styles: &w.styles,
            layouts: &mut w.layouts,
            working: &mut w.working,
            unclaimed: &mut w.unclaimed,
            tally: &mut w.tally,
            state: &mut w.state,
            answer: &mut w.answer,
        };
        let result = ffi::reply(said.reply(), &said.surfaced, &mut lent);
        self.spoil(result, w)
    }
    fn spoil(&mut self, result: u32, w: &mut Words) -> u32 {
        match &mut self.saboteur {
            Some(saboteur) => saboteur.spoil(result, w),
            None => result,
        }
    }
}

/// Flips one bit of what the library says in one call: of its result, its answer, the state or a lent word
pub struct Saboteur {
    pub rng: Rng,
    /// Calls until then
    pub wait: u32,
    pub done: bool,
}
impl Saboteur {
    fn spoil(&mut self, result: u32, w: &mut Words) -> u32 {
        if self.done || self.wait > 0 {
            self.wait = self.wait.saturating_sub(1);
            return result;
        }
        self.done = true;
        let r = &mut self.rng;
        loop {
            let list: &mut [u32] = match r.below(7) {
                0 => return result ^ (1 << r.below(3)),
                1 => &mut w.answer,
                2 => &mut w.state,
                3 => &mut w.layouts,
                4 => &mut w.working,
                5 => &mut w.unclaimed,
                _ => &mut w.tally,
            };
            if list.is_empty() {
                continue;
            }
            let (at, bit) = (r.below(list.len() as u32) as usize, r.below(32));
            // the sign of a zero isn't compared
            if bit < 31 || list[at] << 1 != 0 {
                list[at] ^= 1 << bit;
                return result;
            }
        }
    }
}
