//! The static library, over words lent once.
use crate::scene::{Scene, MEASURED};
use oof::ffi::{self, Finished, Lent, Replacement, Reply, ANSWER, STATE};
use oracle::case::{CANDIDATE, LAYOUT};

pub struct Words {
    area: [f32; 4],
    codes: [u32; 4],
    pub styles: Vec<u32>,
    candidates: Vec<u32>,
    pub layouts: Vec<u32>,
    pub working: Vec<u32>,
    pub tally: Vec<u32>,
    pub state: [u32; STATE],
    pub answer: [u32; ANSWER],
}

impl Words {
    pub fn new(scene: &Scene) -> Words {
        let [width, height, x, y, codes @ ..] = scene.area;
        Words {
            area: [width, height, x, y].map(f32::from_bits),
            codes,
            styles: scene.styles.concat(),
            candidates: scene.candidates.concat(),
            layouts: vec![0; LAYOUT * scene.styles.len()],
            working: vec![0; CANDIDATE * scene.candidates.len()],
            tally: vec![0; scene.styles.len()],
            state: [0; STATE],
            answer: [0; ANSWER],
        }
    }
    /// A function over the area, its codes, the candidates and what is lent
    fn call(&mut self, f: impl FnOnce([f32; 4], [u32; 4], &[u32], &mut Lent) -> u32) -> u32 {
        let mut lent = Lent {
            styles: &self.styles,
            layouts: &mut self.layouts,
            working: &mut self.working,
            unclaimed: &mut [],
            tally: &mut self.tally,
            state: &mut self.state,
            answer: &mut self.answer,
        };
        f(self.area, self.codes, &self.candidates, &mut lent)
    }
    pub fn open(&mut self) -> u32 {
        self.call(ffi::open)
    }
    pub fn reply(&mut self, reply: Reply) -> u32 {
        self.call(|_, _, _, lent| ffi::reply(reply, &[], lent))
    }
    pub fn preview_open(&mut self, r: Replacement) -> u32 {
        self.call(|area, codes, candidates, lent| ffi::preview_open(area, codes, r, candidates, lent))
    }
    pub fn preview_reply(&mut self, reply: Reply, r: Replacement) -> u32 {
        self.call(|_, _, _, lent| ffi::preview_reply(reply, &[], r, lent))
    }
    /// Of a finished run
    pub fn drawing_order(&self, order: &mut [u32]) -> u32 {
        ffi::drawing_order(self.finished(), order)
    }
    /// Of a finished run
    pub fn touch(&self, words: &mut [u32]) -> u32 {
        ffi::touch(self.finished(), words)
    }
    fn finished(&self) -> Finished<'_> {
        let Words { styles, layouts, working, state, .. } = self;
        Finished { styles, layouts, working, unclaimed: &[], state }
    }
    /// The reply to the open question; none after the finish
    pub fn next(&self) -> Option<Reply> {
        match self.answer[0] {
            1 => Some(Reply::Both(MEASURED[0], MEASURED[1])),
            2 => Some(Reply::Width(MEASURED[0])),
            3 => Some(Reply::Height(MEASURED[1])),
            4 => Some(Reply::LaidOut([0.0; 4])),
            _ => None,
        }
    }
    /// From the opening to the finish; the sum of results is 0
    pub fn run(&mut self) -> u32 {
        let mut results = self.open();
        while let Some(reply) = self.next() {
            results |= self.reply(reply);
            if results != 0 {
                break;
            }
        }
        results
    }
}
