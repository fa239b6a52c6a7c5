//! What a run is lent, by words, with words that tell if they were written.
use oof::ffi::{self, Lent};
use oof::words::{CANDIDATE, LAYOUT, STYLE};

#[derive(Clone, PartialEq, Debug)]
pub struct Words {
    pub styles: Vec<u32>,
    pub layouts: Vec<u32>,
    pub working: Vec<u32>,
    pub unclaimed: Vec<u32>,
    pub tally: Vec<u32>,
    pub state: [u32; ffi::STATE],
    pub answer: [u32; ffi::ANSWER],
}
impl Words {
    /// Over these styles, with lists of so many records
    pub fn over(styles: Vec<u32>, records: usize) -> Words {
        let items = styles.len() / STYLE;
        Words {
            styles,
            layouts: vec![0xDEAD_0001; items * LAYOUT],
            working: vec![0xDEAD_0002; records * CANDIDATE],
            unclaimed: vec![0xDEAD_0003; records * CANDIDATE],
            tally: vec![0xDEAD_0004; items],
            state: std::array::from_fn(|i| 0xDEAD_0100 + i as u32),
            answer: std::array::from_fn(|i| 0xDEAD_0200 + i as u32),
        }
    }
    pub fn lent(&mut self) -> Lent<'_> {
        Lent {
            styles: &self.styles,
            layouts: &mut self.layouts,
            working: &mut self.working,
            unclaimed: &mut self.unclaimed,
            tally: &mut self.tally,
            state: &mut self.state,
            answer: &mut self.answer,
        }
    }
}
