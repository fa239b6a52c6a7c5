//! Entries that write words of the boxes of a finished run: the drawing order, and what a touch driver reads.
use super::common::Words;
use oof::ffi::{self, state, Finished};
use oof::words::CANDIDATE;
use oof::Refusal;

type Entry = fn(Finished, &mut [u32]) -> u32;

impl Words {
    /// What such an entry writes into so many words, or its refusal, which writes none; never a word beside them
    pub fn filled(&self, entry: Entry, words: usize) -> Result<Vec<u32>, Refusal> {
        let Words { styles, layouts, working, unclaimed, state, .. } = self;
        let mut room = vec![0xDEAD_0005; words + 2];
        let number = entry(Finished { styles, layouts, working, unclaimed, state }, &mut room[1..][..words]);
        let filled = room[1..][..words].to_vec();
        if number == 0 {
            room[1..][..words].fill(0xDEAD_0005);
        }
        assert_eq!(room, vec![0xDEAD_0005; words + 2]);
        match number {
            0 => Ok(filled),
            _ => Err(Refusal::from_number(number).expect("a refusal's number")),
        }
    }
}

/// An open run has boxes, and nothing is written of them; nor of a list of fewer records than are filled; a refused opening has none.
/// Of a run of three boxes, opened and finished, and an entry that writes so many words of each.
pub fn unfinished(entry: Entry, width: usize, opened: &Words, mut finished: Words) {
    let refused = |words: &Words| {
        assert_eq!(words.filled(entry, 3 * width), Err(Refusal::WrongReply));
        assert_eq!(words.filled(entry, 2 * width), Err(Refusal::BadExtent));
    };
    refused(opened);
    let mut short = finished.clone();
    short.working.truncate(2 * CANDIDATE);
    short.state[state::LENGTHS + 2] = 2 * CANDIDATE as u32;
    refused(&short);
    assert_eq!(ffi::open([800.0, 480.0, 100.0, 40.0], [2, 3, 0, 0], &[], &mut finished.lent()), 1);
    assert_eq!(finished.filled(entry, 0), Ok(vec![]));
    assert_eq!(finished.filled(entry, width), Err(Refusal::BadExtent));
}
