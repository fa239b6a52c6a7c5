//! What is lent to a part that reads a finished run, by its words; the tests that all such parts have; and changes of a run for which they
//! refuse with 2, or that none of them notices.
#![allow(dead_code)] // not every part needs all of it
use crate::random::Random;
use std::ops::{DerefMut, Range};

/// The slices of a run, and the words of their records.
pub const STYLES: usize = 0;
pub const LAYOUTS: usize = 1;
pub const WORKING: usize = 2;
pub const UNCLAIMED: usize = 3;
pub const STYLE: usize = 79;
pub const LAYOUT: usize = 23;
pub const CANDIDATE: usize = 14;
pub const WIDTHS: [usize; 4] = [STYLE, LAYOUT, CANDIDATE, CANDIDATE];

/// Words of the state. That of the tally, which no such part is lent, isn't looked at.
pub const STATE: usize = 28;
pub const PROGRESS: usize = 0;
pub const FILLED: usize = 7;
pub const BEGUN: usize = 9;
pub const ANSWERED: usize = 10;
pub const RECTANGLE: usize = 11;
pub const AREA: usize = 15;
pub const OFFSET: usize = 17;
pub const DIRECTION: usize = 19;
pub const OVERFLOW: usize = 21;
pub const LENGTHS: usize = 23;
pub const TALLY: usize = 27;

/// Words of a candidate, and its codes with their greatest, of which the layer is the last.
pub const NODE: usize = 0;
pub const ORDER: usize = 1;
pub const LAYER: usize = 13;
pub const CODES: [(usize, u32); 8] = [(2, 4), (5, 2), (6, 2), (7, 2), (10, 2), (11, 2), (12, 2), (LAYER, 255)];

/// What every such part is lent.
#[derive(Clone, PartialEq)]
pub struct Run {
    pub slices: [Vec<u32>; 4],
    pub state: [u32; STATE],
}

/// An entry of the library, as a function: its name there, and what it takes before a run's words and behind them.
macro_rules! entry {
    ($name:ident is $symbol:ident($($first:ident: $a:ty),*; $($last:ident: $b:ty),*)) => {
        fn $name(run: &$crate::finished::Run, $($first: $a,)* $($last: $b),*) -> u32 {
            extern "C" {
                fn $symbol(
                    $($first: $a,)*
                    styles: *const u32,
                    styles_len: usize,
                    layouts: *const u32,
                    layouts_len: usize,
                    working: *const u32,
                    working_len: usize,
                    unclaimed: *const u32,
                    unclaimed_len: usize,
                    state: *const u32,
                    $($last: $b),*
                ) -> u32;
            }
            let [styles, layouts, working, unclaimed] = &run.slices;
            unsafe {
                $symbol(
                    $($first,)*
                    styles.as_ptr(),
                    styles.len(),
                    layouts.as_ptr(),
                    layouts.len(),
                    working.as_ptr(),
                    working.len(),
                    unclaimed.as_ptr(),
                    unclaimed.len(),
                    run.state.as_ptr(),
                    $($last),*
                )
            }
        }
    };
}
pub(crate) use entry;

/// A call has what its run has.
macro_rules! of_a_run {
    ($call:ty) => {
        impl std::ops::Deref for $call {
            type Target = $crate::finished::Run;
            fn deref(&self) -> &Self::Target {
                &self.run
            }
        }

        impl std::ops::DerefMut for $call {
            fn deref_mut(&mut self) -> &mut Self::Target {
                &mut self.run
            }
        }
    };
}
pub(crate) use of_a_run;

impl Run {
    pub fn records(&self, slice: usize) -> usize {
        self.slices[slice].len() / WIDTHS[slice]
    }

    pub fn filled(&self) -> usize {
        self.state[FILLED] as usize
    }

    /// The filled records of the working list, as far as it has them.
    pub fn boxes(&self) -> impl DoubleEndedIterator<Item = &[u32]> + ExactSizeIterator + Clone {
        self.slices[WORKING].chunks_exact(CANDIDATE).take(self.filled())
    }

    pub fn column(&self, word: usize) -> Vec<u32> {
        self.boxes().map(|record| record[word]).collect()
    }

    /// One of them, which must be there
    pub fn filled_record(&mut self, k: usize) -> &mut [u32] {
        &mut self.slices[WORKING][CANDIDATE * k..CANDIDATE * k + CANDIDATE]
    }

    /// The layout of a node that has one
    pub fn layout(&self, node: u32) -> Option<&[u32]> {
        self.slices[LAYOUTS].get(LAYOUT * node as usize..)?.get(..LAYOUT)
    }

    pub fn record_lengths(&mut self) {
        let lengths = self.slices.each_ref().map(|slice| slice.len() as u32);
        self.state[LENGTHS..TALLY].copy_from_slice(&lengths);
    }

    pub fn resize(&mut self, slice: usize, records: usize) {
        self.slices[slice].resize(records * WIDTHS[slice], 0x7FC0_0001);
        self.record_lengths();
    }

    /// A record more in a list
    pub fn lengthen(&mut self, slice: usize) {
        self.resize(slice, self.records(slice) + 1);
    }

    /// No room behind the boxes
    pub fn fit(&mut self) {
        self.resize(WORKING, self.filled());
    }

    /// An empty one gets longer
    fn shorter(&mut self, k: usize, words: usize) {
        match self.slices[k].len() {
            0 => self.longer(k, words),
            len => self.slices[k].truncate(len.saturating_sub(words)),
        }
    }

    fn longer(&mut self, k: usize, words: usize) {
        let len = self.slices[k].len() + words;
        self.slices[k].resize(len, 7);
    }

    /// Any words in the state: a few of them, or all, of which each of some parts stays right as often as not.
    pub fn forge(&mut self, random: &mut Random, parts: &[Range<usize>]) {
        let good = self.state;
        if random.below(2) == 0 {
            for _ in 0..=random.below(3) {
                self.state[random.below(STATE as u32)] =
                    if random.below(2) == 0 { random.word() } else { random.word() % 8 };
            }
            return;
        }
        self.state.fill_with(|| random.word());
        for part in parts {
            if random.below(2) == 0 {
                self.state[part.clone()].copy_from_slice(&good[part.clone()]);
            }
        }
    }

    /// The words of a run in a line
    pub fn show(&self) -> String {
        format!(
            "words {:?}, recorded {:?}, progress {}, filled {:?}",
            self.slices.each_ref().map(Vec::len),
            &self.state[LENGTHS..],
            self.state[PROGRESS],
            &self.state[FILLED..FILLED + 2]
        )
    }
}

// ---- the tests that all such parts have

/// What any of them refuses with, in the order in which it is tested. Not every one has the last.
pub const REFUSALS: [u32; 4] = [2, 6, 4, 9];

/// "A slice isn't whole records, is too long, or has another length than at the opening"
pub fn bad_slices(run: &Run) -> bool {
    let [styles, layouts, working, unclaimed] = run.slices.each_ref().map(Vec::len);
    let list = |words: usize| words % CANDIDATE != 0 || words > CANDIDATE * 4096;
    let n = styles / STYLE;
    let slices = styles % STYLE != 0 || n > 1024 || layouts != LAYOUT * n || list(working) || list(unclaimed);
    slices || (0..4).any(|k| run.slices[k].len() as u64 != u64::from(run.state[LENGTHS + k]))
}

pub fn unfinished(run: &Run) -> bool {
    matches!(run.state[PROGRESS], 1..=5)
}

/// The filled records of a list are more than it has.
pub fn above(run: &Run, slice: usize) -> bool {
    run.state[FILLED + slice - WORKING] as usize > run.records(slice)
}

/// "A higher layer is a bad candidate"
pub fn bad_record(run: &Run, record: &[u32]) -> bool {
    record[NODE] as usize >= run.records(STYLES) || CODES.iter().any(|&(k, most)| record[k] > most)
}

// ---- changes of a call

pub type Change<C> = (&'static str, fn(&mut C, &mut Random));

/// Changes for which a call is refused with one number, or with none (0), and how many of them, at the end, add 50,000 words or more.
pub struct Kind<C> {
    pub refused: u32,
    pub changes: Vec<Change<C>>,
    pub big: usize,
}

impl Random {
    /// Changes of a call, one of each of some kinds. What is tested first is changed last, so that no other change undoes it: it says with
    /// what the call is refused.
    pub fn change<C>(&mut self, call: &mut C, kinds: &[Kind<C>], chosen: usize) -> u32 {
        let mut refused = 0;
        for (_, kind) in kinds.iter().enumerate().rev().filter(|(k, _)| chosen >> k & 1 == 1) {
            let big = if self.below(256) == 0 { kind.big } else { 0 };
            let all = kind.changes.len() - kind.big + big;
            kind.changes[self.below(all as u32)].1(call, self);
            refused = kind.refused;
        }
        refused
    }
}

/// Changes a call, and says with what it is then refused.
pub type Changing<'a, C> = &'a dyn Fn(&mut C, &mut Random) -> u32;

/// Each change by itself, as often as said first; each two of different kinds; and some of each set of kinds, as often as said second.
pub fn each_change<C>(
    kinds: &[Kind<C>],
    [alone, sets]: [usize; 2],
    mut tried: impl FnMut(Changing<C>, &str) -> Result<(), String>,
) -> Result<(), String> {
    let all: Vec<(u32, Change<C>)> =
        kinds.iter().flat_map(|kind| kind.changes.iter().map(|&change| (kind.refused, change))).collect();
    for &(refused, (name, change)) in &all {
        let one = |call: &mut C, random: &mut Random| {
            change(call, random);
            refused
        };
        (0..alone).try_for_each(|_| tried(&one, name))?;
    }
    for (k, &(refused, (name, change))) in all.iter().enumerate() {
        for &(_, (_, other)) in all[k..].iter().filter(|(second, _)| *second != refused) {
            let two = |call: &mut C, random: &mut Random| {
                other(call, random);
                change(call, random);
                refused
            };
            tried(&two, name)?;
        }
    }
    let most = 1 << kinds.len();
    (1..most).cycle().take((most - 1) * sets).try_for_each(|chosen| {
        tried(&|call: &mut C, random: &mut Random| random.change(call, kinds, chosen), "some changes")
    })
}

pub fn other_lengths<C: DerefMut<Target = Run>>() -> Vec<Change<C>> {
    vec![
        ("a word less", |c, r| c.shorter(r.below(4), 1)),
        ("a word more", |c, r| c.longer(r.below(4), 1)),
        ("a word less, recorded so", |c, r| {
            c.shorter(r.below(4), 1);
            c.record_lengths();
        }),
        ("a word more, recorded so", |c, r| {
            c.longer(r.below(4), 1);
            c.record_lengths();
        }),
        ("a record less", |c, r| {
            let k = r.below(4);
            c.shorter(k, WIDTHS[k])
        }),
        ("a record more", |c, r| {
            let k = r.below(4);
            c.longer(k, WIDTHS[k])
        }),
        ("another count of layouts, recorded so", |c, r| {
            let (k, n) = (r.below(2), c.records(STYLES));
            c.resize(k, if n == 0 || r.below(2) == 0 { n + 1 } else { n - 1 });
        }),
    ]
}

pub fn other_lengths_recorded<C: DerefMut<Target = Run>>() -> Vec<Change<C>> {
    vec![
        ("another length recorded", |c, r| c.state[LENGTHS + r.below(4)] ^= 1 << r.below(32)),
        ("a length recorded one beside", |c, r| {
            let k = LENGTHS + r.below(4);
            c.state[k] = c.state[k].wrapping_add(r.pick(&[1, u32::MAX]));
        }),
    ]
}

/// Changes that no such part notices
pub fn other_tallies<C: DerefMut<Target = Run>>() -> Vec<Change<C>> {
    vec![("any length of the tally at the opening", |c, r| {
        let items = c.records(STYLES) as u32;
        c.state[TALLY] = r.pick(&[0, items, items + 1, 1 << 31, u32::MAX]);
    })]
}

/// These add 50,000 words or more
pub fn too_many<C: DerefMut<Target = Run>>() -> Vec<Change<C>> {
    vec![
        ("1,025 items", |c, _| {
            c.resize(STYLES, 1025);
            c.resize(LAYOUTS, 1025);
        }),
        ("4,097 records", |c, r| c.resize(WORKING + r.below(2), 4097)),
    ]
}

/// A call of which a filled record can be damaged
pub trait OneFilled: DerefMut<Target = Run> {
    /// Any of them
    fn one_filled(&mut self, random: &mut Random) -> &mut [u32];
}

/// With 4
pub fn bad_nodes_and_codes<C: OneFilled>() -> Vec<Change<C>> {
    vec![
        ("node n", |c, r| c.one_filled(r)[NODE] = c.records(STYLES) as u32),
        ("a node above n", |c, r| {
            let n = c.records(STYLES) as u32;
            c.one_filled(r)[NODE] = r.pick(&[n + 1, n + 2, n + 1024, 1 << 31, u32::MAX])
        }),
        ("a code one above its list", |c, r| {
            let (k, most) = r.pick(&CODES);
            c.one_filled(r)[k] = most + 1;
        }),
        ("a code above its list", |c, r| {
            let (k, most) = r.pick(&CODES);
            c.one_filled(r)[k] = most + 1 + r.word() / 2;
        }),
    ]
}
