//! A screen: previews over one table, a live run between their calls, damaged calls on the way, and what is asked of finished previews.
use crate::beside::{held, is_broken, live, Difference};
use crate::call::{Call, Entry, First};
use crate::draw;
use crate::seen::{Seen, ASKED};
use oof::ffi::{self, Finished};
use oracle::case::{Case, CANDIDATE, STYLE};
use oracle::host::{Profile, Random};
use oracle::run::{Host, Kind};
use runs::cases::{large_case, small_case};
use runs::damage::{self, Family, KINDS};
use runs::model;
use runs::rng::Rng;
use runs::side::{question, Setting};
use runs::words::{Said, Words};
use std::hash::{DefaultHasher, Hash, Hasher};

/// Calls of one preview of a large table, and of the live run over it, at most
const LONG: usize = 40;

/// Openings and replies that are damaged
const OPENINGS: [Family; 9] = [
    Family::OpenCodes,
    Family::OpenLengths,
    Family::OpenStyles,
    Family::OpenSums,
    Family::OpenCandidates,
    Family::OpenLayers,
    Family::OpenRoom,
    Family::OpenTally,
    Family::OpenSeveral,
];
const REPLIES: [Family; 20] = [
    Family::ReplyKind,
    Family::ReplyLengths,
    Family::ReplyStyles,
    Family::ReplySums,
    Family::ReplyWorking,
    Family::ReplySurfaced,
    Family::ReplyLayers,
    Family::ReplySeveral,
    Family::StateRandom,
    Family::StateCounts,
    Family::StateFinished,
    Family::StateWord,
    Family::TallyLength,
    Family::TallyAbove,
    Family::TallyHighest,
    Family::TallyForged,
    Family::TallyOther,
    Family::TallySwapped,
    Family::TallyState,
    Family::TallyNode,
];

/// A preview, between its calls without the table
struct Preview {
    call: Call,
    first: First,
    host: Random,
    open: bool,
    over: bool,
    calls: usize,
}

/// A run over the table itself: what it must leave after each call, which it did alone
struct Live {
    words: Words,
    host: Random,
    alone: Vec<u64>,
    at: usize,
    /// Its opening was
    refused: bool,
}

/// One case, and what is under way over its table
pub struct Screen<'a> {
    entry: &'a Entry,
    seen: &'a mut Seen,
    rng: Rng,
    case: Case,
    setting: Setting,
    /// The one table, which is lent to every call
    table: Vec<u32>,
    kept: Vec<u32>,
}

/// Case `number`: one in 64 has no items, one in 256 up to 300, one in 256 more than 256 of which the last are named; few are as large as a
/// table can be
fn drawn(seed: u64, number: u64) -> (Case, Setting, Rng) {
    let profile = [Profile::Quarter, Profile::Wild, Profile::Typical][number as usize % 3];
    match number % 256 {
        _ if is_large(number) => large_case(seed ^ number << 32, number % 3),
        5 => large_case(seed, 3 + number),
        6 => {
            let (mut case, setting, rng) = small_case(profile, seed, number);
            let before = vec![case.styles[0]; 256];
            case.styles.splice(0..0, before);
            case.candidates.iter_mut().for_each(|candidate| candidate[0] = candidate[0].saturating_add(256));
            (case, setting, rng)
        }
        7 | 71 | 135 | 199 => {
            let (mut case, setting, mut rng) = small_case(profile, seed, number);
            case.styles.clear();
            if rng.one_in(2) {
                case.candidates.clear();
            }
            (case, setting, rng)
        }
        _ => small_case(profile, seed, number),
    }
}

/// Some of the first screens, then few
fn is_large(number: u64) -> bool {
    number % if number < 4096 { 512 } else { 8192 } == 511
}

/// Screen `number`; the entry is held to the runs over copies throughout
pub fn screen(entry: &Entry, seed: u64, number: u64, seen: &mut Seen) -> Result<(), Difference> {
    let (case, setting, mut rng) = drawn(seed, number);
    let mut table = case.styles.concat();
    if !is_large(number) && rng.one_in(8) {
        let from = STYLE * rng.below(case.styles.len().max(1) as u32) as usize;
        draw::break_style(table.get_mut(from..from + STYLE).unwrap_or_default(), &mut rng);
    }
    let kept = table.clone();
    let mut screen = Screen { entry, seen, rng, case, setting, table, kept };
    let previews = screen.run()?;
    screen.seen.previews += previews;
    screen.seen.screens += 1;
    Ok(())
}

impl Screen<'_> {
    /// Lists with room for the candidates, now and then for what is surfaced, and one in 32 too short
    fn lend(&mut self) -> Words {
        let claimed = model::claimed(&self.case.candidates.concat(), self.case.area[5]);
        let rng = &mut self.rng;
        let more = if rng.one_in(4) { [0, 0] } else { [(); 2].map(|_| rng.below(self.setting.surfaced + 2) as usize) };
        let less = usize::from(rng.one_in(32));
        let (working, unclaimed) = (claimed + more[0], self.case.candidates.len() - claimed + more[1]);
        let lists = [working, unclaimed].map(|records| records.saturating_sub(less).min(4096));
        let mut words = Words::lend(&self.case, lists[0], lists[1], rng);
        words.styles.clone_from(&self.table);
        words
    }

    fn host(&mut self, seed: u32) -> Random {
        let Setting { profile, surfaced, .. } = self.setting;
        Random::new(seed, profile, self.case.styles.len(), surfaced)
    }

    fn preview(&mut self) -> Preview {
        let words = self.lend();
        let mut call = Call { words, node: 0, style: vec![] };
        call.node = draw::node(&call, &mut self.rng);
        // one in two on the record that is broken, if there is one
        if let Some(broken) = self.table.chunks_exact(STYLE).position(model::bad_style).filter(|_| self.rng.one_in(2)) {
            call.node = broken as u32;
        }
        call.style = draw::style(&self.table, self.setting.profile, &mut self.rng);
        if self.rng.one_in(16) {
            let at = STYLE * call.node as usize;
            call.style = self.table.get(at..at + STYLE).unwrap_or_default().to_vec();
        }
        if self.rng.one_in(32) {
            draw::other_node(&mut call, &mut self.rng);
        }
        if self.rng.one_in(32) {
            draw::other_length(&mut call, &mut self.rng);
        }
        call.words.styles = vec![];
        let seed = self.rng.next() as u32;
        let first = (call.node, call.style.clone());
        Preview { call, first, host: self.host(seed), open: false, over: false, calls: 0 }
    }

    /// A live run, and what it leaves after each of its calls while nothing else happens
    fn live(&mut self) -> Live {
        let mut words = self.lend();
        let seed = self.rng.next() as u32;
        let mut alone = Live { words: words.clone(), host: self.host(seed), alone: vec![], at: 0, refused: false };
        while let Some(result) = alone.step() {
            alone.refused |= alone.at == 0 && result != 0;
            alone.alone.push(digest(result, &alone.words));
            alone.at += 1;
        }
        words.styles = vec![];
        Live { words, host: self.host(seed), alone: alone.alone, at: 0, refused: alone.refused }
    }

    /// Goes on with one after the other until all are over; the number of previews
    fn run(&mut self) -> Result<u64, Difference> {
        let mut live = self.live();
        let mut previews: Vec<Preview> = (0..1 + self.rng.below(3)).map(|_| self.preview()).collect();
        loop {
            let under_way: Vec<usize> = (0..previews.len()).filter(|&k| !previews[k].over).collect();
            if live.at < live.alone.len() && (under_way.is_empty() || self.rng.one_in(3)) {
                self.go_on(&mut live)?;
            } else if !under_way.is_empty() {
                let preview = &mut previews[self.rng.of(&under_way)];
                std::mem::swap(&mut self.table, &mut preview.call.words.styles);
                let outcome = self.step(preview);
                std::mem::swap(&mut self.table, &mut preview.call.words.styles);
                outcome?;
                if self.table != self.kept {
                    return Err("the live table was written".to_string());
                }
                let refused = live.refused && live.at > 0 && preview.open;
                self.seen.note("a live run that is refused between accepted calls", refused);
            } else {
                return Ok(previews.len() as u64);
            }
        }
    }

    /// The live run's next call, over the same table as all previews
    fn go_on(&mut self, live: &mut Live) -> Result<(), Difference> {
        std::mem::swap(&mut self.table, &mut live.words.styles);
        let result = live.step();
        let same = result.map(|result| digest(result, &live.words)) == Some(live.alone[live.at]);
        std::mem::swap(&mut self.table, &mut live.words.styles);
        live.at += 1;
        self.seen.live += 1;
        self.seen.note("a live run between the calls", true);
        if !same || self.table != self.kept {
            return Err(format!("call {} of the live run left other words than alone", live.at - 1));
        }
        Ok(())
    }

    /// A preview's next call, now and then after a damaged one on a copy of its words
    fn step(&mut self, preview: &mut Preview) -> Result<(), Difference> {
        preview.calls += 1;
        if self.rng.one_in(3) && self.table_is_small(preview) {
            self.damaged(preview)?;
        }
        if !preview.open {
            let result = held(self.entry, None, &mut preview.call, &preview.first, self.seen)?;
            preview.open = result == 0;
            preview.over = result != 0;
            return Ok(());
        }
        let Some(question) = question(&preview.call.words) else {
            preview.over = true;
            return self.finished(preview);
        };
        let mut said = Said::new(question.kind, &preview.host.answer(&question));
        if self.rng.one_in(5) && self.changed(preview, &said)? {
            return Ok(());
        }
        let mut result = held(self.entry, Some(&said), &mut preview.call, &preview.first, self.seen)?;
        if result == 5 {
            // the host may reply again with fewer records
            said.surfaced.clear();
            result = held(self.entry, Some(&said), &mut preview.call, &preview.first, self.seen)?;
        }
        if result != 0 {
            return Err(format!("a preview's reply is refused {result}"));
        }
        preview.over = preview.calls >= LONG && !self.table_is_small(preview);
        Ok(())
    }

    fn table_is_small(&self, preview: &Preview) -> bool {
        preview.call.words.styles.len() < 512 * STYLE
    }

    /// The next reply with another replacement, or another node; answers whether it was accepted
    fn changed(&mut self, preview: &mut Preview, said: &Said) -> Result<bool, Difference> {
        let mut call = preview.call.clone();
        if self.rng.one_in(3) {
            call.node = draw::node(&call, &mut self.rng);
        } else {
            call.style = draw::style(&call.words.styles, self.setting.profile, &mut self.rng);
        }
        let accepted = held(self.entry, Some(said), &mut call, &preview.first, self.seen)? == 0;
        if accepted {
            call.node = preview.call.node;
            call.style = std::mem::take(&mut preview.call.style);
            preview.call = call;
        }
        Ok(accepted)
    }

    /// A call with damaged words, another node, another replacement, or several of these
    fn damaged(&mut self, preview: &Preview) -> Result<(), Difference> {
        let mut call = preview.call.clone();
        let kind = question(&call.words).map_or(self.rng.of(&KINDS), |question| question.kind);
        let mut said = Said { kind, values: [(); 4].map(|_| self.rng.next() as u32), surfaced: vec![] };
        if self.rng.one_in(3) {
            damage::surface(&mut said, &call.words, &mut self.rng);
        }
        let mut forged = false;
        for _ in 0..self.rng.of(&[0, 1, 1, 1, 2]) {
            if preview.open {
                let family = self.rng.of(&REPLIES);
                forged |= [Family::StateRandom, Family::StateCounts, Family::StateWord].contains(&family);
                damage::damage_reply(family, &mut said, &mut call.words, &mut self.rng);
            } else {
                damage::damage_opening(self.rng.of(&OPENINGS), &mut call.words, &mut self.rng);
            }
        }
        self.damage_arguments(&mut call);
        let asked = preview.open.then_some(&said);
        let result = held(self.entry, asked, &mut call, &preview.first, self.seen)?;
        self.seen.note("a forged state, accepted", forged && result == 0);
        self.seen.note("a forged state, refused", forged && result != 0);
        Ok(())
    }

    /// A record of the table, often one beside the node; the replacement; the node
    fn damage_arguments(&mut self, call: &mut Call) {
        let (rng, items) = (&mut self.rng, call.words.styles.len() / STYLE);
        if items > 0 && rng.one_in(5) {
            let by = [1, u32::MAX, 0, rng.next() as u32];
            let item = call.node.wrapping_add(rng.of(&by)) as usize % items;
            draw::break_style(&mut call.words.styles[STYLE * item..][..STYLE], rng);
        }
        if rng.one_in(4) {
            draw::break_style(&mut call.style, rng);
        }
        if rng.one_in(4) {
            draw::other_node(call, rng);
        }
        if rng.one_in(5) {
            draw::other_length(call, rng);
        }
    }

    /// A reply to a finished preview, then what is asked of it with the live table's slice, beside the run over the copy
    fn finished(&mut self, preview: &mut Preview) -> Result<(), Difference> {
        let broken = is_broken(&preview.call);
        self.seen.note("a finish", true);
        self.seen.note("a broken live record, replaced: a finish", broken);
        let mut call = preview.call.clone();
        draw::other_node(&mut call, &mut self.rng);
        let said = Said { kind: self.rng.of(&KINDS), values: [0; 4], surfaced: vec![] };
        let result = held(self.entry, Some(&said), &mut call, &preview.first, self.seen)?;
        self.seen.note("a bad node after the finish, refused 4", result == 4);
        self.seen.note("a finished preview, asked with a broken live record", broken);
        let table = crate::order::copy(&preview.call).expect("a copy");
        let mut words = preview.call.words.clone();
        match self.rng.below(16) {
            0 => words.state[0] = 1 + self.rng.below(5),
            1 => words.state[7 + self.rng.below(2) as usize] += 1 + self.rng.below(9),
            2 if !words.working.is_empty() => words.working[CANDIDATE - 1] = 256,
            3 => words.state[23] = words.state[23].wrapping_add(STYLE as u32),
            _ => {}
        }
        self.ask(&words, &table)
    }

    /// The same words with the live table and with the copy
    fn ask(&mut self, words: &Words, copy: &[u32]) -> Result<(), Difference> {
        let filled = words.state[7] as usize;
        let place = self.rng.below(filled.max(1) as u32) as usize;
        let noise = self.rng.next() as u32;
        let of = |styles: &[u32]| {
            let run = Finished {
                styles,
                layouts: &words.layouts,
                working: &words.working,
                unclaimed: &words.unclaimed,
                state: &words.state,
            };
            let (mut verdict, mut order, mut touch) = ([noise; 3], vec![noise; filled], vec![noise; 5 * filled]);
            let results = [
                ffi::reach(place, run, &mut verdict),
                ffi::drawing_order(run, &mut order),
                ffi::touch(run, &mut touch),
            ];
            (results, verdict, order, touch)
        };
        let (live, wanted) = (of(&words.styles), of(copy));
        if live != wanted {
            return Err("a finished preview answers otherwise with the live table than with the copy".to_string());
        }
        (0..ASKED.len()).for_each(|entry| self.seen.asked[entry][live.0[entry] as usize] += 1);
        Ok(())
    }
}

impl Live {
    /// The next call: its result, or none where the run is over
    fn step(&mut self) -> Option<u32> {
        if self.at == 0 {
            return Some(live(None, &mut self.words));
        }
        if self.at >= LONG && self.words.styles.len() >= 512 * STYLE {
            return None;
        }
        let question = question(&self.words).filter(|_| self.words.state[0] != 0)?;
        let mut said = Said::new(question.kind, &self.host.answer(&question));
        let result = live(Some(&said), &mut self.words);
        if result == 0 || said.kind != Kind::LayOut {
            return Some(result);
        }
        said.surfaced.clear();
        Some(live(Some(&said), &mut self.words))
    }
}

fn digest(result: u32, words: &Words) -> u64 {
    let mut hasher = DefaultHasher::new();
    let Words { layouts, working, unclaimed, tally, state, answer, candidates, .. } = words;
    (result, layouts, working, unclaimed, tally, state, answer, candidates).hash(&mut hasher);
    hasher.finish()
}
