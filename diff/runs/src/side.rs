//! One case, run by the library: after every call, every word that it may write is held to what the wanted run says, the Rust's or
//! the second implementation's (`answers.rs`), the layers of the lists to those of the records that went there.
use crate::answers::{Answers, Keywords};
use crate::model;
use crate::rng::Rng;
use crate::typed;
use crate::words::{Library, Said, Words};
use oof::ffi::{state, STATE};
use oracle::case::{at::SIZE, bits, float, Case, CANDIDATE, LAYER, LAYOUT, LENGTH, LENGTHS, STYLE, SUM};
use oracle::host::Profile;
use oracle::run::{Host, Kind, Question, Space, Transcript};
use std::ops::AddAssign;

/// What was compared
#[derive(Default, Clone, Debug)]
pub struct Counted {
    pub cases: u64,
    /// Openings refused by both, by number
    pub refused: [u64; 7],
    pub boxes: u64,
    /// both, width, height, lay out
    pub questions: [u64; 4],
    pub surfaced: u64,
    pub unclaimed: u64,
    /// Items with a question, and those of them that had several boxes
    pub items: u64,
    pub shared: u64,
    /// Runs with boxes that the touch driver reads, and those that are refused to it
    pub touched: [u64; 2],
    /// Words compared, those of them that are NaN, and zeros of another sign
    pub words: u64,
    pub nans: u64,
    pub signs: u64,
    /// Runs that placed a box by a sum; styles that boxes were placed by, those of them with a sum, and sums in each length
    pub with_sums: u64,
    pub styles: u64,
    pub styles_with_sums: u64,
    pub sums: [u64; LENGTHS],
    pub keywords: Keywords,
}
impl Counted {
    /// The sums of a run: of each item that was placed, once
    fn sums(&mut self, case: &Case, run: &Transcript) {
        let before = self.styles_with_sums;
        for (style, _) in case.styles.iter().zip(&run.layouts).filter(|(_, layout)| layout.is_some()) {
            let sums: Vec<usize> = (0..LENGTHS).filter(|&length| style[LENGTH * length] == SUM).collect();
            sums.iter().for_each(|&length| self.sums[length] += 1);
            self.styles += 1;
            self.styles_with_sums += u64::from(!sums.is_empty());
        }
        self.with_sums += u64::from(self.styles_with_sums > before);
    }
    /// The tally of a run
    fn tally(&mut self, run: &Transcript) {
        for (node, _) in run.tally.iter().enumerate().filter(|&(_, &count)| count > 0) {
            self.items += 1;
            self.shared += u64::from(run.hoisted.iter().filter(|&&hoisted| hoisted as usize == node).count() > 1);
        }
    }
}
impl AddAssign<&Counted> for Counted {
    fn add_assign(&mut self, o: &Counted) {
        self.cases += o.cases;
        self.boxes += o.boxes;
        self.surfaced += o.surfaced;
        self.unclaimed += o.unclaimed;
        self.items += o.items;
        self.shared += o.shared;
        (0..2).for_each(|i| self.touched[i] += o.touched[i]);
        self.words += o.words;
        self.nans += o.nans;
        self.signs += o.signs;
        self.with_sums += o.with_sums;
        self.styles += o.styles;
        self.styles_with_sums += o.styles_with_sums;
        self.keywords += &o.keywords;
        (0..LENGTHS).for_each(|i| self.sums[i] += o.sums[i]);
        (0..7).for_each(|i| self.refused[i] += o.refused[i]);
        (0..4).for_each(|i| self.questions[i] += o.questions[i]);
    }
}

/// What differs, in words for a reader
pub type Difference = String;

/// How a case is run: its host, and places in the lists beyond what the run needs
pub struct Setting {
    pub host_seed: u32,
    pub profile: Profile,
    /// Candidates that the host surfaces at most
    pub surfaced: u32,
    pub spare: [usize; 2],
}

pub fn compare(
    case: &Case,
    setting: &Setting,
    answers: &Answers,
    library: &mut Library,
    rng: &mut Rng,
    seen: &mut Counted,
) -> Result<(), Difference> {
    let run = answers.wanted();
    let (working, unclaimed) = run.map_or((4, 4), |t| (t.working.len(), t.unclaimed.len()));
    let mut words = Words::lend(case, working + setting.spare[0], unclaimed + setting.spare[1], rng);
    seen.cases += 1;

    let mut wanted = words.clone();
    held("the model of the refusals", run.err().unwrap_or(0), model::opening(&words))?;
    let result = library.open(&mut words);
    let run = match run {
        Ok(transcript) => transcript,
        Err(number) => {
            seen.refused[number as usize] += 1;
            held("opening", number, result)?;
            wanted.state = model::closed(&wanted);
            return hold("a refused opening", &words, &wanted, seen);
        }
    };
    held("opening", 0, result)?;
    let mut side = Side { run, layers: Default::default(), laid: 0, first: true };
    side.opened(&mut wanted);
    hold("opening", &words, &wanted, seen)?;
    adds_up("opening", &words)?;

    let mut host = setting.host(case);
    for at in 0..run.questions.len() {
        // the library's own question goes to a host of its own
        let question = question(&words).ok_or_else(|| format!("question {at} is no question"))?;
        let said = Said::new(question.kind, &host.answer(&question));
        held(&format!("reply {at}"), 0, library.reply(&said, &mut words))?;
        side.replied(at, &said, &mut wanted);
        hold(&format!("reply {at}"), &words, &wanted, seen)?;
        adds_up(&format!("reply {at}"), &words)?;
        seen.questions[question.kind as usize] += 1;
        seen.surfaced += (said.surfaced.len() / CANDIDATE) as u64;
    }
    let hoisted: Vec<u32> = words.working.chunks(CANDIDATE).take(run.hoisted.len()).map(|w| w[0]).collect();
    if hoisted != run.hoisted {
        return Err(format!("hoisted {hoisted:?}, not {:?}", run.hoisted));
    }
    if words.tally != run.tally {
        return Err(format!("tally {:?}, not {:?}", words.tally, run.tally));
    }
    seen.tally(run);
    seen.boxes += run.hoisted.len() as u64;
    seen.unclaimed += run.unclaimed.len() as u64;
    seen.sums(case, run);
    seen.keywords.count(case, answers);
    if library.saboteur.is_some() {
        return Ok(());
    }
    let touched = typed::compare(case, setting, run, &side.layers)?;
    if !run.hoisted.is_empty() {
        seen.touched[usize::from(!touched)] += 1;
    }
    Ok(())
}

fn held(call: &str, wanted: u32, result: u32) -> Result<(), Difference> {
    if result == wanted {
        return Ok(());
    }
    Err(format!("{call}: result {result}, not {wanted}"))
}

/// Request #107: "The words always add up to the run's questions answered so far, at the end the count in the finish"
pub fn adds_up(call: &str, w: &Words) -> Result<(), Difference> {
    let sum: u64 = w.tally.iter().map(|&word| u64::from(word)).sum();
    let count = w.state[state::ANSWERED];
    if sum != u64::from(count) {
        return Err(format!("{call}: the tally {:?} doesn't add up to {count}", w.tally));
    }
    if w.answer[0] == 0 && count != w.answer[1] {
        return Err(format!("{call}: the finish has {}, not {count}", w.answer[1]));
    }
    Ok(())
}

/// The question in an answer's words
pub fn question(w: &Words) -> Option<Question> {
    let a = &w.answer;
    let known = |at: usize| (a[at] == 1).then_some(a[at + 1]);
    let space = |at: usize| match a[at] {
        0 => Space::Definite(a[at + 1]),
        1 => Space::MinContent,
        _ => Space::MaxContent,
    };
    let kind = match a[0] {
        1 => Kind::Both,
        2 => Kind::Width,
        3 => Kind::Height,
        4 => Kind::LayOut,
        _ => return None,
    };
    Some(Question { kind, node: a[1], known: [known(2), known(4)], space: [space(6), space(8)] })
}

/// How far the wanted run has been followed
struct Side<'a> {
    run: &'a Transcript,
    /// Of the records of the working and of the unclaimed list, which the run has without them: those of the candidates and
    /// surfaced records that went there, in turn
    layers: [Vec<u32>; 2],
    /// Boxes laid out
    laid: usize,
    /// No question of the box at hand was answered yet
    first: bool,
}
impl Side<'_> {
    /// Words after the opening
    fn opened(&mut self, w: &mut Words) {
        let s = &mut w.state;
        *s = [0; STATE];
        for i in 0..4 {
            s[state::AREA + i] = bits(float(w.area[i]));
            s[state::CODES + i] = w.area[4 + i];
        }
        let lent = [w.styles.len(), w.layouts.len(), w.working.len(), w.unclaimed.len(), w.tally.len()];
        (0..5).for_each(|i| s[state::LENGTHS + i] = lent[i] as u32);
        w.tally.fill(0);
        let claimed = model::claimed(&w.candidates, w.area[5]);
        let unclaimed = w.candidates.len() / CANDIDATE - claimed;
        let layers = model::layers(&w.candidates, w.area[5]);
        self.fill(w, layers, [claimed, unclaimed]);
        self.next(0, w);
    }
    /// The lists hold this many records, the new ones with these layers
    fn fill(&mut self, w: &mut Words, layers: [Vec<u32>; 2], filled: [usize; 2]) {
        let lists = [
            (&mut w.working, &self.run.working, state::FILLED_WORKING),
            (&mut w.unclaimed, &self.run.unclaimed, state::FILLED_UNCLAIMED),
        ];
        for (which, (list, records, count)) in lists.into_iter().enumerate() {
            self.layers[which].extend(&layers[which]);
            assert_eq!(self.layers[which].len(), filled[which], "records claimed");
            for at in w.state[count] as usize..filled[which] {
                let (words, layer) = list[CANDIDATE * at..][..CANDIDATE].split_at_mut(LAYER);
                words.copy_from_slice(&records[at]);
                layer[0] = self.layers[which][at];
            }
            w.state[count] = filled[which] as u32;
        }
    }
    /// Words after the reply to question `at`
    fn replied(&mut self, at: usize, said: &Said, w: &mut Words) {
        w.state[state::ANSWERED] += 1;
        w.tally[self.run.questions[at].node as usize] += 1;
        let value = |i: usize| bits(float(said.values[i]));
        match (said.kind, w.state[state::PROGRESS]) {
            (Kind::Both, 4) => w.state[state::FILL_REPLY..][..3].copy_from_slice(&[1, value(0), value(1)]),
            (Kind::Both, _) => w.state[state::KEYWORD_REPLY..][..3].copy_from_slice(&[1, value(0), value(1)]),
            (Kind::Width, _) => w.state[state::KEYWORD_REPLY..][..3].copy_from_slice(&[2, value(0), 0]),
            (Kind::Height, _) => w.state[state::KEYWORD_REPLY..][..3].copy_from_slice(&[3, 0, value(0)]),
            (Kind::LayOut, _) => {
                let laid = &self.run.laid[self.laid];
                w.layouts[LAYOUT * laid.node as usize..][..LAYOUT].copy_from_slice(&laid.layout);
                self.fill(w, model::layers(&said.surfaced, w.area[5]), [laid.working, laid.unclaimed]);
                w.state[state::OVERFLOW..][..4].copy_from_slice(&laid.overflow);
                w.state[state::KEYWORD_REPLY..][..6].fill(0);
                self.laid += 1;
            }
        }
        self.first = said.kind == Kind::LayOut;
        self.next(at + 1, w);
    }
    /// Question `at`, or the finish, in state and answer
    fn next(&self, at: usize, w: &mut Words) {
        w.answer = [0; 10];
        let Some(q) = self.run.questions.get(at) else {
            w.state[state::PROGRESS] = 0;
            w.answer[1] = at as u32;
            w.answer[2..6].copy_from_slice(&self.run.overflow);
            return;
        };
        if self.first {
            w.state[state::BEGUN] += 1;
        }
        // two size keywords that are measured are one question; any other that measures both is step 6's
        let style = &w.styles[STYLE * q.node as usize..];
        let keywords = [style[SIZE], style[SIZE + LENGTH]].iter().all(|tag| [11, 15, 27, 43, 59].contains(tag));
        w.state[state::PROGRESS] = match q.kind {
            Kind::Both if keywords => 1,
            Kind::Both => 4,
            Kind::Width => 2,
            Kind::Height => 3,
            Kind::LayOut => 5,
        };
        w.answer[0] = q.kind as u32 + 1;
        w.answer[1] = q.node;
        for axis in 0..2 {
            if let Some(known) = q.known[axis] {
                w.answer[2 + 2 * axis..][..2].copy_from_slice(&[1, known]);
            }
            w.answer[6 + 2 * axis..][..2].copy_from_slice(&match q.space[axis] {
                Space::Definite(v) => [0, v],
                Space::MinContent => [1, 0],
                Space::MaxContent => [2, 0],
            });
        }
    }
}

/// Every word as wanted: zeros are equal in floats. The wanted run has every NaN as 7FC00000, so a NaN of the library's with other
/// bits differs.
fn hold(call: &str, words: &Words, wanted: &Words, seen: &mut Counted) -> Result<(), Difference> {
    let layout_float = |at: usize| at % LAYOUT != 0;
    let candidate_float = |at: usize| [3, 4, 8, 9].contains(&(at % CANDIDATE));
    let state_float = |at: usize| [2, 3, 5, 6].contains(&at) || (11..19).contains(&at);
    let finish = wanted.answer[0] == 0;
    let answer_float = |at: usize| if finish { (2..6).contains(&at) } else { [3, 5, 7, 9].contains(&at) };
    let never = |_: usize| false;
    let lists: [(&str, &[u32], &[u32], &dyn Fn(usize) -> bool); 8] = [
        ("answer", &words.answer, &wanted.answer, &answer_float),
        ("state", &words.state, &wanted.state, &state_float),
        ("layouts", &words.layouts, &wanted.layouts, &layout_float),
        ("working", &words.working, &wanted.working, &candidate_float),
        ("unclaimed", &words.unclaimed, &wanted.unclaimed, &candidate_float),
        ("tally", &words.tally, &wanted.tally, &never),
        ("styles", &words.styles, &wanted.styles, &never),
        ("candidates", &words.candidates, &wanted.candidates, &never),
    ];
    for (name, words, wanted, is_float) in lists {
        seen.words += words.len() as u64;
        if words == wanted {
            continue;
        }
        for (at, (&word, &want)) in words.iter().zip(wanted).enumerate() {
            if word != want {
                if !(is_float(at) && word << 1 == 0 && want << 1 == 0) {
                    return Err(format!("{call}: {name} word {at} is {word:08x}, not {want:08x}"));
                }
                seen.signs += 1;
            }
        }
    }
    seen.nans += wanted.layouts.iter().filter(|&&w| w == oracle::case::NAN).count() as u64;
    Ok(())
}
