//! A case by both implementations (`diff/oracle`): what the library must answer, and how they are held to each other.
use crate::side::{Difference, Setting};
use oracle::case::{Case, Refused};
use oracle::host::Random;
use oracle::run::{run, Kind, Question, Transcript};
use oracle::same;
use oracle::second::{self, Stretch};
use oracle::set::{block_size, by, has_size_keyword, By};
use std::ops::AddAssign;

type Outcome = Result<Transcript, Refused>;

pub struct Answers {
    /// The published Rust's
    rust: Outcome,
    /// The second implementation's, with the Rust's stretch size and with request #106's
    area: Outcome,
    block: Outcome,
    pub by: By,
}
impl Answers {
    pub fn of(case: &Case, setting: &Setting) -> Answers {
        let second = |stretch| second::run(case, &mut setting.host(case), stretch);
        let rust = run(case, &mut setting.host(case));
        let by = rust.as_ref().map_or(By::Rust, |rust| by(case, &rust.hoisted));
        Answers { rust, area: second(Stretch::FromArea), block: second(Stretch::FromBlock), by }
    }
    /// What the library must answer
    pub fn wanted(&self) -> Result<&Transcript, Refused> {
        let outcome = match self.by {
            By::Rust => &self.rust,
            By::Second => &self.block,
        };
        outcome.as_ref().map_err(|&number| number)
    }
    /// The second implementation is the Rust: with the Rust's stretch size everywhere, with request #106's on the set
    pub fn hold(&self) -> Result<(), Difference> {
        agree("from the area", &self.rust, &self.area)?;
        match self.by {
            By::Rust => agree("from the block", &self.rust, &self.block),
            By::Second => Ok(()),
        }
    }
}
fn agree(stretch: &str, rust: &Outcome, second: &Outcome) -> Result<(), Difference> {
    let differs = match (rust, second) {
        (Ok(rust), Ok(second)) => same::difference(rust, second),
        (rust, second) => (rust.as_ref().err() != second.as_ref().err()).then_some("the refusal"),
    };
    differs.map_or(Ok(()), |part| Err(format!("the second implementation, stretch {stretch}, isn't the Rust: {part}")))
}

/// Boxes with a size keyword, and runs, by what they were held to
#[derive(Default, Clone, Copy, Debug)]
pub struct Keywords {
    /// Compared with the Rust, and of these, those whose block has size 0 in some axis
    pub compared: u64,
    pub closed: u64,
    /// Held to the second implementation alone, and of these, those that the Rust places or asks otherwise
    pub alone: u64,
    pub other: u64,
    /// Runs that weren't refused
    pub runs_by_rust: u64,
    pub runs_by_second: u64,
}
impl Keywords {
    pub fn count(&mut self, case: &Case, answers: &Answers) {
        let (Ok(rust), Ok(block)) = (&answers.rust, &answers.block) else { return };
        let keyword = |node: u32| has_size_keyword(&case.styles[node as usize]);
        let boxes: Vec<u32> = rust.hoisted.iter().copied().filter(|&node| keyword(node)).collect();
        let is_closed = |node: u32| {
            let style = &case.styles[node as usize];
            (0..2).any(|axis| block_size(&case.area, style, axis) == Some(0.0))
        };
        match answers.by {
            By::Rust => {
                self.runs_by_rust += 1;
                self.compared += boxes.len() as u64;
                self.closed += boxes.iter().filter(|&&node| is_closed(node)).count() as u64;
            }
            By::Second => {
                self.runs_by_second += 1;
                self.alone += boxes.len() as u64;
                let pairs = asked(rust).into_iter().zip(asked(block)).zip(rust.laid.iter().zip(&block.laid));
                let other = pairs.filter(|((a, b), (laid, wanted))| {
                    keyword(laid.node)
                        && !(same::all(a, b, same::question) && same::layout(&laid.layout, &wanted.layout))
                });
                self.other += other.count() as u64;
            }
        }
    }
}
impl AddAssign<&Keywords> for Keywords {
    fn add_assign(&mut self, o: &Keywords) {
        self.compared += o.compared;
        self.closed += o.closed;
        self.alone += o.alone;
        self.other += o.other;
        self.runs_by_rust += o.runs_by_rust;
        self.runs_by_second += o.runs_by_second;
    }
}
/// The questions of each box
fn asked(t: &Transcript) -> Vec<&[Question]> {
    t.questions.split_inclusive(|question| question.kind == Kind::LayOut).collect()
}

impl Setting {
    pub fn host(&self, case: &Case) -> Random {
        Random::new(self.host_seed, self.profile, case.styles.len(), self.surfaced)
    }
}
