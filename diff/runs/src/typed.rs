//! The same case through the Rust host (`hosts/rust`): its types, its encoding of records, its callbacks.
use crate::side::{Difference, Setting};
use crate::touched;
use oof::{
    compute_oof_layout_with, words, Area, AvailableSpace, Candidate, Claims, Direction, LaidOut, NodeId, Overflow,
    Placed, Point, Rect, Room, Size, Style,
};
use oracle::case::{float, Case, LAYER, NAN, UNLAYERED};
use oracle::host::Random;
use oracle::run::{Host, Kind, Question, Space, Transcript};
use oracle::same;

/// The oracle's host behind the callbacks
struct Behind {
    random: Random,
    asked: Vec<Question>,
}
fn word(v: f32) -> u32 {
    if v.is_nan() {
        NAN
    } else {
        v.to_bits()
    }
}
impl Behind {
    fn ask(&mut self, kind: Kind, node: NodeId, known: Size<Option<f32>>, space: Size<AvailableSpace>) -> Vec<u32> {
        let side = |space| match space {
            AvailableSpace::Definite(v) => Space::Definite(word(v)),
            AvailableSpace::MinContent => Space::MinContent,
            AvailableSpace::MaxContent => Space::MaxContent,
        };
        let known = [known.width.map(word), known.height.map(word)];
        let question = Question { kind, node, known, space: [side(space.width), side(space.height)] };
        self.asked.push(question);
        self.random.answer(&question)
    }
}
impl oof::Host for Behind {
    fn measure_both(&mut self, node: NodeId, known: Size<Option<f32>>, space: Size<AvailableSpace>) -> Size<f32> {
        let w = self.ask(Kind::Both, node, known, space);
        Size { width: float(w[0]), height: float(w[1]) }
    }
    fn measure_width(&mut self, node: NodeId, known: Size<Option<f32>>, space: Size<AvailableSpace>) -> f32 {
        float(self.ask(Kind::Width, node, known, space)[0])
    }
    fn measure_height(&mut self, node: NodeId, known: Size<Option<f32>>, space: Size<AvailableSpace>) -> f32 {
        float(self.ask(Kind::Height, node, known, space)[0])
    }
    fn lay_out(&mut self, node: NodeId, size: Size<f32>, space: Size<AvailableSpace>) -> LaidOut {
        let known = Size { width: Some(size.width), height: Some(size.height) };
        let w = self.ask(Kind::LayOut, node, known, space);
        let overflow = Rect { left: float(w[0]), right: float(w[1]), top: float(w[2]), bottom: float(w[3]) };
        LaidOut { overflow, surfaced: w[4..].chunks(words::CANDIDATE).map(candidate).collect() }
    }
}

fn candidate(w: &[u32]) -> Candidate {
    Candidate::from_words(w.try_into().unwrap()).expect("a good candidate")
}

fn area(w: &[u32; 8]) -> Area {
    let overflow = |code| [Overflow::Visible, Overflow::Clip, Overflow::Hidden, Overflow::Scroll][code as usize];
    Area {
        size: Size { width: float(w[0]), height: float(w[1]) },
        offset: Point { x: float(w[2]), y: float(w[3]) },
        direction: [Direction::Ltr, Direction::Rtl][w[4] as usize],
        claims: Claims { absolute: w[5] & 1 != 0, fixed: w[5] & 2 != 0 },
        overflow: Point { x: overflow(w[6]), y: overflow(w[7]) },
    }
}

/// Places a good case through the Rust host, and holds what it says to the wanted run and to the layers of its lists. Answers whether there
/// is something for the touch driver, or its refusal.
pub fn compare(case: &Case, setting: &Setting, run: &Transcript, layers: &[Vec<u32>; 2]) -> Result<bool, Difference> {
    let styles: Vec<Style> = case.styles.iter().map(|w| Style::from_words(w).expect("a good style")).collect();
    let candidates: Vec<Candidate> = case.candidates.iter().map(|w| candidate(w)).collect();
    let mut host = Behind { random: setting.host(case), asked: vec![] };
    let room =
        Room { working: run.working.len() + setting.spare[0], unclaimed: run.unclaimed.len() + setting.spare[1] };
    let placed = compute_oof_layout_with(&mut host, &area(&case.area), &styles, &candidates, room);
    let placed = placed.map_err(|refusal| format!("the Rust host is refused: {refusal}"))?;
    hold("drawing order", placed.drawing_order() == drawing_order(&layers[0]))?;
    let touched = touched::of(case, run);
    hold("what the touch driver reads", placed.touch() == touched)?;
    let Placed { layouts, hoisted, unclaimed, overflow: o, questions, tally, .. } = placed;

    let same = same::all(&layouts, &run.layouts, |a, b| match (a, b) {
        (Some(a), Some(b)) => same::layout(&a.to_words(), b),
        (a, b) => a.is_none() && b.is_none(),
    });
    hold("layouts", same)?;
    hold("hoisted", hoisted == run.hoisted)?;
    hold("questions", questions == run.questions.len() && host.asked.len() == questions)?;
    hold("the tally", tally == run.tally)?;
    hold("a question", same::all(&host.asked, &run.questions, same::question))?;
    hold("overflow", same::floats(&[o.left, o.right, o.top, o.bottom].map(f32::to_bits), &run.overflow))?;
    let records: Vec<_> = unclaimed.iter().map(Candidate::to_words).collect();
    hold("unclaimed", same::all(&records, &run.unclaimed, |a, b| same::record(&a[..UNLAYERED], b)))?;
    hold("an unclaimed layer", records.iter().map(|record| record[LAYER]).eq(layers[1].iter().copied()))?;
    Ok(touched.is_ok())
}

/// Lower layers first, and within one layer the hoisted order: a sort that keeps equals as they stand
fn drawing_order(layers: &[u32]) -> Vec<usize> {
    let mut order: Vec<usize> = (0..layers.len()).collect();
    order.sort_by_key(|&place| layers[place]);
    order
}

fn hold(what: &str, same: bool) -> Result<(), Difference> {
    if same {
        return Ok(());
    }
    Err(format!("the Rust host: {what} differs"))
}
