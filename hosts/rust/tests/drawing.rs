//! Which box is drawn over which: boxes of runs, and every refusal by its name.
mod common;
#[path = "common/filled.rs"]
mod filled;
use common::Words;
use oof::ffi::{self, state, Lent, Reply};
use oof::words::{style, CANDIDATE, LAYER};
use oof::*;

/// Surfaces these candidates from the first box that it lays out
#[derive(Default)]
struct Surfacing(Vec<Candidate>);
impl Host for Surfacing {
    fn measure_both(&mut self, _: NodeId, _: Size<Option<f32>>, _: Size<AvailableSpace>) -> Size<f32> {
        Size { width: 120.0, height: 18.0 }
    }
    fn lay_out(&mut self, _: NodeId, _: Size<f32>, _: Size<AvailableSpace>) -> LaidOut {
        LaidOut { surfaced: std::mem::take(&mut self.0), ..LaidOut::default() }
    }
}

const NODES: usize = 6;

fn panel() -> Area {
    Area { size: Size { width: 800.0, height: 480.0 }, ..Area::default() }
}
/// A box that stands 20 from the left and 12 from the top, so that what it surfaces is shifted
fn style() -> Style {
    let px = LengthPercentageAuto::Length;
    Style { inset: Rect { left: px(20.0), top: px(12.0), ..Rect::AUTO }, ..Style::default() }
}
fn on(node: NodeId, layer: u8) -> Candidate {
    Candidate { node, layer, ..Candidate::default() }
}
fn place(host: &mut Surfacing, area: &Area, candidates: &[Candidate]) -> Placed {
    compute_oof_layout_for_area(host, area, &[style(); NODES], candidates).unwrap()
}
fn placed(candidates: &[Candidate]) -> Placed {
    place(&mut Surfacing::default(), &panel(), candidates)
}
fn order(layers: &[u8]) -> Vec<usize> {
    placed(&layers.iter().map(|&layer| on(3, layer)).collect::<Vec<_>>()).drawing_order()
}

/// Places in the hoisted order, not items; within one layer the hoisted order
#[test]
fn rows() {
    assert_eq!(placed(&[on(5, 1), on(5, 0), on(2, 0)]).drawing_order(), [1, 2, 0]);
    assert_eq!(order(&[]), []);
    assert_eq!(order(&[255]), [0]);
    assert_eq!(order(&[7, 7, 7]), [0, 1, 2]);
    assert_eq!(order(&[0, 1, 255]), [0, 1, 2]);
    assert_eq!(order(&[255, 254, 1, 0]), [3, 2, 1, 0]);
    assert_eq!(order(&[128, 127, 128, 127]), [1, 3, 0, 2]);
}

/// As a stable sort by layer has it
#[test]
fn stable() {
    let mut seed = 104u32;
    let mut word = || {
        seed = seed.wrapping_mul(1_664_525).wrapping_add(1_013_904_223);
        seed >> 16
    };
    for count in [1, 2, 3, 17, 256, 1024] {
        for layers in [1, 2, 3, 256] {
            let candidates: Vec<_> = (0..count).map(|_| on(word() % NODES as u32, (word() % layers) as u8)).collect();
            let placed = placed(&candidates);
            let mut sorted: Vec<usize> = (0..count).collect();
            sorted.sort_by_key(|&place| candidates[place].layer);
            assert_eq!(placed.drawing_order(), sorted, "{count} boxes, {layers} layers");
            assert_eq!(placed.hoisted.len(), count);
        }
    }
}

/// The alarm note is drawn last, whichever box it was
#[test]
fn note_over_labels() {
    for direction in [Direction::Ltr, Direction::Rtl] {
        for note in 0..4 {
            let candidates: Vec<_> = (0..4).map(|place| on(place, u8::from(place == note))).collect();
            let placed = place(&mut Surfacing::default(), &Area { direction, ..panel() }, &candidates);
            let drawn: Vec<_> = placed.drawing_order().into_iter().map(|place| placed.hoisted[place]).collect();
            let labels = (0..4).filter(|&place| place != note);
            assert_eq!(drawn, labels.chain([note]).collect::<Vec<_>>());
        }
    }
}

/// Surfaced and unclaimed candidates keep their layers, and the shift leaves them alone
#[test]
fn layers_are_kept() {
    let sticky = |node, layer| Candidate { position: Position::Sticky, ..on(node, layer) };
    let mut host = Surfacing(vec![on(1, 4), sticky(2, 255), on(3, 6), sticky(4, 1)]);
    let placed = place(&mut host, &panel(), &[on(0, 5), sticky(5, 200)]);
    assert_eq!(placed.hoisted, [0, 1, 3]);
    assert_eq!(placed.drawing_order(), [1, 0, 2]);
    let unclaimed: Vec<_> =
        placed.unclaimed.iter().map(|c| (c.node, c.layer, c.static_position.x.area.start)).collect();
    assert_eq!(unclaimed, [(5, 200, 0.0), (2, 255, 20.0), (4, 1, 20.0)]);
}

/// Two places of one item, each on its own layer; and runs without a box
#[test]
fn claimed_twice_or_not_at_all() {
    let twice = placed(&[on(0, 3), on(1, 2), on(0, 1)]);
    assert_eq!((twice.drawing_order(), twice.hoisted), (vec![2, 1, 0], vec![0, 1, 0]));
    assert_eq!(placed(&[]).drawing_order(), []);
    let none = Area { claims: Claims { absolute: false, fixed: true }, ..panel() };
    let unclaimed = place(&mut Surfacing::default(), &none, &[on(0, 3), on(1, 2)]);
    assert_eq!((unclaimed.drawing_order(), unclaimed.unclaimed), (vec![], vec![on(0, 3), on(1, 2)]));
    let table = compute_oof_layout_for_area(&mut Surfacing::default(), &panel(), &[], &[]).unwrap();
    assert_eq!(table.drawing_order(), []);
}

/// Placements that differ in layers alone differ in nothing else, and aren't equal
#[test]
fn equality() {
    let candidates = |layers: [u8; 2]| [on(0, layers[0]), on(1, layers[1])];
    let [level, raised, again] = [[0, 0], [1, 0], [1, 0]].map(|layers| placed(&candidates(layers)));
    assert_eq!((level.drawing_order(), raised.drawing_order()), (vec![0, 1], vec![1, 0]));
    assert_eq!(
        (&level.layouts, &level.hoisted, &level.unclaimed),
        (&raised.layouts, &raised.hoisted, &raised.unclaimed)
    );
    assert_eq!((level.overflow, level.questions), (raised.overflow, raised.questions));
    assert_ne!(level, raised);
    assert_eq!(again, raised);
    // other layers, the same order
    let higher = placed(&candidates([9, 3]));
    assert_eq!(higher.drawing_order(), raised.drawing_order());
    assert_ne!(higher, raised);
    // room has no say
    let room = Room { working: 2, unclaimed: 0 };
    let tight =
        compute_oof_layout_with(&mut Surfacing::default(), &panel(), &[style(); NODES], &candidates([1, 0]), room);
    assert_eq!(tight, Ok(raised));
    // an unclaimed candidate's layer is its field's
    let none = Area { claims: Claims { absolute: false, fixed: false }, ..panel() };
    let [a, b] = [[0, 0], [0, 1]].map(|layers| place(&mut Surfacing::default(), &none, &candidates(layers)));
    assert_ne!(a, b);
}

/// A run by words: three boxes of six items on layers 1, 0, 0, and lists of four records
impl Words {
    fn opened() -> Words {
        let mut w = Words::over([style(); NODES].iter().flat_map(Style::to_words).collect(), 4);
        let candidates: Vec<u32> = [on(5, 1), on(5, 0), on(2, 0)].iter().flat_map(Candidate::to_words).collect();
        assert_eq!(w.call(|lent| ffi::open([800.0, 480.0, 0.0, 0.0], [0, 3, 3, 3], &candidates, lent)), 0);
        w
    }
    fn finished() -> Words {
        let mut w = Words::opened();
        for _ in 0..3 {
            assert_eq!(w.call(|lent| ffi::reply(Reply::Both(120.0, 18.0), &[], lent)), 0);
            assert_eq!(w.call(|lent| ffi::reply(Reply::LaidOut([0.0; 4]), &[], lent)), 0);
        }
        w
    }
    fn call(&mut self, call: impl FnOnce(&mut Lent) -> u32) -> u32 {
        call(&mut self.lent())
    }
    fn drawing_order(&self, words: usize) -> Result<Vec<u32>, Refusal> {
        self.filled(ffi::drawing_order, words)
    }
}

/// Each refusal that words can meet, in the order of the tests: each damage comes before those above it
#[test]
fn refused_by_name() {
    let mut w = Words::finished();
    assert_eq!(w.drawing_order(3), Ok(vec![1, 2, 0]));
    w.styles[style::PADDING_LEFT] = 2; // no tag: styles aren't read
    w.layouts.fill(f32::NAN.to_bits()); // nor are layouts
    w.unclaimed[LAYER] = 256; // nor is the unclaimed list
    w.working[3 * CANDIDATE + LAYER] = 256; // nor is what isn't filled
    (w.state[state::BEGUN], w.state[state::ANSWERED]) = (7, 99);
    w.state[state::LENGTHS + 4] = 99; // of the tally, which isn't lent
    w.state[state::AREA] = f32::NAN.to_bits();
    assert_eq!(w.drawing_order(3), Ok(vec![1, 2, 0]));
    for layer in [256, 257, 1 << 24, 0x7FC0_0001, 1 << 31, u32::MAX] {
        w.working[2 * CANDIDATE + LAYER] = layer;
        assert_eq!(w.drawing_order(3), Err(Refusal::BadCandidate), "layer {layer}");
    }
    w.working[2 * CANDIDATE + LAYER] = 255;
    assert_eq!(w.drawing_order(3), Ok(vec![1, 0, 2]));
    w.working[0] = NODES as u32;
    assert_eq!(w.drawing_order(3), Err(Refusal::BadCandidate));
    w.state[state::FILLED_UNCLAIMED] = 5;
    assert_eq!(w.drawing_order(3), Err(Refusal::WrongReply));
    for words in [0, 1, 2, 4, 5] {
        assert_eq!(w.drawing_order(words), Err(Refusal::BadExtent), "{words} words");
    }
    w.unclaimed.truncate(CANDIDATE);
    assert_eq!(w.drawing_order(3), Err(Refusal::BadExtent));
}

#[test]
fn unfinished() {
    filled::unfinished(ffi::drawing_order, 1, &Words::opened(), Words::finished());
}
