//! The panel of the incident and its Arabic mirror image, in whole pixels: a label, and the note that said why a restore was refused.
//! The note was to end 8 pixels before what it speaks of, and that stands in the panel's first column. The panel scrolls, and stands at
//! 100, 40 of its window; the edges are counted from the panel's corner. Under each box: whether scrolling can bring it into view. The
//! note is hoisted first, and drawn over the label, since its layer is higher. Then which box a touch of some pixels hits; the touch
//! driver reads no layout.
use oof::*;

/// By item
const NAMES: [&str; 2] = ["label", "note"];

struct Font;
impl Host for Font {
    fn measure_both(&mut self, _: NodeId, _: Size<Option<f32>>, _: Size<AvailableSpace>) -> Size<f32> {
        Size { width: 160.0, height: 24.0 }
    }
}

/// At the start or at the end of an axis, by direction
fn sides<T>(direction: Direction, start: T, end: T) -> (T, T) {
    match direction {
        Direction::Ltr => (start, end),
        Direction::Rtl => (end, start),
    }
}

/// Styles of the label and of the note
fn styles(direction: Direction) -> [Style; 2] {
    let (auto, px) = (LengthPercentageAuto::Auto, LengthPercentageAuto::Length);
    let label = {
        let (left, right) = sides(direction, px(24.0), auto);
        Style { inset: Rect { left, right, top: px(16.0), bottom: auto }, direction, ..Style::default() }
    };
    let note = {
        let (left, right) = sides(direction, auto, px(800.0));
        let inset = Rect { left, right, top: px(200.0), bottom: auto };
        let (left, right) = sides(direction, px(0.0), px(8.0));
        let margin = Rect { left, right, top: px(0.0), bottom: px(0.0) };
        let size = Size { width: Dimension::Length(320.0), height: Dimension::Length(96.0) };
        Style { inset, margin, size, direction, ..Style::default() }
    };
    [label, note]
}

/// Pixels of the English panel, from its corner
const TOUCHES: [Point<i32>; 3] = [Point { x: 24, y: 16 }, Point { x: 183, y: 39 }, Point { x: 184, y: 40 }];

/// What a touch of a pixel, or of its mirror image, hits: of the boxes that cover it the one that is drawn last
fn touched(placed: &Placed, direction: Direction, Point { x, y }: Point<i32>) -> String {
    let pixel = Point { x: sides(direction, x, 799 - x).0, y };
    let boxes = placed.touch().expect("all boxes are in eighths");
    let mut from_above = placed.drawing_order().into_iter().rev().map(|place| boxes[place]);
    let hit = from_above.find(|touch_box| touch_box.covers(pixel)).map(|touch_box| NAMES[touch_box.node as usize]);
    format!("{}, {y} hits {}", pixel.x, hit.unwrap_or("nothing"))
}

/// A panel's lines: of each box its pixel edges and the verdict; the hoisted order; the drawing order; touches
fn place(direction: Direction) -> Vec<String> {
    let (size, offset) = (Size { width: 800.0, height: 480.0 }, Point { x: 100.0, y: 40.0 });
    let overflow = Point { x: Overflow::Scroll, y: Overflow::Scroll };
    let panel = Area { size, offset, direction, overflow, ..Area::default() };
    let [label, note] = [(0, 0), (1, 1)].map(|(node, layer)| Candidate { node, layer, ..Candidate::default() });
    let placed = compute_oof_layout_for_area(&mut Font, &panel, &styles(direction), &[note, label]);
    let placed = placed.expect("nothing here is refused");
    let edges = placed.pixels(&panel);
    let said = |node: usize| {
        let Rect { left, right, top, bottom } = edges[node].expect("it was placed").expect("it is in eighths");
        let place = placed.hoisted.iter().position(|&other| other as usize == node).expect("so it has a place");
        let verdict = match placed.reach(place).expect("all of it is in eighths").offset() {
            Some(Point { x, y }) => format!("seen at {x}, {y}"),
            None => "unseen".to_string(),
        };
        [format!("{left} to {right}, {top} to {bottom}"), verdict]
    };
    let hoisted = placed.hoisted.iter().map(|&node| NAMES[node as usize]).collect::<Vec<_>>();
    let drawn = placed.drawing_order().into_iter().map(|place| hoisted[place]).collect::<Vec<_>>();
    let touches = TOUCHES.map(|pixel| touched(&placed, direction, pixel));
    [said(0).as_slice(), &said(1), &[hoisted.join(", "), drawn.join(", ")], &touches].concat()
}

fn main() {
    let [english, arabic] = [Direction::Ltr, Direction::Rtl].map(place);
    println!("{:<8}  {:<24}  Arabic panel", "", "English panel");
    for (k, name) in [NAMES[0], "", NAMES[1], "", "hoisted", "drawn", "touched", "", ""].into_iter().enumerate() {
        println!("{name:<8}  {:<24}  {}", english[k], arabic[k]);
    }
}
