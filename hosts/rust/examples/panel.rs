//! An English panel and its Arabic mirror image, side by side. A label stands 20 pixels from the start edge and 12 from the top
//! of an 800 by 480 panel, which stands at 100, 40 of its window; its size is what the font says. Then the same label half the panel
//! less 12 pixels from the start edge.
use oof::*;

/// The font says 120 by 18. Writes down what it was asked.
#[derive(Default)]
struct Font {
    asked: Vec<String>,
}
fn space(s: Size<AvailableSpace>) -> String {
    let side = |s| match s {
        AvailableSpace::Definite(v) => format!("{v}"),
        AvailableSpace::MinContent => "min-content".to_string(),
        AvailableSpace::MaxContent => "max-content".to_string(),
    };
    format!("{} by {}", side(s.width), side(s.height))
}
impl Host for Font {
    fn measure_both(&mut self, _: NodeId, _: Size<Option<f32>>, available: Size<AvailableSpace>) -> Size<f32> {
        self.asked.push(format!("measure both in {}", space(available)));
        Size { width: 120.0, height: 18.0 }
    }
    fn lay_out(&mut self, _: NodeId, size: Size<f32>, available: Size<AvailableSpace>) -> LaidOut {
        self.asked.push(format!("lay out {} by {} in {}", size.width, size.height, space(available)));
        LaidOut::default()
    }
}

const OFFSET: Point<f32> = Point { x: 100.0, y: 40.0 };
const SIZE: Size<f32> = Size { width: 800.0, height: 480.0 };

/// Where the label would stand without insets: at the panel's start edge, in the window's coordinates. The mirror image of a
/// candidate is reflected in the panel, and its start and end are exchanged.
fn candidate(direction: Direction) -> Candidate {
    let (x, edge) = match direction {
        Direction::Ltr => (OFFSET.x, AxisStaticEdge::Start),
        Direction::Rtl => (OFFSET.x + SIZE.width, AxisStaticEdge::End),
    };
    let align = AxisStaticAlign { keyword: edge, fallback: edge, ..AxisStaticAlign::default() };
    let x = AxisStaticPosition { area: Line { start: x, end: x }, align };
    let y = AxisStaticPosition { area: Line { start: OFFSET.y, end: OFFSET.y }, ..AxisStaticPosition::default() };
    Candidate { static_position: Point { x, y }, ..Candidate::default() }
}

/// A label so far from the start edge of a panel of that direction
fn place(direction: Direction, start: LengthPercentageAuto) -> (Font, Placed) {
    let top = LengthPercentageAuto::Length(12.0);
    let (before, after) = (LengthPercentage::Length(8.0), LengthPercentage::Length(16.0));
    let (inset, padding) = match direction {
        Direction::Ltr => (
            Rect { left: start, top, ..Rect::AUTO },
            Rect { left: before, right: after, ..Rect::<LengthPercentage>::ZERO },
        ),
        Direction::Rtl => (
            Rect { right: start, top, ..Rect::AUTO },
            Rect { left: after, right: before, ..Rect::<LengthPercentage>::ZERO },
        ),
    };
    let label = Style { inset, padding, direction, ..Style::default() };
    let panel = Area { size: SIZE, offset: OFFSET, direction, ..Area::default() };
    let mut font = Font::default();
    let placed = compute_oof_layout_for_area(&mut font, &panel, &[label], &[candidate(direction)]);
    (font, placed.expect("nothing here is refused"))
}

fn main() {
    let panels = |start| [Direction::Ltr, Direction::Rtl].map(|direction| place(direction, start));
    let [english, arabic] = panels(LengthPercentageAuto::Length(20.0));
    let line = |name: &str, of: &dyn Fn(&(Font, Placed)) -> String| {
        println!("{name:<10}  {:<34}  {}", of(&english), of(&arabic))
    };
    println!("{:<10}  {:<34}  Arabic panel", "", "English panel");
    line("asked", &|(font, _)| font.asked[0].clone());
    line("asked", &|(font, _)| font.asked[1].clone());
    line("questions", &|(_, placed)| placed.questions.to_string());
    line("overflow", &|(_, Placed { overflow: o, .. })| {
        format!("{} to {}, {} to {}", o.left, o.right, o.top, o.bottom)
    });
    let label = |placed: &Placed| placed.layouts[0].expect("the label was placed");
    line("location", &|(_, placed)| format!("{}, {}", label(placed).location.x, label(placed).location.y));
    line("size", &|(_, placed)| format!("{} by {}", label(placed).size.width, label(placed).size.height));
    line("padding", &|(_, placed)| {
        format!("left {}, right {}", label(placed).padding.left, label(placed).padding.right)
    });
    let (there, here) = (label(&english.1), label(&arabic.1));
    let sum = there.location.x + here.location.x + there.size.width;
    println!("{} + {} + {} = {sum}", there.location.x, here.location.x, there.size.width);
    assert_eq!(sum, 2.0 * OFFSET.x + SIZE.width);
    let [english, arabic] = panels(LengthPercentageAuto::Sum(0.5, -12.0)).map(|(_, placed)| label(&placed).location);
    println!("half less 12: {}, {} and {}, {}", english.x, english.y, arabic.x, arabic.y);
}
