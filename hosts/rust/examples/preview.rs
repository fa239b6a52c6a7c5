//! An editor that tries styles for a note over a live screen. Of each it says where the note would stand, how large, whether scrolling could
//! bring it into view, and what a touch at one pixel would hit, before any is put into effect; the live screen and its table stay as they
//! are. One of them is the style of the incident, whose note nobody saw.
use oof::*;

const NAMES: [&str; 2] = ["label", "note"];
const LABEL: NodeId = 0;
const NOTE: NodeId = 1;
/// What is touched, from the panel's corner
const TOUCHED: Point<i32> = Point { x: 60, y: 50 };

/// Letters of 8 by 16 pixels: the note's 40 break anywhere
struct Font;
impl Host for Font {
    fn measure_both(&mut self, _: NodeId, known: Size<Option<f32>>, space: Size<AvailableSpace>) -> Size<f32> {
        let width = known.width.unwrap_or(match space.width {
            AvailableSpace::Definite(width) => width,
            AvailableSpace::MinContent => 8.0,
            AvailableSpace::MaxContent => f32::INFINITY,
        });
        let columns = (width / 8.0).floor().clamp(1.0, 40.0);
        let lines = (40.0 / columns).ceil();
        Size { width: known.width.unwrap_or(columns * 8.0), height: known.height.unwrap_or(lines * 16.0) }
    }
}

fn print(name: &str, placed: &Placed) {
    let Layout { location, size, .. } = placed.layouts[NOTE as usize].expect("it was placed");
    let place = placed.hoisted.iter().position(|node| *node == NOTE).expect("it was placed");
    let seen = match placed.reach(place).expect("all is in whole eighths") {
        Reach::Seen { .. } => "in view",
        Reach::Unseen => "UNSEEN",
    };
    let boxes = placed.touch().expect("all is in whole eighths");
    let from_above = placed.drawing_order().into_iter().rev();
    let hit =
        from_above.map(|place| boxes[place]).find(|b| b.covers(TOUCHED)).map_or("nothing", |b| NAMES[b.node as usize]);
    let stands = format!("{}, {}", location.x, location.y);
    println!("{name:<34}  {stands:<8}  {:<9}  {seen:<7}  {hit}", format!("{} by {}", size.width, size.height));
}

/// Styles for the note, each by name
fn tries(note: Style) -> [(&'static str, Style); 4] {
    use LengthPercentageAuto::{Auto, Length as px, Sum};
    let inset = |left, right, top| Rect { left, right, top, ..Rect::AUTO };
    let narrow = Size { width: Dimension::Length(80.0), height: Dimension::Auto };
    let incident = Rect { right: px(8.0), ..note.margin };
    [
        ("moved over the label", Style { inset: inset(px(48.0), Auto, px(48.0)), ..note }),
        ("80 wide", Style { size: narrow, ..note }),
        ("half the panel less 12", Style { inset: inset(Sum(0.5, -12.0), Auto, px(120.0)), ..note }),
        (
            "80 wide, right inset 400, margin 8",
            Style { size: narrow, inset: inset(Auto, px(400.0), px(120.0)), margin: incident, ..note },
        ),
    ]
}

fn main() {
    let px = LengthPercentageAuto::Length;
    let label = Style {
        inset: Rect { left: px(40.0), top: px(40.0), ..Rect::AUTO },
        size: Size { width: Dimension::Length(120.0), height: Dimension::Length(32.0) },
        ..Style::default()
    };
    let note = Style { inset: Rect { left: px(20.0), top: px(120.0), ..Rect::AUTO }, ..Style::default() };
    let styles = [label, note];
    let candidates = [(LABEL, 0), (NOTE, 1)].map(|(node, layer)| Candidate { node, layer, ..Candidate::default() });
    let overflow = Point { x: Overflow::Hidden, y: Overflow::Hidden };
    let panel = Area { size: Size { width: 400.0, height: 240.0 }, overflow, ..Area::default() };

    let live = compute_oof_layout_for_area(&mut Font, &panel, &styles, &candidates).expect("nothing here is refused");
    println!("{:<34}  {:<8}  {:<9}  {:<7}  a touch at 60, 50", "the note", "stands", "size", "");
    print("live", &live);
    let tries = tries(note);
    for (name, style) in &tries {
        let tried = preview(&mut Font, &panel, &styles, NOTE, style, &candidates).expect("nothing here is refused");
        print(name, &tried);
    }
    let again = compute_oof_layout_for_area(&mut Font, &panel, &styles, &candidates).expect("nothing here is refused");
    assert_eq!(again, live);
    print("live, as before", &again);

    let refused = preview(&mut Font, &panel, &styles, 2, &note, &candidates).expect_err("there are two items");
    println!("item 2, of a table of two: {refused}");
    let styles = [label, tries[0].1];
    let taken = compute_oof_layout_for_area(&mut Font, &panel, &styles, &candidates).expect("nothing here is refused");
    print("the first one put into effect", &taken);
}
