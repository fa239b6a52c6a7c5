//! The size keywords stretch and fit-content are measured from the anchor of a label without insets, in either direction.
use oof::*;

const PANEL: Size<f32> = Size { width: 800.0, height: 480.0 };

/// Measures 40 by 18, and keeps the spaces that it was asked in
#[derive(Default)]
struct Font(Vec<Size<AvailableSpace>>);
impl Host for Font {
    fn measure_both(&mut self, _: NodeId, _: Size<Option<f32>>, space: Size<AvailableSpace>) -> Size<f32> {
        self.0.push(space);
        Size { width: 40.0, height: 18.0 }
    }
    fn measure_width(&mut self, _: NodeId, _: Size<Option<f32>>, space: Size<AvailableSpace>) -> f32 {
        self.0.push(space);
        40.0
    }
    fn measure_height(&mut self, _: NodeId, _: Size<Option<f32>>, space: Size<AvailableSpace>) -> f32 {
        self.0.push(space);
        18.0
    }
}

/// A label without insets, anchored at 300, 100 by this edge of x: its layout, and the spaces of the questions before lay out
fn placed(direction: Direction, edge: AxisStaticEdge, size: Size<Dimension>) -> (Layout, Vec<Size<AvailableSpace>>) {
    let at = |position: f32, keyword: AxisStaticEdge| AxisStaticPosition {
        area: Line { start: position, end: position },
        align: AxisStaticAlign { keyword, ..AxisStaticAlign::default() },
    };
    let static_position = Point { x: at(300.0, edge), y: at(100.0, AxisStaticEdge::Start) };
    let candidate = Candidate { static_position, ..Candidate::default() };
    let style = Style { size, direction, ..Style::default() };
    let area = Area { size: PANEL, direction, ..Area::default() };
    let mut font = Font::default();
    let placed = compute_oof_layout_for_area(&mut font, &area, &[style], &[candidate]).unwrap();
    (placed.layouts[0].unwrap(), font.0)
}

#[test]
fn a_stretched_label_ends_with_the_panel() {
    let size = Size { width: Dimension::Stretch, height: Dimension::Length(20.0) };
    for direction in [Direction::Ltr, Direction::Rtl] {
        for (edge, x, width) in [
            (AxisStaticEdge::Start, 300.0, 500.0),
            (AxisStaticEdge::Center, 0.0, 600.0),
            (AxisStaticEdge::End, 0.0, 300.0),
        ] {
            let (layout, asked) = placed(direction, edge, size);
            assert_eq!((layout.location.x, layout.size.width), (x, width), "{direction:?} {edge:?}");
            assert!(asked.is_empty());
        }
    }
}

#[test]
fn fit_content_is_measured_from_the_anchor() {
    let space = |width: f32, height: f32| Size {
        width: AvailableSpace::Definite(width),
        height: AvailableSpace::Definite(height),
    };
    for (width, height, asked) in [
        (Dimension::FitContent, Dimension::FitContent, space(500.0, 380.0)),
        (Dimension::FitContentPx(25.0), Dimension::FitContent, space(25.0, 380.0)),
        (Dimension::FitContent, Dimension::Length(20.0), space(500.0, 380.0)),
        (Dimension::Auto, Dimension::FitContent, space(500.0, 380.0)),
    ] {
        let (_, spaces) = placed(Direction::Ltr, AxisStaticEdge::Start, Size { width, height });
        assert_eq!(spaces[0], asked, "{width:?} by {height:?}");
    }
}
