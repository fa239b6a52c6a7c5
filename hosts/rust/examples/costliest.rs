//! Which labels of a panel are costly. Measuring a text takes time, and one count for the run doesn't tell which label it went to; the tally
//! has a count for each item. A label whose size is given is only laid out. One whose size is auto is measured before that; one whose width
//! is min-content and whose height is auto is measured for its width, and once more for its height. The unit stands at two places.
use oof::*;
use Dimension::{Auto, FitContent, Length, MaxContent, MinContent};

struct Label {
    name: &'static str,
    text: &'static str,
    width: Dimension,
    height: Dimension,
    /// How often it stands in the panel
    places: usize,
}

const LABELS: [Label; 6] = [
    Label { name: "title", text: "Reel motor", width: Length(320.0), height: Length(24.0), places: 1 },
    Label { name: "speed", text: "1440", width: Auto, height: Auto, places: 1 },
    Label { name: "caption", text: "speed of the left reel", width: MinContent, height: Auto, places: 1 },
    Label { name: "state", text: "running", width: MaxContent, height: Length(24.0), places: 1 },
    Label { name: "hint", text: "hold to stop both reels", width: FitContent, height: FitContent, places: 1 },
    Label { name: "unit", text: "rpm", width: Auto, height: Auto, places: 2 },
];

/// Letters of 8 by 16 pixels, in lines that break between words
struct Font;
impl Font {
    /// The longest line, where none is longer than `width` unless a word is; and the lines' height
    fn text(text: &str, width: f32) -> Size<f32> {
        let mut lines: Vec<usize> = vec![];
        for word in text.split(' ').map(str::len) {
            match lines.last_mut() {
                Some(line) if (*line + 1 + word) as f32 * 8.0 <= width => *line += 1 + word,
                _ => lines.push(word),
            }
        }
        let longest = lines.iter().copied().max().unwrap_or(0);
        Size { width: longest as f32 * 8.0, height: lines.len() as f32 * 16.0 }
    }
}
impl Host for Font {
    fn measure_both(&mut self, node: NodeId, known: Size<Option<f32>>, space: Size<AvailableSpace>) -> Size<f32> {
        let width = known.width.unwrap_or(match space.width {
            AvailableSpace::Definite(width) => width,
            AvailableSpace::MinContent => 0.0,
            AvailableSpace::MaxContent => f32::INFINITY,
        });
        let text = Font::text(LABELS[node as usize].text, width);
        Size { width: known.width.unwrap_or(text.width), height: known.height.unwrap_or(text.height) }
    }
}

fn said(length: Dimension) -> String {
    match length {
        Length(pixels) => pixels.to_string(),
        MinContent => "min-content".to_string(),
        MaxContent => "max-content".to_string(),
        FitContent => "fit-content".to_string(),
        _ => "auto".to_string(),
    }
}

fn main() {
    let styles = LABELS.map(|Label { width, height, .. }| Style { size: Size { width, height }, ..Style::default() });
    let candidates: Vec<Candidate> = (0..)
        .zip(&LABELS)
        .flat_map(|(node, label)| vec![Candidate { node, ..Candidate::default() }; label.places])
        .collect();
    let panel = Area { size: Size { width: 800.0, height: 480.0 }, ..Area::default() };
    let placed = compute_oof_layout_for_area(&mut Font, &panel, &styles, &candidates).expect("nothing here is refused");

    println!("{:<8}  {:<26}  {:<9}  questions", "", "size", "comes to");
    for (node, label) in LABELS.iter().enumerate() {
        let asked = format!("{} by {}", said(label.width), said(label.height));
        let Size { width, height } = placed.layouts[node].expect("it was placed").size;
        println!("{:<8}  {asked:<26}  {:<9}  {}", label.name, format!("{width} by {height}"), placed.tally[node]);
    }
    assert_eq!(placed.tally.iter().sum::<u32>() as usize, placed.questions);
    let most = placed.tally.iter().copied().max().expect("there are labels");
    let costliest = LABELS.iter().zip(&placed.tally).filter(|(_, count)| **count == most).map(|(label, _)| label.name);
    println!("costliest: {}, {most} of {} questions", costliest.collect::<Vec<_>>().join(" and "), placed.questions);
}
