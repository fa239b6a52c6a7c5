//! An editor that holds its styles as words and looks at them at each keystroke. While a word is half typed no run over the table would
//! open; the library names the item and the word to point at. Once there is none, the boxes are placed. A length may be typed as a sum.
use oof::words::{style, Tagged, LENGTH, STYLE};
use oof::*;

/// A field that is typed into, by its first word
#[derive(Copy, Clone)]
enum Field {
    MarginLeft = style::MARGIN_LEFT as isize,
    Justify = style::JUSTIFY as isize,
}

/// What is typed so far as the words of a length. No tag is 0.
fn length(text: &str) -> Vec<u32> {
    let number = |text: &str, unit: &str| text.strip_suffix(unit)?.parse::<f32>().ok();
    let sum = |(percent, pixels): (&str, &str)| Some((number(percent, "%")?, number(pixels, "px")?));
    let typed = if text == "auto" {
        LengthPercentageAuto::Auto.to_words()
    } else if let Some(pixels) = number(text, "px") {
        LengthPercentageAuto::Length(pixels).to_words()
    } else if let Some(percent) = number(text, "%") {
        LengthPercentageAuto::Percent(percent / 100.0).to_words()
    } else if let Some((percent, pixels)) = text.split_once(" - ").and_then(sum) {
        LengthPercentageAuto::Sum(percent / 100.0, -pixels).to_words()
    } else {
        [0; LENGTH]
    };
    typed.to_vec()
}

/// What is typed so far as a keyword and its safety. No keyword is above 10.
fn alignment(text: &str) -> Vec<u32> {
    let keywords = "normal start end flex-start flex-end self-start self-end center baseline stretch";
    let code = keywords.split(' ').position(|keyword| keyword == text);
    vec![code.map_or(u32::MAX, |code| code as u32), 0]
}

struct Font;
impl Host for Font {
    fn measure_both(&mut self, _: NodeId, _: Size<Option<f32>>, _: Size<AvailableSpace>) -> Size<f32> {
        Size { width: 160.0, height: 24.0 }
    }
}

/// Where the boxes stand. No word of the table is bad.
fn place(table: &[u32]) -> String {
    let typed = |words: &[u32; STYLE]| Style::from_words(words).expect("no word is bad");
    let styles: Vec<Style> = table.as_chunks::<STYLE>().0.iter().map(typed).collect();
    let candidates: Vec<Candidate> =
        (0..styles.len() as NodeId).map(|node| Candidate { node, ..Candidate::default() }).collect();
    let panel = Area { size: Size { width: 800.0, height: 480.0 }, ..Area::default() };
    let placed = compute_oof_layout_for_area(&mut Font, &panel, &styles, &candidates).expect("nothing here is refused");
    let at = |layout: &Option<Layout>| layout.map(|l| format!("{}, {}", l.location.x, l.location.y));
    format!("placed at {}", placed.layouts.iter().flat_map(at).collect::<Vec<_>>().join(" and at "))
}

fn main() {
    let px = LengthPercentageAuto::Length;
    let heading =
        Style { inset: Rect { left: px(0.0), right: px(0.0), top: px(16.0), ..Rect::AUTO }, ..Style::default() };
    let note = Style { inset: Rect { left: px(24.0), top: px(200.0), ..Rect::AUTO }, ..Style::default() };
    let mut table: Vec<u32> = [heading, note].iter().flat_map(Style::to_words).collect();

    println!("{:<6}  {:<12}  {:<10}  the library", "", "field", "typed");
    for (item, field, text) in [
        (1, Field::MarginLeft, "8"),
        (1, Field::MarginLeft, "8p"),
        (0, Field::Justify, "cente"),
        (0, Field::Justify, "center"),
        (1, Field::MarginLeft, "8px"),
        (1, Field::MarginLeft, "50% - 12"),
        (1, Field::MarginLeft, "50% - 12px"),
    ] {
        let (name, typed) = match field {
            Field::MarginLeft => ("margin left", length(text)),
            Field::Justify => ("justify", alignment(text)),
        };
        let at = STYLE * item + field as usize;
        table[at..at + typed.len()].copy_from_slice(&typed);
        let said = first_bad_word(&table).map_or_else(|| place(&table), |bad| bad.to_string());
        println!("item {item}  {name:<12}  {text:<10}  {said}");
    }
}
