//! The first word of a table of styles that breaks a code rule.
use crate::ffi;
use crate::words::STYLE;
use std::fmt;

/// A word of a table of styles that breaks a code rule: [`first_bad_word`].
#[derive(Copy, Clone, Debug, PartialEq, Eq, Hash)]
pub struct BadWord {
    /// Which item of the table, from 0
    pub item: usize,
    /// Which word of the item's record, from 0: below [`words::STYLE`](crate::words::STYLE)
    pub word: usize,
}

impl BadWord {
    /// What the word is called, as `"margin left, tag"` for word [`words::style::MARGIN_LEFT`](crate::words::style::MARGIN_LEFT)
    pub fn name(self) -> &'static str {
        NAMES.get(self.word).copied().unwrap_or("no word of a style")
    }
}

/// As `item 1: margin left, tag`
impl fmt::Display for BadWord {
    fn fmt(&self, f: &mut fmt::Formatter<'_>) -> fmt::Result {
        write!(f, "item {}: {}", self.item, self.name())
    }
}

/// The first word of a table of styles that breaks a code rule: of the first item that has one, the first in the order of the words.
/// `None` exactly if no word of the table does.
///
/// An editor that holds its styles as words, some of them half typed, can point at it. A table of
/// [`Style::to_words`](crate::Style::to_words) has no such word: a typed style has no bad code, and [`Contain`](crate::Contain) is a
/// byte. [`Style::from_words`](crate::Style::from_words) of an item is `None` exactly if it has one.
///
/// Any words in any number have an answer, and the walk ends at the word found. A trailing part of a record isn't looked at; items
/// after the 1,024th are. A run refuses both as [`Refusal::BadExtent`](crate::Refusal::BadExtent). An opening or a reply is refused as
/// [`Refusal::BadStyle`](crate::Refusal::BadStyle) exactly if its table has such a word and no test before that one refuses the call.
/// The item comes modulo 2^32.
///
/// A word breaks a rule if it is a tag that its field doesn't take; a code above the last of its list; or a safety above 2, unless the
/// keyword before it is 10 (absent). Whole words are compared. A float never does, be it a NaN or a second
/// value that nothing reads.
///
/// ```
/// use oof::words::{style, STYLE};
/// use oof::*;
///
/// let mut table: Vec<u32> = [Style::default(), Style::default()].iter().flat_map(Style::to_words).collect();
/// assert_eq!(first_bad_word(&table), None);
///
/// table[STYLE + style::MARGIN_LEFT] = 0; // of item 1, and no tag yet
/// table[STYLE + style::JUSTIFY] = 11; // nor is this a keyword, but it comes later
/// let bad = first_bad_word(&table).unwrap();
/// assert_eq!(bad, BadWord { item: 1, word: style::MARGIN_LEFT });
/// assert_eq!(bad.name(), "margin left, tag");
/// assert_eq!(bad.to_string(), "item 1: margin left, tag");
/// ```
pub fn first_bad_word(styles: &[u32]) -> Option<BadWord> {
    let mut found = [0; ffi::FOUND];
    (ffi::first_bad_word(styles, &mut found) == 1).then(|| {
        let [item, word] = found.map(|count| count as usize);
        BadWord { item, word }
    })
}

/// What the words of a style are called
#[rustfmt::skip]
const NAMES: [&str; STYLE] = [
    "inset left, tag", "inset left, value", "inset left, second value",
    "inset right, tag", "inset right, value", "inset right, second value",
    "inset top, tag", "inset top, value", "inset top, second value",
    "inset bottom, tag", "inset bottom, value", "inset bottom, second value",
    "margin left, tag", "margin left, value", "margin left, second value",
    "margin right, tag", "margin right, value", "margin right, second value",
    "margin top, tag", "margin top, value", "margin top, second value",
    "margin bottom, tag", "margin bottom, value", "margin bottom, second value",
    "padding left, tag", "padding left, value", "padding left, second value",
    "padding right, tag", "padding right, value", "padding right, second value",
    "padding top, tag", "padding top, value", "padding top, second value",
    "padding bottom, tag", "padding bottom, value", "padding bottom, second value",
    "border left, tag", "border left, value", "border left, second value",
    "border right, tag", "border right, value", "border right, second value",
    "border top, tag", "border top, value", "border top, second value",
    "border bottom, tag", "border bottom, value", "border bottom, second value",
    "width, tag", "width, value", "width, second value",
    "height, tag", "height, value", "height, second value",
    "min width, tag", "min width, value", "min width, second value",
    "min height, tag", "min height, value", "min height, second value",
    "max width, tag", "max width, value", "max width, second value",
    "max height, tag", "max height, value", "max height, second value",
    "ratio present", "ratio", "box sizing", "flags", "direction",
    "justify keyword", "justify safety", "align keyword", "align safety",
    "overflow x", "overflow y", "scrollbar width", "contain",
];
