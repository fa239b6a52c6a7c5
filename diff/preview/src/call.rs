//! A preview's calls, through the entries of the library, and what they lend.
use crate::frozen::Frozen;
use oof::ffi::{self, Lent, Replacement};
use oracle::case::STYLE;
use runs::words::{Said, Words};

/// What a call of a preview lends: what a call of a run does, whose styles are the live table, and a node with its replacement
#[derive(Clone, PartialEq)]
pub struct Call {
    pub words: Words,
    pub node: u32,
    pub style: Vec<u32>,
}

/// Which call it is: an opening, or a reply
pub type Asked<'a> = Option<&'a Said>;

/// Node and replacement of the preview's opening, which no right entry knows of
pub type First = (u32, Vec<u32>);

/// What is compared: the library's entries, or wrong ones
pub type Entry = Box<dyn Fn(Asked, &mut Call, &First) -> u32>;

/// Table and replacement, as slices
type Read<'a> = (&'a [u32], &'a [u32]);

/// The library's entries. A replacement that the table has too is lent from there.
pub fn proved(asked: Asked, call: &mut Call) -> u32 {
    lent(asked, call, |(styles, style)| {
        let within = styles.chunks_exact(STYLE).chain([styles]).find(|&part| part == style);
        (styles, within.unwrap_or(style))
    })
}

/// The same, with table and replacement where they can't be written
pub fn proved_frozen(asked: Asked, call: &mut Call, [table, replacement]: &mut [Frozen; 2]) -> u32 {
    lent(asked, call, |(styles, style)| (table.hold(styles), replacement.hold(style)))
}

/// A call that is lent table and replacement from where `place` has them
fn lent<'a>(asked: Asked, call: &'a mut Call, place: impl FnOnce(Read<'a>) -> Read<'a>) -> u32 {
    let Words { area, styles, candidates, layouts, working, unclaimed, tally, state, answer } = &mut call.words;
    let (styles, style) = place((styles, &call.style));
    let replacement = Replacement { node: call.node, style };
    let mut lent = Lent { styles, layouts, working, unclaimed, tally, state, answer };
    let Some(said) = asked else {
        let [width, height, x, y, codes @ ..] = *area;
        let area = [width, height, x, y].map(f32::from_bits);
        return ffi::preview_open(area, codes, replacement, candidates, &mut lent);
    };
    ffi::preview_reply(said.reply(), &said.surfaced, replacement, &mut lent)
}
