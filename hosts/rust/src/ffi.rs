//! The fifteen entries of the static library liboof_c.a, over words. This is the only module with `unsafe`.
//!
//! Every entry takes any words in any number, and a call that it refuses writes no lent word; [`first_bad_word`] refuses none. So the
//! functions here are safe: the slices are Rust's, and two of which one may be written don't overlap.
//!
//! The state's words are the state that a call returns: an opening always writes them, a refused one those of a finished run
//! with all counts 0; a refused reply leaves them, and the answer's, bit for bit.
#![allow(unsafe_code)]
use crate::words::LAYOUT;

/// Words of a state. All zeros are the state of a finished run.
pub const STATE: usize = 28;
/// Words of an answer
pub const ANSWER: usize = 10;
/// Pixel edges of a box: left, right, top, bottom
pub const EDGES: usize = 4;
/// Words of a verdict: 1 seen or 0 unseen, then the offsets x and y in eighths of a pixel, 0 if unseen
pub const VERDICT: usize = 3;
/// Words of a box that a touch driver reads: the node, then the pixel edges left, right, top and bottom, each in two's complement
pub const TOUCH: usize = 5;
/// Where a word that breaks a rule was found: which item of the table, and which word of its style, from 0
pub const FOUND: usize = 2;

/// Places of a state's words.
pub mod state {
    /// 0 finished, 1 keyword both, 2 keyword width, 3 keyword height, 4 fill, 5 lay out; any other is finished
    pub const PROGRESS: usize = 0;
    /// Reply to the keyword question: 0 none, 1 both, 2 width, 3 height; then a width and a height
    pub const KEYWORD_REPLY: usize = 1;
    /// Reply to the fill question: 0 none, 1 both; then a width and a height
    pub const FILL_REPLY: usize = 4;
    /// Records filled in the working list
    pub const FILLED_WORKING: usize = 7;
    /// Records filled in the unclaimed list
    pub const FILLED_UNCLAIMED: usize = 8;
    /// Boxes begun
    pub const BEGUN: usize = 9;
    /// Questions answered
    pub const ANSWERED: usize = 10;
    /// Overflow so far: left, right, top, bottom
    pub const OVERFLOW: usize = 11;
    /// Width, height, offset x and y
    pub const AREA: usize = 15;
    /// Direction, claims, overflow x and y
    pub const CODES: usize = 19;
    /// Words lent at the opening: styles, layouts, working, unclaimed, tally
    pub const LENGTHS: usize = 23;
}

/// What every call of a run lends.
pub struct Lent<'a> {
    /// Whole styles, 79 words each
    pub styles: &'a [u32],
    /// As many layouts, 23 words each
    pub layouts: &'a mut [u32],
    /// Room for claimed candidates, 14 words each
    pub working: &'a mut [u32],
    /// Room for the others
    pub unclaimed: &'a mut [u32],
    /// One word an item: how many of the run's questions about it are answered. An opening clears it, and an accepted reply adds 1 to
    /// the word of the box whose question was open. The words add up to the questions answered, while nobody else writes them and each
    /// call gets the state that the last one returned
    pub tally: &'a mut [u32],
    /// What the run keeps between calls. Written by every opening, and by a reply that is accepted
    pub state: &'a mut [u32; STATE],
    /// The next question, or the finish. Written when a call is accepted
    pub answer: &'a mut [u32; ANSWER],
}

/// What each call of a preview lends beside a run's words: another style for one node of the table. Nothing of it is kept between calls.
#[derive(Copy, Clone, Debug, PartialEq)]
pub struct Replacement<'a> {
    /// Which item's style is replaced, below the number of items
    pub node: u32,
    /// One style, 79 words
    pub style: &'a [u32],
}

/// What a call lends that reads a finished run: its words, as the last call left them. The tally isn't lent.
#[derive(Copy, Clone)]
pub struct Finished<'a> {
    /// As many words as at the opening; which ones doesn't count
    pub styles: &'a [u32],
    /// The layouts
    pub layouts: &'a [u32],
    /// The working list, whose filled records are the hoisted order
    pub working: &'a [u32],
    /// The unclaimed list
    pub unclaimed: &'a [u32],
    /// The state
    pub state: &'a [u32; STATE],
}

/// A reply, by kind.
#[derive(Copy, Clone, Debug, PartialEq)]
pub enum Reply {
    /// Width and height
    Both(f32, f32),
    /// Width
    Width(f32),
    /// Height
    Height(f32),
    /// The box's scrollable overflow: left, right, top, bottom
    LaidOut([f32; 4]),
}

mod c {
    extern "C" {
        pub fn oof_open(
            width: f32,
            height: f32,
            x: f32,
            y: f32,
            direction: u32,
            claims: u32,
            overflow_x: u32,
            overflow_y: u32,
            styles: *const u32,
            styles_len: usize,
            candidates: *const u32,
            candidates_len: usize,
            layouts: *mut u32,
            layouts_len: usize,
            working: *mut u32,
            working_len: usize,
            unclaimed: *mut u32,
            unclaimed_len: usize,
            tally: *mut u32,
            tally_len: usize,
            state: *mut u32,
            answer: *mut u32,
        ) -> u32;
        pub fn oof_reply_both(
            width: f32,
            height: f32,
            styles: *const u32,
            styles_len: usize,
            layouts: *mut u32,
            layouts_len: usize,
            working: *mut u32,
            working_len: usize,
            unclaimed: *mut u32,
            unclaimed_len: usize,
            tally: *mut u32,
            tally_len: usize,
            state: *mut u32,
            answer: *mut u32,
        ) -> u32;
        pub fn oof_reply_width(
            width: f32,
            styles: *const u32,
            styles_len: usize,
            layouts: *mut u32,
            layouts_len: usize,
            working: *mut u32,
            working_len: usize,
            unclaimed: *mut u32,
            unclaimed_len: usize,
            tally: *mut u32,
            tally_len: usize,
            state: *mut u32,
            answer: *mut u32,
        ) -> u32;
        pub fn oof_reply_height(
            height: f32,
            styles: *const u32,
            styles_len: usize,
            layouts: *mut u32,
            layouts_len: usize,
            working: *mut u32,
            working_len: usize,
            unclaimed: *mut u32,
            unclaimed_len: usize,
            tally: *mut u32,
            tally_len: usize,
            state: *mut u32,
            answer: *mut u32,
        ) -> u32;
        pub fn oof_reply_laid_out(
            left: f32,
            right: f32,
            top: f32,
            bottom: f32,
            surfaced: *const u32,
            surfaced_len: usize,
            styles: *const u32,
            styles_len: usize,
            layouts: *mut u32,
            layouts_len: usize,
            working: *mut u32,
            working_len: usize,
            unclaimed: *mut u32,
            unclaimed_len: usize,
            tally: *mut u32,
            tally_len: usize,
            state: *mut u32,
            answer: *mut u32,
        ) -> u32;
        pub fn oof_preview_open(
            width: f32,
            height: f32,
            x: f32,
            y: f32,
            direction: u32,
            claims: u32,
            overflow_x: u32,
            overflow_y: u32,
            styles: *const u32,
            styles_len: usize,
            node: u32,
            style: *const u32,
            style_len: usize,
            candidates: *const u32,
            candidates_len: usize,
            layouts: *mut u32,
            layouts_len: usize,
            working: *mut u32,
            working_len: usize,
            unclaimed: *mut u32,
            unclaimed_len: usize,
            tally: *mut u32,
            tally_len: usize,
            state: *mut u32,
            answer: *mut u32,
        ) -> u32;
        pub fn oof_preview_reply_both(
            width: f32,
            height: f32,
            styles: *const u32,
            styles_len: usize,
            node: u32,
            style: *const u32,
            style_len: usize,
            layouts: *mut u32,
            layouts_len: usize,
            working: *mut u32,
            working_len: usize,
            unclaimed: *mut u32,
            unclaimed_len: usize,
            tally: *mut u32,
            tally_len: usize,
            state: *mut u32,
            answer: *mut u32,
        ) -> u32;
        pub fn oof_preview_reply_width(
            width: f32,
            styles: *const u32,
            styles_len: usize,
            node: u32,
            style: *const u32,
            style_len: usize,
            layouts: *mut u32,
            layouts_len: usize,
            working: *mut u32,
            working_len: usize,
            unclaimed: *mut u32,
            unclaimed_len: usize,
            tally: *mut u32,
            tally_len: usize,
            state: *mut u32,
            answer: *mut u32,
        ) -> u32;
        pub fn oof_preview_reply_height(
            height: f32,
            styles: *const u32,
            styles_len: usize,
            node: u32,
            style: *const u32,
            style_len: usize,
            layouts: *mut u32,
            layouts_len: usize,
            working: *mut u32,
            working_len: usize,
            unclaimed: *mut u32,
            unclaimed_len: usize,
            tally: *mut u32,
            tally_len: usize,
            state: *mut u32,
            answer: *mut u32,
        ) -> u32;
        pub fn oof_preview_reply_laid_out(
            left: f32,
            right: f32,
            top: f32,
            bottom: f32,
            surfaced: *const u32,
            surfaced_len: usize,
            styles: *const u32,
            styles_len: usize,
            node: u32,
            style: *const u32,
            style_len: usize,
            layouts: *mut u32,
            layouts_len: usize,
            working: *mut u32,
            working_len: usize,
            unclaimed: *mut u32,
            unclaimed_len: usize,
            tally: *mut u32,
            tally_len: usize,
            state: *mut u32,
            answer: *mut u32,
        ) -> u32;
        pub fn oof_reach(
            place: usize,
            styles: *const u32,
            styles_len: usize,
            layouts: *const u32,
            layouts_len: usize,
            working: *const u32,
            working_len: usize,
            unclaimed: *const u32,
            unclaimed_len: usize,
            state: *const u32,
            verdict: *mut u32,
        ) -> u32;
        pub fn oof_drawing_order(
            styles: *const u32,
            styles_len: usize,
            layouts: *const u32,
            layouts_len: usize,
            working: *const u32,
            working_len: usize,
            unclaimed: *const u32,
            unclaimed_len: usize,
            state: *const u32,
            order: *mut u32,
            order_len: usize,
        ) -> u32;
        pub fn oof_touch(
            styles: *const u32,
            styles_len: usize,
            layouts: *const u32,
            layouts_len: usize,
            working: *const u32,
            working_len: usize,
            unclaimed: *const u32,
            unclaimed_len: usize,
            state: *const u32,
            words: *mut u32,
            words_len: usize,
        ) -> u32;
        pub fn oof_pixels(layout: *const u32, x: f32, y: f32, edges: *mut i32) -> u32;
        pub fn oof_first_bad_word(styles: *const u32, styles_len: usize, found: *mut u32) -> u32;
    }
}

/// The slices, state and answer as arguments of an entry, after the arguments before them
macro_rules! call {
    ($entry:ident, $lent:expr, $($before:expr),*) => {
        // SAFETY: pointers and lengths come from Rust slices that live through the call; those that are written are borrowed
        // uniquely, so none overlaps another; state and answer have the 28 and 10 words that the entry reads and writes.
        unsafe {
            c::$entry(
                $($before,)*
                $lent.layouts.as_mut_ptr(),
                $lent.layouts.len(),
                $lent.working.as_mut_ptr(),
                $lent.working.len(),
                $lent.unclaimed.as_mut_ptr(),
                $lent.unclaimed.len(),
                $lent.tally.as_mut_ptr(),
                $lent.tally.len(),
                $lent.state.as_mut_ptr(),
                $lent.answer.as_mut_ptr(),
            )
        }
    };
}

/// Opens a run. `area` is width, height, offset x and y; `codes` are direction, claims, overflow x and y. The result is 0, or
/// the number of a refusal.
pub fn open(area: [f32; 4], codes: [u32; 4], candidates: &[u32], lent: &mut Lent) -> u32 {
    let ([width, height, x, y], [direction, claims, overflow_x, overflow_y]) = (area, codes);
    call!(
        oof_open,
        lent,
        width,
        height,
        x,
        y,
        direction,
        claims,
        overflow_x,
        overflow_y,
        lent.styles.as_ptr(),
        lent.styles.len(),
        candidates.as_ptr(),
        candidates.len()
    )
}

/// Replies to the open question. `surfaced` holds the candidates that a box surfaced; only a lay-out reply has any. The result
/// is 0, or the number of a refusal.
pub fn reply(reply: Reply, surfaced: &[u32], lent: &mut Lent) -> u32 {
    let (styles, length) = (lent.styles.as_ptr(), lent.styles.len());
    match reply {
        Reply::Both(width, height) => call!(oof_reply_both, lent, width, height, styles, length),
        Reply::Width(width) => call!(oof_reply_width, lent, width, styles, length),
        Reply::Height(height) => call!(oof_reply_height, lent, height, styles, length),
        Reply::LaidOut([left, right, top, bottom]) => {
            call!(oof_reply_laid_out, lent, left, right, top, bottom, surfaced.as_ptr(), surfaced.len(), styles, length)
        }
    }
}

/// Opens a preview: what [`open`] does over a copy of the table in which the node has that style, while table and style keep every
/// word. The lent slices, state and answer are the preview's own. A style that isn't 79 words is refused with 2, then a node that the
/// table hasn't with 4. The result is 0, or the number of a refusal.
pub fn preview_open(area: [f32; 4], codes: [u32; 4], r: Replacement, candidates: &[u32], lent: &mut Lent) -> u32 {
    let ([width, height, x, y], [direction, claims, overflow_x, overflow_y]) = (area, codes);
    call!(
        oof_preview_open,
        lent,
        width,
        height,
        x,
        y,
        direction,
        claims,
        overflow_x,
        overflow_y,
        lent.styles.as_ptr(),
        lent.styles.len(),
        r.node,
        r.style.as_ptr(),
        r.style.len(),
        candidates.as_ptr(),
        candidates.len()
    )
}

/// Replies to the open question of a preview: what [`reply`] does over such a copy, by the node and the style of this call. A style that
/// isn't 79 words is refused with 2, then a node that the table hasn't with 4, before any other reason but 2. The result is 0, or the number
/// of a refusal.
pub fn preview_reply(reply: Reply, surfaced: &[u32], r: Replacement, lent: &mut Lent) -> u32 {
    let (styles, length, node) = (lent.styles.as_ptr(), lent.styles.len(), r.node);
    let (style, words) = (r.style.as_ptr(), r.style.len());
    match reply {
        Reply::Both(width, height) => {
            call!(oof_preview_reply_both, lent, width, height, styles, length, node, style, words)
        }
        Reply::Width(width) => call!(oof_preview_reply_width, lent, width, styles, length, node, style, words),
        Reply::Height(height) => call!(oof_preview_reply_height, lent, height, styles, length, node, style, words),
        Reply::LaidOut([left, right, top, bottom]) => {
            let (surfaced, records) = (surfaced.as_ptr(), surfaced.len());
            call!(
                oof_preview_reply_laid_out,
                lent,
                left,
                right,
                top,
                bottom,
                surfaced,
                records,
                styles,
                length,
                node,
                style,
                words
            )
        }
    }
}

/// The slices and the state of a finished run as arguments of an entry, after the arguments before them and before what it writes
macro_rules! read {
    ($entry:ident, $run:expr, [$($before:expr),*], [$($written:expr),*]) => {
        // SAFETY: pointers and lengths come from Rust slices that live through the call; the entry only reads them and the state's
        // 28 words, and writes what comes last, as many words as the entry is told or as its type has, which are borrowed uniquely.
        unsafe {
            c::$entry(
                $($before,)*
                $run.styles.as_ptr(),
                $run.styles.len(),
                $run.layouts.as_ptr(),
                $run.layouts.len(),
                $run.working.as_ptr(),
                $run.working.len(),
                $run.unclaimed.as_ptr(),
                $run.unclaimed.len(),
                $run.state.as_ptr(),
                $($written),*
            )
        }
    };
}

/// Whether scrolling can bring the box at a place of the hoisted order into view. The verdict is written when the call is accepted.
/// The result is 0, or the number of a refusal.
pub fn reach(place: usize, run: Finished, verdict: &mut [u32; VERDICT]) -> u32 {
    read!(oof_reach, run, [place], [verdict.as_mut_ptr()])
}

/// The order in which the boxes of a finished run are drawn, as places in the hoisted order: lower layers first, and within one layer the
/// hoisted order. `order` has one word a box; it is written when the call is accepted. The result is 0, or the number of a refusal.
pub fn drawing_order(run: Finished, order: &mut [u32]) -> u32 {
    read!(oof_drawing_order, run, [], [order.as_mut_ptr(), order.len()])
}

/// What a touch driver reads of the boxes of a finished run, in hoisted order. `words` has five words a box ([`TOUCH`]); they are written
/// when the call is accepted. The result is 0, or the number of a refusal.
pub fn touch(run: Finished, words: &mut [u32]) -> u32 {
    read!(oof_touch, run, [], [words.as_mut_ptr(), words.len()])
}

/// The pixel edges of the box of a layout's words, relative to an area at x, y. Written when the call is accepted. The result is
/// 0, or the number of a refusal.
pub fn pixels(layout: &[u32; LAYOUT], x: f32, y: f32, edges: &mut [i32; EDGES]) -> u32 {
    // SAFETY: the entry reads the layout's 23 words and writes the 4 edges, which are borrowed uniquely
    unsafe { c::oof_pixels(layout.as_ptr(), x, y, edges.as_mut_ptr()) }
}

/// The first word of a table of styles that breaks a code rule. The result is 1, and item and word are written, modulo 2^32; or 0, and
/// nothing is. It is no refusal.
pub fn first_bad_word(styles: &[u32], found: &mut [u32; FOUND]) -> u32 {
    // SAFETY: pointer and length come from a Rust slice that lives through the call; the entry only reads it, and writes the 2 words of
    // `found`, which are borrowed uniquely
    unsafe { c::oof_first_bad_word(styles.as_ptr(), styles.len(), found.as_mut_ptr()) }
}
