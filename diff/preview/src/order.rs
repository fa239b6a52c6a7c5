//! What a preview must answer, by request #109's words: why it may be refused, in the order of its tests, and the copy of the table.
//!
//! "A replacement that isn't one style record is a bad extent. A node that isn't below n is a bad candidate, tested right after the extents;
//! all other checks are those of the copy." What makes the lent words themselves bad is document 01's, as `diff/runs` has it.
use crate::call::{Asked, Call};
use oracle::case::STYLE;
use runs::model;

/// Why a call may be refused. Two of these stand for what the request adds, and bad styles for two: in the copy's record that is the
/// replacement, and in any other.
#[derive(Copy, Clone, PartialEq, PartialOrd, Debug)]
pub enum Reason {
    Area,
    Extents,
    Replacement,
    Node,
    Reply,
    NewStyle,
    OldStyle,
    Candidates,
    Room,
}
use Reason::*;

pub const REASONS: usize = 9;

impl Reason {
    pub fn number(self) -> u32 {
        match self {
            Area => 1,
            Extents | Replacement => 2,
            NewStyle | OldStyle => 3,
            Node | Candidates => 4,
            Room => 5,
            Reply => 6,
        }
    }
    pub fn name(self) -> &'static str {
        match self {
            Area => "a bad area",
            Extents => "a bad extent of what a run lends",
            Replacement => "a replacement that isn't one record",
            Node => "a node that isn't below n",
            Reply => "a wrong reply",
            NewStyle => "a bad word in the replacement",
            OldStyle => "a bad word in another record",
            Candidates => "a bad candidate",
            Room => "a full list",
        }
    }
    /// The copy is made where none of the reasons before these holds
    pub fn is_of_copy(self) -> bool {
        matches!(self, Reply | NewStyle | OldStyle | Candidates | Room)
    }
    /// Of calls of this kind
    pub fn of(opening: bool) -> impl Iterator<Item = Reason> {
        let other = if opening { Reply } else { Area };
        ALL.into_iter().filter(move |&reason| reason != other)
    }
}

/// In the order in which they are tested; a bad area only of an opening, a wrong reply only of a reply
pub const ALL: [Reason; REASONS] = [Area, Extents, Replacement, Node, Reply, NewStyle, OldStyle, Candidates, Room];

/// Which of them hold. Where an extent is bad, there are no records to look at.
#[derive(Copy, Clone, PartialEq, Debug)]
pub struct Reasons(pub [bool; REASONS]);

impl Reasons {
    pub fn has(self, reason: Reason) -> bool {
        self.0[reason as usize]
    }
    pub fn first(self) -> Option<Reason> {
        ALL.into_iter().find(|&reason| self.has(reason))
    }
    /// The refusal's number, or 0
    pub fn number(self) -> u32 {
        self.first().map_or(0, Reason::number)
    }
}

/// The table's items
fn items(call: &Call) -> usize {
    call.words.styles.len() / STYLE
}

pub fn is_record(style: &[u32]) -> bool {
    style.len() == STYLE
}

pub fn is_below(call: &Call) -> bool {
    (call.node as usize) < items(call)
}

/// "a copy of the table with that style written in"; there is one where the replacement is one record and the node below n
pub fn copy(call: &Call) -> Option<Vec<u32>> {
    let made = is_record(&call.style) && is_below(call);
    made.then(|| {
        let (mut table, at) = (call.words.styles.clone(), STYLE * call.node as usize);
        table[at..at + STYLE].copy_from_slice(&call.style);
        table
    })
}

pub fn reasons(asked: Asked, call: &Call) -> Reasons {
    let w = &call.words;
    let mut of = [false; REASONS];
    let mut set = |reason: Reason, holds: bool| of[reason as usize] = holds;
    let extents = asked.map_or_else(|| model::bad_opening(w), |said| model::bad_reply(said, w));
    set(Area, asked.is_none() && model::bad_area(w));
    set(Extents, extents);
    set(Replacement, !is_record(&call.style));
    set(Node, !is_below(call));
    set(Reply, asked.is_some_and(|said| model::wrong_reply(said, w)));
    if !extents {
        let other = |(item, record): (usize, &[u32])| item != call.node as usize && model::bad_style(record);
        set(NewStyle, is_record(&call.style) && model::bad_style(&call.style));
        set(OldStyle, w.styles.chunks(STYLE).enumerate().any(other));
        let candidates =
            asked.map_or_else(|| model::bad_candidates(&w.candidates, items(call)), |said| model::bad_filled(said, w));
        set(Candidates, candidates);
        set(Room, asked.map_or_else(|| model::full(w), |said| model::full_by(said, w)));
    }
    Reasons(of)
}
