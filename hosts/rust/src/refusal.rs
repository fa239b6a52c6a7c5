//! Why a call is turned down.
use std::fmt;

/// Why a call was turned down. Such a call has written no lent word.
///
/// From [`compute_oof_layout_for_area`](crate::compute_oof_layout_for_area) and [`preview`](crate::preview()) come only `BadExtent`,
/// `BadCandidate` and `ListFull`: their types have no bad codes, and they reply what they were asked. From
/// [`Placed::reach`](crate::Placed::reach) come only `BadExtent`, for a place without a box, and `NotInEighths`, which is the only one of
/// [`Layout::pixels`](crate::Layout::pixels) and of [`Placed::touch`](crate::Placed::touch). 7 and 8 are refusals of parts that the
/// library hasn't.
#[derive(Copy, Clone, Debug, PartialEq, Eq, Hash)]
#[non_exhaustive]
pub enum Refusal {
    /// A code of direction, claims or overflow is outside its list
    BadArea = 1,
    /// A slice isn't whole records, is too long, or (after the opening) has another length than at the opening; or a preview's style
    /// isn't 79 words; or no box has the place that is asked for; or a drawing order isn't one word a box, or what a touch driver
    /// reads isn't five
    BadExtent = 2,
    /// A code or tag isn't allowed in its field of a style: [`first_bad_word`](crate::first_bad_word) says which
    BadStyle = 3,
    /// A candidate or a preview names no item of the table, or a candidate has a code outside its list, or a layer above 255
    BadCandidate = 4,
    /// The claimed or the unclaimed candidates would exceed their list
    ListFull = 5,
    /// The reply doesn't answer the open question, the run to be read isn't finished, or the state is none that a run can have
    WrongReply = 6,
    /// A number isn't a whole eighth of a pixel, or is above 9,999,999 eighths in size
    NotInEighths = 9,
}

impl Refusal {
    /// All of them, by number
    pub const ALL: &'static [Refusal] = &[
        Refusal::BadArea,
        Refusal::BadExtent,
        Refusal::BadStyle,
        Refusal::BadCandidate,
        Refusal::ListFull,
        Refusal::WrongReply,
        Refusal::NotInEighths,
    ];

    /// Its number, 1 to 6 or 9
    pub fn number(self) -> u32 {
        self as u32
    }
    /// The refusal of this number, if there is one
    pub fn from_number(number: u32) -> Option<Refusal> {
        Refusal::ALL.iter().copied().find(|r| r.number() == number)
    }
    /// What an entry's result says
    pub(crate) fn verdict(result: u32) -> Result<(), Refusal> {
        match result {
            0 => Ok(()),
            number => Err(Refusal::from_number(number).expect("an entry answers 0 or one of these")),
        }
    }
}

impl fmt::Display for Refusal {
    fn fmt(&self, f: &mut fmt::Formatter<'_>) -> fmt::Result {
        f.write_str(match self {
            Refusal::BadArea => "bad area",
            Refusal::BadExtent => "bad extent",
            Refusal::BadStyle => "bad style",
            Refusal::BadCandidate => "bad candidate",
            Refusal::ListFull => "list full",
            Refusal::WrongReply => "wrong reply",
            Refusal::NotInEighths => "not in eighths",
        })
    }
}

impl std::error::Error for Refusal {}
