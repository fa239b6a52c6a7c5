//! Places absolutely positioned boxes, by the proved static library liboof_c.a.
//!
//! [`compute_oof_layout_for_area`] reads like the function of that name in taffy 0.15.1: it takes an area, a table of styles
//! and a list of candidates, calls the [`Host`] back to measure and to lay out, and returns where the boxes stand. Under it is
//! the library's dialogue of questions and replies over lent words; [`ffi`] has its fifteen entries, with slices checked by
//! Rust. [`Placed::tally`] says how many questions each item took, [`Placed::reach`] whether scrolling can bring a box into view,
//! [`Placed::drawing_order`] in which order the boxes are drawn, and [`Placed::touch`] has what a touch driver reads of them.
//! [`preview()`] tries another style for one node, and leaves the table and the placement over it as they are.
//! [`Layout::pixels`] rounds a box to whole pixels. [`first_bad_word`] says which word of a table of styles, held as words and
//! perhaps half typed, breaks a code rule.
//!
//! ```
//! use oof::*;
//!
//! struct Font;
//! impl Host for Font {
//!     fn measure_both(&mut self, _: NodeId, _: Size<Option<f32>>, _: Size<AvailableSpace>) -> Size<f32> {
//!         Size { width: 120.0, height: 18.0 }
//!     }
//! }
//!
//! let label = Style {
//!     inset: Rect { left: LengthPercentageAuto::Length(20.0), top: LengthPercentageAuto::Length(12.0), ..Rect::AUTO },
//!     ..Style::default()
//! };
//! let offset = Point { x: 100.0, y: 40.0 };
//! let panel = Area { size: Size { width: 800.0, height: 480.0 }, offset, ..Area::default() };
//! let placed = compute_oof_layout_for_area(&mut Font, &panel, &[label], &[Candidate::default()]).unwrap();
//! let layout = placed.layouts[0].unwrap();
//! assert_eq!(layout.location, Point { x: 120.0, y: 52.0 });
//! assert_eq!(layout.pixels(offset), Ok(Rect { left: 20, right: 140, top: 12, bottom: 30 }));
//! assert_eq!(placed.reach(0), Ok(Reach::Seen { x_eighths: 0, y_eighths: 0 }));
//! assert_eq!((placed.tally, placed.questions), (vec![2], 2));
//! ```
#![deny(unsafe_code, missing_docs)]

mod bad_word;
mod drawing;
pub mod ffi;
mod geometry;
mod pixels;
mod preview;
mod reach;
mod refusal;
mod run;
mod style;
mod touch;
mod tree;
pub mod words;

pub use bad_word::{first_bad_word, BadWord};
pub use geometry::{Line, Point, Rect, Size};
pub use preview::{preview, preview_with};
pub use reach::Reach;
pub use refusal::Refusal;
pub use run::{compute_oof_layout, compute_oof_layout_for_area, compute_oof_layout_with, Host, LaidOut, Placed, Room};
pub use style::{
    AlignSelf, AlignmentKeyword, AlignmentSafety, BoxSizing, Contain, Dimension, Direction, LengthPercentage,
    LengthPercentageAuto, Overflow, Style,
};
pub use touch::TouchBox;
pub use tree::{
    Area, AvailableSpace, AxisStaticAlign, AxisStaticEdge, AxisStaticPosition, Candidate, Claims, Layout, NodeId,
    Position,
};
