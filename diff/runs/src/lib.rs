//! Random cases, calls of the library's entries, damage of calls, and the model of their refusals: what the program `runs` and `diff/preview`
//! share.
pub mod answers;
pub mod cases;
pub mod damage;
pub mod model;
pub mod rng;
pub mod side;
pub mod touched;
pub mod typed;
pub mod words;
