//! Single calls, batches, previews and sheets written out, on a state that a host keeps,
//! the library's against the peer's, and what the library does with damaged bytes.
//!
//! `layout` writes the bytes that a state has to have from a sheet and the peer's
//! state, and `sound` says which bytes are a state that hangs together (10.4 of
//! the specification); both are written from the header and the specification
//! alone. `single` compares after every call, `damaged` changes bytes, `brought` has
//! states that no list may lead to, and `runs` goes on with states of all these sorts;
//! on them `batches` compares after every batch, `previews` and `sheets` after every
//! call. `marks` takes the mark of a forced event off and puts it on, and `forced` makes
//! the same calls with the mark and without. `waiting` has conditionals of which nothing
//! can stop a or b, `windows` has windows of time, and `journals` has sheets with the records
//! of calls behind them.

pub mod batches;
pub mod brought;
pub mod damaged;
pub mod forced;
pub mod journals;
pub mod layout;
pub mod marks;
pub mod previews;
pub mod runs;
pub mod sheets;
pub mod single;
pub mod sound;
pub mod waiting;
pub mod windows;

/// What is lent holds this before the library may write it: more than a count, a number or
/// a fate can be.
pub const FILL: u8 = 0xa5;
