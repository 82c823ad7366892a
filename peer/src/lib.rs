//! A second scheduler, written from the documents alone (01, and the requests of
//! 02 that have landed), its comparison with the proved library, and the
//! benchmark of the two.

pub mod bench;
pub mod cases;
pub mod compare;
pub mod images;
pub mod peer;
pub mod random;

/// The proved library, through its bindings.
pub use sinewhopa as library;
