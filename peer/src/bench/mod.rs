//! The benchmark: the library and the peer on the same work, in one run.
//!
//! `workloads` has sheets with lists of calls, `single` has states with one
//! call to make or to preview on each, or whose sheet is written out, `bytes` writes both;
//! `kept` has the states of the two that single calls are made on, and `batches` has
//! batches with their states; `journals` has journals to open; `timing` finds the least times and `table` prints them.
//! Outputs are compared before anything is timed.

pub mod batches;
mod bytes;
pub mod journals;
pub mod kept;
pub mod single;
pub mod table;
pub mod timing;
pub mod workloads;
