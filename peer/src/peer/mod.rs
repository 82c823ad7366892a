//! The second scheduler.
//!
//! It shares nothing with the proved library but the documents. Events are bits
//! of a 16-bit set, needs and conditionals are one form of rule, and the chosen
//! order comes from breadth-first walks over sets of done events, held events
//! first.

pub mod batch;
pub mod calls;
pub mod journal;
pub mod preview;
pub mod report;
pub mod rules;
pub mod scheduler;
pub mod search;
pub mod set;
pub mod sheet;
pub mod write;

pub use calls::{trace, Answer, Run};
pub use report::run;
pub use scheduler::{Cause, Fate, Line, Reason, Scheduler, State};
pub use sheet::{Refused, Sheet};
