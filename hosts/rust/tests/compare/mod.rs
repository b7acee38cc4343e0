//! The comparison: one call on the library and on the model, whole sessions of
//! calls, their shrinking, the printed difference and the counters; programs
//! that are run.

pub mod asked;
pub mod call;
pub mod counters;
pub mod digraph;
pub mod guard;
pub mod orders;
pub mod programs;
pub mod report;
pub mod session;
pub mod shrink;
pub mod written;
