//! The second program: the checker, fresh, step, bound and session once more, written from the paper alone. It decodes a chart
//! into a typed model and an image into a typed value, runs by recursion, and encodes at the end.
mod bound;
pub mod calls;
mod chart;
mod check;
pub mod faults;
mod image;
mod machine;
mod ops;
mod reader;
mod refusal;
mod session;
mod tables;
mod trace;
#[cfg(test)]
mod trial;
