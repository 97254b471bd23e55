//! The proved library and the reference, given the same calls.
//!
//! [`jobs`] makes jobs from seeds, as lists of fields that can be damaged one by one. [`compare`] makes a call of both
//! libraries, compares their answers and all of the lent memory, and counts the answers by operation and number.

#![forbid(unsafe_code)]

pub mod compare;
pub mod jobs;
pub mod random;
