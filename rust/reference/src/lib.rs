//! Reed-Muller signatures of a small logic circuit, in plain safe Rust.
//!
//! A job holds a circuit of 1 to 8 inputs, up to 64 gates and 1 to 4 outputs, and a list of up to 63 single faults,
//! each with the part that is mended for it. From its bytes come the tables of the good circuit and of the faulty ones
//! at each output, their spectra, a signature of few coefficients that tells circuits of different parts apart, and the
//! part whose circuits give some readings. Document 01 defines each of these, and document 02 what changed; the modules
//! follow document 01's sections.
//!
//! Every operation checks its arguments before it writes. A refused one writes nothing, but for refusal 15 (circuits
//! that are alike), which leaves the spectra in the lent work. Nothing here panics, and only `report` uses the heap.

#![forbid(unsafe_code)]

mod choosing;
mod differences;
mod job;
mod locating;
pub mod refusal;
mod report;
mod spectra;
mod tables;
mod words;

pub use choosing::{choose, Chosen, Entry, Purpose};
pub use job::{read, write, Fault, FaultEntry, Gate, Job};
pub use job::{LONGEST_JOB, MOST_FAULTS, MOST_GATES, MOST_INPUTS, MOST_OUTPUTS, MOST_PART};
pub use locating::{locate, Located};
pub use refusal::Refusal;
pub use report::{report, report_with};
pub use spectra::{spectrum, undo, Kind};
pub use tables::table;
