//! The refusals, by the documents' numbers.

/// The number of a refusal, 1 to 21.
pub type Refusal = u8;

/// The bytes end inside a field.
pub const BYTES_END: Refusal = 1;
/// The number of inputs isn't 1 to 8.
pub const INPUTS: Refusal = 2;
/// More than 64 gates.
pub const GATES: Refusal = 3;
/// A gate reads a line that isn't below its own.
pub const GATE_LINE: Refusal = 4;
/// A NOT or BUF with line b other than line a.
pub const ONE_LINE: Refusal = 5;
/// An output line isn't one of the circuit's.
pub const OUTPUT: Refusal = 6;
/// A stuck line isn't one of the circuit's, or a bridged line is no input.
pub const FAULT_LINE: Refusal = 7;
/// A stuck fault with line b other than line a, or a bridge with line a not below line b.
pub const FAULT_PAIR: Refusal = 8;
/// A spare bit is 1, or a byte follows the end.
pub const SPARE: Refusal = 9;
/// The lent memory is too short.
pub const MEMORY: Refusal = 10;
/// The circuit number is over the number of faults.
pub const CIRCUIT: Refusal = 11;
/// A packed table of the wrong length, or with a spare bit 1.
pub const TABLE: Refusal = 12;
/// The polarity isn't below N.
pub const POLARITY: Refusal = 13;
/// Not exactly N numbers, or numbers that are no table's spectrum.
pub const NO_SPECTRUM: Refusal = 14;
/// Two circuits that must be told apart have equal tables at every output.
pub const ALIKE: Refusal = 15;
/// An index isn't below N.
pub const INDEX: Refusal = 16;
/// The numbers of indices, of outputs and of readings differ.
pub const READINGS: Refusal = 17;
/// A record with more than 63 faults.
pub const FAULTS: Refusal = 18;
/// A loose gate: its line is no output, and no output depends on it.
pub const LOOSE_GATE: Refusal = 19;
/// The output number is too high, or a record's outputs aren't 1 to 4.
pub const OUTPUT_NUMBER: Refusal = 20;
/// A fault's part isn't 1 to 63.
pub const PART: Refusal = 21;
