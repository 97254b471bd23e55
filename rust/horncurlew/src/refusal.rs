//! The causes for which an operation gives no result.

use crate::OtherVersion;
use std::error::Error;
use std::fmt;

/// Why a call gave no result: the documents' refusals by name, and what can come of a library that isn't this crate's.
#[derive(Clone, Copy, Debug, PartialEq, Eq, Hash)]
#[non_exhaustive]
pub enum Refusal {
    /// The bytes end inside a field.
    BytesEnd,
    /// The number of inputs isn't 1 to 8.
    Inputs,
    /// More than 64 gates.
    Gates,
    /// A gate reads a line that isn't below its own.
    GateLine,
    /// A NOT or BUF with line b other than line a.
    OneLine,
    /// An output line isn't one of the circuit's.
    Output,
    /// A stuck line isn't one of the circuit's, or a bridged line is no input.
    FaultLine,
    /// A stuck fault with line b other than line a, or a bridge with line a not below line b.
    FaultPair,
    /// A spare bit is 1, or a byte follows the end.
    Spare,
    /// The lent memory is too short.
    Memory,
    /// The circuit number is over the number of faults.
    Circuit,
    /// A packed table of the wrong length, or with a spare bit 1.
    Table,
    /// The polarity isn't below N.
    Polarity,
    /// Not exactly N numbers, or numbers that are no table's spectrum.
    NoSpectrum,
    /// Two circuits that must be told apart have equal tables at every output.
    Alike,
    /// An index isn't below N.
    Index,
    /// The numbers of indices, of outputs and of readings differ.
    Readings,
    /// A record with more than 63 faults. No call here takes a record.
    Faults,
    /// A loose gate: its line is no output, and no output depends on it.
    LooseGate,
    /// An output number that is too high, or a record whose outputs aren't 1 to 4. No call here takes a record.
    OutputNumber,
    /// A fault's part isn't 1 to 63.
    Part,
    /// A number that this crate doesn't know.
    Unknown(usize),
    /// The library wasn't called: its version isn't the one that this crate was written for.
    Version(OtherVersion),
}

impl Refusal {
    /// The documents' refusals, 1 to 21.
    pub const ALL: [Refusal; 21] = [
        Refusal::BytesEnd,
        Refusal::Inputs,
        Refusal::Gates,
        Refusal::GateLine,
        Refusal::OneLine,
        Refusal::Output,
        Refusal::FaultLine,
        Refusal::FaultPair,
        Refusal::Spare,
        Refusal::Memory,
        Refusal::Circuit,
        Refusal::Table,
        Refusal::Polarity,
        Refusal::NoSpectrum,
        Refusal::Alike,
        Refusal::Index,
        Refusal::Readings,
        Refusal::Faults,
        Refusal::LooseGate,
        Refusal::OutputNumber,
        Refusal::Part,
    ];

    /// The refusal of a number that isn't 0.
    pub(crate) fn of(number: usize) -> Refusal {
        match Refusal::ALL.get(number.wrapping_sub(1)) {
            Some(refusal) => *refusal,
            None => Refusal::Unknown(number),
        }
    }

    /// The number that the library gave; none if it wasn't called.
    pub fn number(self) -> Option<usize> {
        match self {
            Refusal::Unknown(number) => Some(number),
            Refusal::Version(_) => None,
            _ => Refusal::ALL.iter().position(|refusal| *refusal == self).map(|place| place + 1),
        }
    }
}

impl From<OtherVersion> for Refusal {
    fn from(other: OtherVersion) -> Refusal {
        Refusal::Version(other)
    }
}

impl fmt::Display for Refusal {
    fn fmt(&self, f: &mut fmt::Formatter) -> fmt::Result {
        let cause = match self {
            Refusal::BytesEnd => "the bytes end inside a field",
            Refusal::Inputs => "the number of inputs isn't 1 to 8",
            Refusal::Gates => "there are more than 64 gates",
            Refusal::GateLine => "a gate reads a line that isn't below its own",
            Refusal::OneLine => "a NOT or BUF has a line b other than its line a",
            Refusal::Output => "an output line isn't one of the circuit's",
            Refusal::FaultLine => "a stuck line isn't one of the circuit's, or a bridged line is no input",
            Refusal::FaultPair => "a stuck fault has two lines, or a bridge has a line a that isn't below its line b",
            Refusal::Spare => "a spare bit is 1, or a byte follows the end",
            Refusal::Memory => "the lent memory is too short",
            Refusal::Circuit => "the circuit number is over the number of faults",
            Refusal::Table => "the packed table has the wrong length, or a spare bit 1",
            Refusal::Polarity => "the polarity isn't below the number of entries",
            Refusal::NoSpectrum => "the numbers are no table's spectrum",
            Refusal::Alike => "two circuits are alike",
            Refusal::Index => "an index isn't below the number of coefficients",
            Refusal::Readings => "the numbers of indices, of outputs and of readings differ",
            Refusal::Faults => "there are more than 63 faults",
            Refusal::LooseGate => "a gate is loose: its line is no output, and no output depends on it",
            Refusal::OutputNumber => "an output number is too high",
            Refusal::Part => "a fault's part isn't 1 to 63",
            Refusal::Unknown(_) => "a number that this crate doesn't know",
            Refusal::Version(other) => return other.fmt(f),
        };
        write!(f, "refused {}: {cause}", self.number().unwrap_or_default())
    }
}

impl Error for Refusal {}

#[cfg(test)]
mod tests {
    use super::*;

    #[test]
    fn known_numbers() {
        for (place, refusal) in Refusal::ALL.into_iter().enumerate() {
            let number = place + 1;
            assert_eq!(Refusal::of(number), refusal);
            assert_eq!(refusal.number(), Some(number));
            assert!(refusal.to_string().starts_with(&format!("refused {number}: ")));
        }
    }

    #[test]
    fn unknown_numbers() {
        for number in [0, 22, 23, 255, 256, 256 + 9, usize::MAX] {
            let refusal = Refusal::of(number);
            assert_eq!(refusal, Refusal::Unknown(number));
            assert_eq!(refusal.number(), Some(number));
            assert_eq!(refusal.to_string(), format!("refused {number}: a number that this crate doesn't know"));
        }
    }
}
