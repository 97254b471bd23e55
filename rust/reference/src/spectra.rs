//! Spectra of tables, and tables of spectra.
//!
//! With the entries in the order of the polarity, coefficient j is the sum of the entries t inside j. Sums modulo 2 are
//! xors of whole words, made into numbers at the end. Plain sums start from those of eight entries, looked up; then, in
//! place and in blocks of twice the size each time, the lower half of a block is added to the upper.

use crate::differences::{all_tables, Tables, MOST_CIRCUITS};
use crate::job::{Job, MOST_INPUTS};
use crate::refusal::{self, Refusal};
use crate::words::{exchange, pack, packed_size, spare_bits, xor_sums, Table};

/// The kinds of spectrum.
#[derive(Clone, Copy, Debug, PartialEq, Eq)]
pub enum Kind {
    /// Reed-Muller: sums modulo 2.
    Rm,
    /// Modified Reed-Muller: plain sums.
    Mrm,
}

/// For each byte of a table its eight entries.
const ENTRIES: [[u16; 8]; 256] = {
    let mut entries = [[0; 8]; 256];
    let mut byte = 0;
    while byte < 256 {
        let mut m = 0;
        while m < 8 {
            entries[byte][m] = (byte >> (7 - m) & 1) as u16;
            m += 1;
        }
        byte += 1;
    }
    entries
};

/// For each byte of a table the eight sums of a spectrum of three inputs.
const SUMS: [[u16; 8]; 256] = {
    let mut sums = [[0; 8]; 256];
    let mut byte = 0;
    while byte < 256 {
        let mut j = 0;
        while j < 8 {
            let mut t = 0;
            while t < 8 {
                if t & !j == 0 {
                    sums[byte][j] += ENTRIES[byte][t];
                }
                t += 1;
            }
            j += 1;
        }
        byte += 1;
    }
    sums
};

/// Writes the spectrum of a packed table.
pub fn spectrum(inputs: usize, table: &[u8], kind: Kind, polarity: usize, out: &mut [u16]) -> Result<(), Refusal> {
    if inputs == 0 || inputs > MOST_INPUTS {
        return Err(refusal::INPUTS);
    }
    if table.len() != packed_size(inputs) || table[0] & spare_bits(inputs) != 0 {
        return Err(refusal::TABLE);
    }
    if polarity >> inputs != 0 {
        return Err(refusal::POLARITY);
    }
    let out = out.get_mut(..1 << inputs).ok_or(refusal::MEMORY)?;
    let mut bytes = [0; 32];
    bytes[..table.len()].copy_from_slice(table);
    let entries = reorder(inputs, polarity, words(&bytes));
    transform(inputs, kind, &entries, out);
    Ok(())
}

/// Writes the packed table that has this spectrum.
pub fn undo(inputs: usize, numbers: &[u16], kind: Kind, polarity: usize, out: &mut [u8]) -> Result<(), Refusal> {
    if inputs == 0 || inputs > MOST_INPUTS {
        return Err(refusal::INPUTS);
    }
    if polarity >> inputs != 0 {
        return Err(refusal::POLARITY);
    }
    if numbers.len() != 1 << inputs {
        return Err(refusal::NO_SPECTRUM);
    }
    // In both kinds the parities fix the table: it is the only one that can have this spectrum.
    let mut entries = words(&parities(numbers));
    xor_sums(inputs, &mut entries);
    let fits = match kind {
        Kind::Rm => numbers.iter().fold(0, |all, number| all | number) < 2,
        Kind::Mrm => {
            let mut sums = [0; 256];
            transform(inputs, kind, &entries, &mut sums[..numbers.len()]);
            sums[..numbers.len()] == *numbers
        }
    };
    if !fits {
        return Err(refusal::NO_SPECTRUM);
    }
    let out = out.get_mut(..packed_size(inputs)).ok_or(refusal::MEMORY)?;
    pack(inputs, &reorder(inputs, polarity, entries), out);
    Ok(())
}

/// The number of coefficients of a circuit, those of output 0 first.
pub(crate) fn width(job: &Job) -> usize {
    usize::from(job.output_count) << job.inputs
}

/// The number of coefficients of circuits 0 to f.
pub(crate) fn size(job: &Job) -> usize {
    (usize::from(job.fault_count) + 1) * width(job)
}

/// Writes the spectra of circuits 0 to f one after another, each at output after output, and gives their tables. The
/// job has O outputs.
pub(crate) fn fill<const O: usize>(job: &Job, kind: Kind, polarity: usize, work: &mut [u16]) -> Tables<O> {
    let inputs = usize::from(job.inputs);
    let mut tables = [[[0; 4]; O]; MOST_CIRCUITS];
    all_tables(job, polarity, &mut tables);
    for (table, row) in tables.as_flattened().iter().zip(work.chunks_exact_mut(1 << inputs)) {
        transform(inputs, kind, table, row);
    }
    tables
}

/// The parities of at most 256 numbers, packed as a table.
fn parities(numbers: &[u16]) -> [u8; 32] {
    const WEIGHTS: [u16; 8] = [128, 64, 32, 16, 8, 4, 2, 1];
    let weigh = |eight: &[u16]| {
        let weighed = eight.iter().zip(WEIGHTS).map(|(number, weight)| (number & 1) * weight);
        weighed.sum::<u16>() as u8
    };
    let mut bytes = [0; 32];
    if numbers.len() < 8 {
        bytes[0] = weigh(numbers);
    }
    for (byte, eight) in bytes.iter_mut().zip(numbers.chunks_exact(8)) {
        *byte = weigh(eight);
    }
    bytes
}

/// The words of a packed table.
fn words(bytes: &[u8; 32]) -> Table {
    let mut words = [0; 4];
    for (word, eight) in words.iter_mut().zip(bytes.chunks_exact(8)) {
        let mut bytes = [0; 8];
        bytes.copy_from_slice(eight);
        *word = u64::from_be_bytes(bytes);
    }
    words
}

/// The table whose entry t is entry t xor k of the one given.
fn reorder(inputs: usize, polarity: usize, mut table: Table) -> Table {
    for variable in (0..inputs).filter(|variable| polarity >> variable & 1 == 1) {
        table = exchange(&table, variable);
    }
    table
}

/// Writes the N coefficients of a table whose entries are in the order of the polarity.
fn transform(inputs: usize, kind: Kind, entries: &Table, out: &mut [u16]) {
    match kind {
        Kind::Rm => {
            let mut parities = *entries;
            xor_sums(inputs, &mut parities);
            look_up(&ENTRIES, &parities, out);
        }
        Kind::Mrm => {
            look_up(&SUMS, entries, out);
            add_lower::<8>(out);
            add_lower::<16>(out);
            add_lower::<32>(out);
            add_lower::<64>(out);
            add_lower::<128>(out);
        }
    }
}

/// Writes the eight numbers of each byte of a table, as many as there are places.
#[inline]
fn look_up(numbers: &[[u16; 8]; 256], table: &Table, out: &mut [u16]) {
    if out.len() < 8 {
        out.copy_from_slice(&numbers[usize::from(table[0].to_be_bytes()[0])][..out.len()]);
        return;
    }
    for (part, word) in out.chunks_mut(64).zip(table) {
        for (eight, byte) in part.chunks_exact_mut(8).zip(word.to_be_bytes()) {
            eight.copy_from_slice(&numbers[usize::from(byte)]);
        }
    }
}

/// Adds the lower half of each block of twice D sums to the upper half. Fewer sums than a block stay as they are.
#[inline]
fn add_lower<const D: usize>(sums: &mut [u16]) {
    for block in sums.chunks_exact_mut(2 * D) {
        let (lower, upper) = block.split_at_mut(D);
        for place in 0..D {
            upper[place] += lower[place];
        }
    }
}
