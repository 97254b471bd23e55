//! Tables of all circuits of a job at all outputs.
//!
//! The good circuit is evaluated once. Every line that a fault needs gets its differences: for each output the entries
//! at which it would change if the line did. A fault changes one line at each entry (a bridge of unequal inputs changes
//! one of the two), so a faulty table is the good one, changed where the fault changes a line and that line's
//! difference is 1.
//!
//! An input's difference is the good table xored with itself, halves exchanged. A gate line that one gate reads gets
//! its difference from that gate's; one that several read is changed for a try, and what depends on it evaluated again.

use crate::job::{Fault, Gate, Job, MOST_FAULTS, MOST_GATES};
use crate::tables::{Cell, MOST_LINES};
use crate::words::{exchange, level, variable, Table};
use std::array::from_fn;

/// The circuits of a job, at most: the good one and one for each fault.
pub(crate) const MOST_CIRCUITS: usize = MOST_FAULTS + 1;
/// Per circuit its tables, one for each of O outputs.
pub(crate) type Tables<const O: usize> = [[Table; O]; MOST_CIRCUITS];

/// The tables of circuits 0 to f with their entries in the order of a polarity: entry t is that of input t xor k. The
/// job has O outputs.
pub(crate) fn all_tables<const O: usize>(job: &Job, polarity: usize, tables: &mut Tables<O>) {
    match job.inputs {
        8 => Differences::<4, O>::new(job, polarity).tables(job, tables),
        7 => Differences::<2, O>::new(job, polarity).tables(job, tables),
        _ => Differences::<1, O>::new(job, polarity).tables(job, tables),
    }
}

/// For each output the words of a table.
type Each<const W: usize, const O: usize> = [[u64; W]; O];

/// The lines of the good circuit and what the outputs get of them.
struct Differences<const W: usize, const O: usize> {
    inputs: usize,
    outputs: [usize; O],
    cells: [Cell; MOST_GATES],
    good: [[u64; W]; MOST_LINES],
    /// The lines again, for trying a change; equal to `good` otherwise.
    lines: [[u64; W]; MOST_LINES],
    /// Per line, how many gates read it, and the lowest of them.
    readers: [u8; MOST_LINES],
    reader: [u8; MOST_LINES],
    /// Per line, the gate lines that depend on it, a bit each.
    dependents: [u128; MOST_LINES],
    /// The lines whose differences are known, a bit each.
    known: u128,
    differences: [Each<W, O>; MOST_LINES],
}

impl<const W: usize, const O: usize> Differences<W, O> {
    fn new(job: &Job, polarity: usize) -> Self {
        let inputs = usize::from(job.inputs);
        let mut good = [[0; W]; MOST_LINES];
        for (line, place) in good[..inputs].iter_mut().enumerate() {
            *place = variable(line, polarity);
        }
        let mut cells = [Cell::new(Gate::Buf(0)); MOST_GATES];
        let gates = usize::from(job.gate_count);
        for (q, gate) in job.gates[..gates].iter().enumerate() {
            cells[q] = Cell::new(*gate);
            good[inputs + q] = cells[q].answer(&good);
        }

        // From the last gate down: a line's readers are all above it.
        let mut readers = [0; MOST_LINES];
        let mut reader = [0; MOST_LINES];
        let mut dependents = [0u128; MOST_LINES];
        for line in (inputs..inputs + gates).rev() {
            let Cell { a, b, .. } = cells[line - inputs];
            let above = dependents[line] | 1 << line;
            readers[a] += 1;
            reader[a] = line as u8;
            dependents[a] |= above;
            if b != a {
                readers[b] += 1;
                reader[b] = line as u8;
                dependents[b] |= above;
            }
        }
        let outputs = from_fn(|o| job.outputs[o].into());
        let differences = [[[0; W]; O]; MOST_LINES];
        Differences { inputs, outputs, cells, good, lines: good, readers, reader, dependents, known: 0, differences }
    }

    fn tables(&mut self, job: &Job, tables: &mut Tables<O>) {
        let good: Each<W, O> = self.outputs.map(|line| self.good[line]);
        put(good, &mut tables[0]);
        for (place, entry) in tables[1..].iter_mut().zip(&job.faults[..job.fault_count.into()]) {
            let faulty: Each<W, O> = match entry.fault {
                Fault::Stuck(line, at) => {
                    let (entries, stuck) = (self.good[usize::from(line)], level::<W>(at));
                    let change = self.differences(line.into());
                    from_fn(|o| from_fn(|w| good[o][w] ^ (entries[w] ^ stuck[w]) & change[o][w]))
                }
                Fault::Bridge(low, high, is_and) => {
                    let (a, b) = (self.good[usize::from(low)], self.good[usize::from(high)]);
                    // Under AND the input that is 1 changes, under OR the one that is 0.
                    let (one, other) = if is_and { (low, high) } else { (high, low) };
                    let a_only = self.differences(one.into());
                    let b_only = self.differences(other.into());
                    from_fn(|o| from_fn(|w| good[o][w] ^ a[w] & !b[w] & a_only[o][w] ^ b[w] & !a[w] & b_only[o][w]))
                }
            };
            put(faulty, place);
        }
    }

    /// For each output the entries at which it changes if the line does.
    fn differences(&mut self, line: usize) -> Each<W, O> {
        if self.known >> line & 1 == 0 {
            self.differences[line] = self.find_differences(line);
            self.known |= 1 << line;
        }
        self.differences[line]
    }

    fn find_differences(&mut self, line: usize) -> Each<W, O> {
        let good = self.outputs.map(|output| self.good[output]);
        let mut differences = if line < self.inputs {
            good.map(|table| {
                let exchanged = exchange(&table, line);
                from_fn(|w| table[w] ^ exchanged[w])
            })
        } else {
            match self.readers[line] {
                0 => [[0; W]; O],
                1 => {
                    let gate = usize::from(self.reader[line]);
                    let through = self.cells[gate - self.inputs].change(line, &self.good);
                    self.differences(gate).map(|onward| from_fn(|w| through[w] & onward[w]))
                }
                _ => {
                    let changed = self.outputs_if_changed(line);
                    from_fn(|o| from_fn(|w| good[o][w] ^ changed[o][w]))
                }
            }
        };
        for (difference, output) in differences.iter_mut().zip(self.outputs) {
            if output == line {
                *difference = level(true);
            }
        }
        differences
    }

    /// The outputs with a line changed at all entries; only what depends on the line is evaluated.
    fn outputs_if_changed(&mut self, line: usize) -> Each<W, O> {
        let good = self.good[line];
        self.lines[line] = from_fn(|w| !good[w]);
        for above in ones(self.dependents[line]) {
            self.lines[above] = self.cells[above - self.inputs].answer(&self.lines);
        }
        let changed = self.outputs.map(|output| self.lines[output]);
        self.lines[line] = good;
        for above in ones(self.dependents[line]) {
            self.lines[above] = self.good[above];
        }
        changed
    }
}

/// Writes the words of tables.
#[inline]
fn put<const W: usize, const O: usize>(each: Each<W, O>, tables: &mut [Table; O]) {
    for (table, words) in tables.iter_mut().zip(each) {
        table[..W].copy_from_slice(&words);
    }
}

/// The places of the ones of a set, from the lowest.
#[inline]
fn ones(mut set: u128) -> impl Iterator<Item = usize> {
    std::iter::from_fn(move || {
        (set != 0).then(|| {
            let place = set.trailing_zeros() as usize;
            set &= set - 1;
            place
        })
    })
}
