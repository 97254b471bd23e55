//! Tables of the circuits of a job: the gates, and one circuit with its fault in place.

use crate::job::{read, Fault, Gate, Job, MOST_GATES, MOST_INPUTS};
use crate::refusal::{self, Refusal};
use crate::words::{level, pack, packed_size, variable};
use std::array::from_fn;

pub(crate) const MOST_LINES: usize = MOST_INPUTS + MOST_GATES;

/// The answers of the eight kinds of gate on 00, 01, 10 and 11.
#[rustfmt::skip]
const ANSWERS: [[u64; 4]; 8] = [
    [0, 0, 0, 1], // AND
    [0, 1, 1, 1], // OR
    [1, 1, 1, 0], // NAND
    [1, 0, 0, 0], // NOR
    [0, 1, 1, 0], // XOR
    [1, 0, 0, 1], // XNOR
    [1, 1, 0, 0], // NOT
    [0, 0, 1, 1], // BUF
];

/// Writes the packed table of one circuit at one output.
pub fn table(bytes: &[u8], circuit: usize, output: usize, out: &mut [u8]) -> Result<(), Refusal> {
    let job = read(bytes)?;
    if circuit > usize::from(job.fault_count) {
        return Err(refusal::CIRCUIT);
    }
    let line = match job.outputs[..job.output_count.into()].get(output) {
        Some(line) => usize::from(*line),
        None => return Err(refusal::OUTPUT_NUMBER),
    };
    let out = out.get_mut(..packed_size(job.inputs.into())).ok_or(refusal::MEMORY)?;
    let fault = circuit.checked_sub(1).map(|place| job.faults[place].fault);
    match job.inputs {
        8 => pack(8, &evaluate::<4>(&job, fault)[line], out),
        7 => pack(7, &evaluate::<2>(&job, fault)[line], out),
        inputs => pack(inputs.into(), &evaluate::<1>(&job, fault)[line], out),
    }
    Ok(())
}

/// A gate without branches: `zero` is its answer on 00; `single` and `both` tell whether 01 and 11 change it.
#[derive(Clone, Copy)]
pub(crate) struct Cell {
    pub(crate) a: usize,
    pub(crate) b: usize,
    zero: u64,
    single: u64,
    both: u64,
}

/// The `zero`, `single` and `both` of each kind, all bits 0 or all 1.
const FORMS: [[u64; 3]; 8] = {
    let mut forms = [[0; 3]; 8];
    let mut kind = 0;
    while kind < 8 {
        let [on_00, on_01, _, on_11] = ANSWERS[kind];
        forms[kind] = [0u64.wrapping_sub(on_00), 0u64.wrapping_sub(on_00 ^ on_01), 0u64.wrapping_sub(on_00 ^ on_11)];
        kind += 1;
    }
    forms
};

impl Cell {
    #[inline]
    pub(crate) fn new(gate: Gate) -> Cell {
        let (kind, a, b) = gate.fields();
        let [zero, single, both] = FORMS[usize::from(kind % 8)];
        Cell { a: a.into(), b: b.into(), zero, single, both }
    }

    #[inline]
    pub(crate) fn answer<const W: usize>(&self, lines: &[[u64; W]; MOST_LINES]) -> [u64; W] {
        let (a, b) = (&lines[self.a], &lines[self.b]);
        from_fn(|w| self.zero ^ self.single & (a[w] ^ b[w]) ^ self.both & a[w] & b[w])
    }

    /// The entries at which the answer changes if this line, which the gate reads, does.
    #[inline]
    pub(crate) fn change<const W: usize>(&self, line: usize, lines: &[[u64; W]; MOST_LINES]) -> [u64; W] {
        if self.a == self.b {
            return [self.both; W];
        }
        let other = &lines[self.a ^ self.b ^ line];
        from_fn(|w| self.single ^ self.both & other[w])
    }
}

/// The tables of all lines of the circuit with one fault, or with none.
fn evaluate<const W: usize>(job: &Job, fault: Option<Fault>) -> [[u64; W]; MOST_LINES] {
    let inputs = usize::from(job.inputs);
    let mut lines = [[0; W]; MOST_LINES];
    for (line, place) in lines[..inputs].iter_mut().enumerate() {
        *place = variable(line, 0);
    }
    let mut stuck = (MOST_LINES, [0; W]);
    match fault {
        None => {}
        Some(Fault::Stuck(line, at)) => stuck = (line.into(), level(at)),
        Some(Fault::Bridge(low, high, is_and)) => {
            let (a, b) = (lines[usize::from(low)], lines[usize::from(high)]);
            let common = from_fn(|w| if is_and { a[w] & b[w] } else { a[w] | b[w] });
            lines[usize::from(low)] = common;
            lines[usize::from(high)] = common;
        }
    }
    if stuck.0 < inputs {
        lines[stuck.0] = stuck.1;
    }
    for (gate, line) in job.gates[..job.gate_count.into()].iter().zip(inputs..) {
        lines[line] = if line == stuck.0 { stuck.1 } else { Cell::new(*gate).answer(&lines) };
    }
    lines
}
