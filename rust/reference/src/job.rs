//! Jobs: the record, reading it from bytes and writing it to bytes.

use crate::refusal::{self, Refusal};

pub const MOST_INPUTS: usize = 8;
pub const MOST_GATES: usize = 64;
pub const MOST_OUTPUTS: usize = 4;
pub const MOST_FAULTS: usize = 63;
/// The highest number of a part; the lowest is 1, and the good circuit has part 0.
pub const MOST_PART: u8 = 63;
/// The most bytes that a job can have: 4 + 7 + 64 x 17 + 2 + 4 x 7 + 6 + 63 x 22 bits.
pub const LONGEST_JOB: usize = 316;

/// A gate and the lines that it reads.
#[derive(Clone, Copy, Debug, PartialEq, Eq)]
pub enum Gate {
    And(u8, u8),
    Or(u8, u8),
    Nand(u8, u8),
    Nor(u8, u8),
    Xor(u8, u8),
    Xnor(u8, u8),
    Not(u8),
    Buf(u8),
}

/// A line stuck at a level, or two bridged inputs.
#[derive(Clone, Copy, Debug, PartialEq, Eq)]
pub enum Fault {
    /// The line and its level.
    Stuck(u8, bool),
    /// The lower and the higher input, and whether they take their AND or their OR.
    Bridge(u8, u8, bool),
}

/// A fault of the list, and the part that is mended for it.
#[derive(Clone, Copy, Debug, PartialEq, Eq)]
pub struct FaultEntry {
    pub fault: Fault,
    pub part: u8,
}

impl FaultEntry {
    /// What stands where a record has no fault.
    pub const UNUSED: FaultEntry = FaultEntry { fault: Fault::Stuck(0, false), part: 0 };
}

/// A circuit and its faults. Gate q drives line `inputs` + q; output o is line `outputs[o]`; fault c, from 1, is
/// `faults[c - 1]`.
#[derive(Clone, Copy, Debug, PartialEq, Eq)]
pub struct Job {
    pub inputs: u8,
    pub gate_count: u8,
    pub gates: [Gate; MOST_GATES],
    pub output_count: u8,
    pub outputs: [u8; MOST_OUTPUTS],
    pub fault_count: u8,
    pub faults: [FaultEntry; MOST_FAULTS],
}

impl Job {
    /// The part of each circuit from 0 to f: that of its fault, 0 for the good one.
    pub(crate) fn parts(&self) -> impl Iterator<Item = u8> + '_ {
        let faults = &self.faults[..self.fault_count.into()];
        std::iter::once(0).chain(faults.iter().map(|entry| entry.part))
    }
}

impl Gate {
    /// The kind's number and lines a and b; a gate that reads one line repeats it.
    #[inline]
    pub(crate) fn fields(self) -> (u8, u8, u8) {
        match self {
            Gate::And(a, b) => (0, a, b),
            Gate::Or(a, b) => (1, a, b),
            Gate::Nand(a, b) => (2, a, b),
            Gate::Nor(a, b) => (3, a, b),
            Gate::Xor(a, b) => (4, a, b),
            Gate::Xnor(a, b) => (5, a, b),
            Gate::Not(a) => (6, a, a),
            Gate::Buf(a) => (7, a, a),
        }
    }
}

/// The job that these bytes are.
pub fn read(bytes: &[u8]) -> Result<Job, Refusal> {
    // What follows the longest job doesn't matter, once one byte does.
    let mut fields = Fields { bytes: &bytes[..bytes.len().min(LONGEST_JOB + 1)], at: 0 };
    let inputs = fields.take(4)? as u8;
    if inputs == 0 || usize::from(inputs) > MOST_INPUTS {
        return Err(refusal::INPUTS);
    }
    let gate_count = fields.take(7)? as u8;
    if usize::from(gate_count) > MOST_GATES {
        return Err(refusal::GATES);
    }
    let lines = inputs + gate_count;

    let mut gates = [Gate::Buf(0); MOST_GATES];
    for (gate, own) in gates.iter_mut().zip(inputs..lines) {
        *gate = read_gate(fields.take(17)?, own)?;
    }
    let output_count = fields.take(2)? as u8 + 1;
    let mut outputs = [0; MOST_OUTPUTS];
    for output in &mut outputs[..output_count.into()] {
        *output = fields.take(7)? as u8;
        if *output >= lines {
            return Err(refusal::OUTPUT);
        }
    }
    if has_loose_gate(inputs, &gates[..gate_count.into()], &outputs[..output_count.into()]) {
        return Err(refusal::LOOSE_GATE);
    }
    let fault_count = fields.take(6)? as u8;
    let mut faults = [FaultEntry::UNUSED; MOST_FAULTS];
    for entry in &mut faults[..usize::from(fault_count)] {
        *entry = read_fault(fields.take(22)?, inputs, lines)?;
    }
    fields.end()?;
    Ok(Job { inputs, gate_count, gates, output_count, outputs, fault_count, faults })
}

/// The gate in a field of 3 + 7 + 7 bits, driving line `own`.
#[inline(always)]
fn read_gate(field: u32, own: u8) -> Result<Gate, Refusal> {
    let (a, b) = ((field >> 7) as u8 & 127, field as u8 & 127);
    if a >= own || b >= own {
        return Err(refusal::GATE_LINE);
    }
    let kind = field >> 14;
    if kind >= 6 && a != b {
        return Err(refusal::ONE_LINE);
    }
    Ok(match kind {
        0 => Gate::And(a, b),
        1 => Gate::Or(a, b),
        2 => Gate::Nand(a, b),
        3 => Gate::Nor(a, b),
        4 => Gate::Xor(a, b),
        5 => Gate::Xnor(a, b),
        6 => Gate::Not(a),
        _ => Gate::Buf(a),
    })
}

/// Whether some gate's line is no output and no output depends on it: none is driven by a gate that reads it, directly
/// or through other gates. Every gate reads lines below its own, and outputs are lines of the circuit.
fn has_loose_gate(inputs: u8, gates: &[Gate], outputs: &[u8]) -> bool {
    // The outputs and the lines reached from them, a bit each. What reads a line stands above it: when a gate's turn
    // comes, from the last one down, its line is reached or never will be.
    let mut reached = outputs.iter().fold(0u128, |lines, output| lines | 1 << output);
    for (gate, line) in gates.iter().zip(inputs..inputs + gates.len() as u8).rev() {
        if reached >> line & 1 == 0 {
            return true;
        }
        let (_, a, b) = gate.fields();
        reached |= 1 << a | 1 << b;
    }
    false
}

/// The fault and its part in a field of 2 + 7 + 7 + 6 bits.
#[inline(always)]
fn read_fault(field: u32, inputs: u8, lines: u8) -> Result<FaultEntry, Refusal> {
    let (a, b, part) = ((field >> 13) as u8 & 127, (field >> 6) as u8 & 127, field as u8 & 63);
    let kind = field >> 20;
    let fault = if kind < 2 {
        // The stuck line is a; b only repeats it.
        if a >= lines {
            return Err(refusal::FAULT_LINE);
        }
        if a != b {
            return Err(refusal::FAULT_PAIR);
        }
        Fault::Stuck(a, kind == 1)
    } else {
        check_bridge(a, b, inputs)?;
        Fault::Bridge(a, b, kind == 2)
    };
    check_part(part)?;
    Ok(FaultEntry { fault, part })
}

fn check_part(part: u8) -> Result<(), Refusal> {
    if part == 0 || part > MOST_PART {
        return Err(refusal::PART);
    }
    Ok(())
}

fn check_bridge(low: u8, high: u8, inputs: u8) -> Result<(), Refusal> {
    if low >= inputs || high >= inputs {
        return Err(refusal::FAULT_LINE);
    }
    if low >= high {
        return Err(refusal::FAULT_PAIR);
    }
    Ok(())
}

/// The bytes of a job, taken field by field from the highest bit on.
struct Fields<'a> {
    bytes: &'a [u8],
    /// The bits taken so far.
    at: usize,
}

impl Fields<'_> {
    /// The next `width` bits, 1 to 25. Inlined always, as the two functions of a field above: reading takes half as
    /// long again where the compiler decides.
    #[inline(always)]
    fn take(&mut self, width: usize) -> Result<u32, Refusal> {
        let end = self.at + width;
        if end > 8 * self.bytes.len() {
            return Err(refusal::BYTES_END);
        }
        let rest = &self.bytes[self.at / 8..];
        let mut four = [0; 4];
        match rest.get(..4) {
            Some(bytes) => four.copy_from_slice(bytes),
            None => four[..rest.len()].copy_from_slice(rest),
        }
        let field = (u32::from_be_bytes(four) << (self.at % 8)) >> (32 - width);
        self.at = end;
        Ok(field)
    }

    /// Only zero bits are left, and those in the last field's byte.
    fn end(&self) -> Result<(), Refusal> {
        let whole = self.at.div_ceil(8);
        let spare = 8 * whole - self.at;
        let spare_set = self.bytes[whole - 1] & ((1u16 << spare) - 1) as u8 != 0;
        if self.bytes.len() > whole || spare_set {
            return Err(refusal::SPARE);
        }
        Ok(())
    }
}

/// Writes the bytes of a job from the start of `out` and gives their number.
pub fn write(job: &Job, out: &mut [u8]) -> Result<usize, Refusal> {
    let size = check(job)?;
    let out = out.get_mut(..size).ok_or(refusal::MEMORY)?;
    let mut bits = Bits { out, at: 0, pending: 0, word: 0 };
    bits.put(job.inputs.into(), 4);
    bits.put(job.gate_count.into(), 7);
    for gate in &job.gates[..job.gate_count.into()] {
        let (kind, a, b) = gate.fields();
        bits.put(u32::from(kind) << 14 | u32::from(a) << 7 | u32::from(b), 17);
    }
    bits.put(u32::from(job.output_count) - 1, 2);
    for output in &job.outputs[..job.output_count.into()] {
        bits.put((*output).into(), 7);
    }
    bits.put(job.fault_count.into(), 6);
    for FaultEntry { fault, part } in &job.faults[..job.fault_count.into()] {
        let (kind, a, b) = match *fault {
            Fault::Stuck(line, level) => (u32::from(level), line, line),
            Fault::Bridge(low, high, is_and) => (3 - u32::from(is_and), low, high),
        };
        bits.put(kind << 20 | u32::from(a) << 13 | u32::from(b) << 6 | u32::from(*part), 22);
    }
    bits.end();
    Ok(size)
}

/// The number of bytes of a record that can be written.
fn check(job: &Job) -> Result<usize, Refusal> {
    let inputs = job.inputs;
    if inputs == 0 || usize::from(inputs) > MOST_INPUTS {
        return Err(refusal::INPUTS);
    }
    if usize::from(job.gate_count) > MOST_GATES {
        return Err(refusal::GATES);
    }
    let lines = inputs + job.gate_count;
    for (gate, own) in job.gates.iter().zip(inputs..lines) {
        let (_, a, b) = gate.fields();
        if a >= own || b >= own {
            return Err(refusal::GATE_LINE);
        }
    }
    if job.output_count == 0 || usize::from(job.output_count) > MOST_OUTPUTS {
        return Err(refusal::OUTPUT_NUMBER);
    }
    let outputs = &job.outputs[..job.output_count.into()];
    if outputs.iter().any(|output| *output >= lines) {
        return Err(refusal::OUTPUT);
    }
    if has_loose_gate(inputs, &job.gates[..job.gate_count.into()], outputs) {
        return Err(refusal::LOOSE_GATE);
    }
    if usize::from(job.fault_count) > MOST_FAULTS {
        return Err(refusal::FAULTS);
    }
    for FaultEntry { fault, part } in &job.faults[..job.fault_count.into()] {
        match *fault {
            Fault::Stuck(line, _) if line >= lines => return Err(refusal::FAULT_LINE),
            Fault::Stuck(..) => {}
            Fault::Bridge(low, high, _) => check_bridge(low, high, inputs)?,
        }
        check_part(*part)?;
    }
    let [gates, outputs, faults] = [job.gate_count, job.output_count, job.fault_count].map(usize::from);
    Ok((4 + 7 + 17 * gates + 2 + 7 * outputs + 6 + 22 * faults).div_ceil(8))
}

/// Writes fields of bits one after another, four bytes at a time.
struct Bits<'a> {
    out: &'a mut [u8],
    /// The bytes written so far.
    at: usize,
    /// How many low bits of `word` aren't written yet, fewer than 32 between fields.
    pending: usize,
    word: u64,
}

impl Bits<'_> {
    /// Takes the low `width` bits of a field, at most 32.
    #[inline]
    fn put(&mut self, field: u32, width: usize) {
        self.word = self.word << width | u64::from(field);
        self.pending += width;
        if self.pending >= 32 {
            self.pending -= 32;
            let four = (self.word >> self.pending) as u32;
            self.out[self.at..self.at + 4].copy_from_slice(&four.to_be_bytes());
            self.at += 4;
        }
    }

    /// Writes what is left, with zero bits up to a whole byte.
    fn end(self) {
        let four = (self.word << (32 - self.pending)) as u32;
        let rest = &mut self.out[self.at..];
        rest.copy_from_slice(&four.to_be_bytes()[..rest.len()]);
    }
}
