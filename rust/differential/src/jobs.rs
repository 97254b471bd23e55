//! Random jobs.

use crate::random::Random;

pub const MOST_INPUTS: usize = 8;
pub const MOST_GATES: usize = 64;
pub const MOST_OUTPUTS: usize = 4;
pub const MOST_FAULTS: usize = 63;

pub const MOST_PART: u8 = 63;

/// A gate: its kind, line a and line b, by document 01's numbers.
pub type Gate = [u8; 3];
/// A fault of a list: its kind, line a and line b, and its part.
pub type Fault = [u8; 4];

const AND: u8 = 0;
const XOR: u8 = 4;
const XNOR: u8 = 5;
const NOT: u8 = 6;
const BRIDGES: [u8; 2] = [2, 3];
const STUCKS: [u8; 2] = [0, 1];

/// A field of a job. Nothing keeps its value in the range that a valid job has, but for its width in bits.
#[derive(Clone, Copy)]
pub struct Field {
    pub value: u8,
    pub width: u32,
}

/// The bytes of fields one after another, with zero bits up to a whole byte.
pub fn encode(fields: &[Field]) -> Vec<u8> {
    let mut bytes = Vec::new();
    let mut bits = 0;
    for field in fields {
        for bit in (0..field.width).rev() {
            if bits % 8 == 0 {
                bytes.push(0);
            }
            bytes[bits / 8] |= (field.value >> bit & 1) << (7 - bits % 8);
            bits += 1;
        }
    }
    bytes
}

/// How the faults of a list get their parts.
#[derive(Clone, Copy, Debug, PartialEq, Eq)]
pub enum Parts {
    /// Fault c has part c.
    Own,
    /// All have this one.
    One(u8),
    /// The last has part 1, the one before it part 2.
    Falling,
    /// The first four have part 1, the next four part 2.
    Fours,
    /// Each any of so many.
    Among(u8),
}

impl Parts {
    pub fn any(random: &mut Random) -> Parts {
        match random.below(8) {
            0..=2 => Parts::Own,
            3 => Parts::One(1 + random.below(MOST_PART.into()) as u8),
            4 => Parts::Falling,
            5 => Parts::Fours,
            6 => Parts::Among(1 + random.below(4) as u8),
            _ => Parts::Among(MOST_PART),
        }
    }

    /// The part of the fault at a place, from 0, of a list of so many.
    fn part(self, random: &mut Random, place: usize, faults: usize) -> u8 {
        match self {
            Parts::Own => place as u8 + 1,
            Parts::One(part) => part,
            Parts::Falling => (faults - place) as u8,
            Parts::Fours => (place / 4) as u8 + 1,
            Parts::Among(most) => random.below(most.into()) as u8 + 1,
        }
    }
}

/// Faults by kind and lines, fault c with part c.
pub fn numbered(faults: impl IntoIterator<Item = [u8; 3]>) -> Vec<Fault> {
    faults.into_iter().zip(1..).map(|([kind, a, b], part)| [kind, a, b, part]).collect()
}

/// A circuit without its faults.
#[derive(Clone)]
pub struct Circuit {
    pub inputs: usize,
    pub gates: Vec<Gate>,
    pub outputs: Vec<u8>,
}

/// The gate lines, or lines, that no gate reads yet, while a circuit is made gate by gate. Each gate to come can join
/// two of them to one, and in the end no more may be left than there are outputs.
struct Unread {
    lines: Vec<u8>,
    outputs: usize,
}

impl Unread {
    /// Whether the next gate must read one of the lines, and whether it must join two, so many gates being left with
    /// it.
    fn must(&self, left: usize) -> (bool, bool) {
        let most = left + self.outputs - 1;
        (self.lines.len() >= most, self.lines.len() > most)
    }

    fn take(&mut self, random: &mut Random) -> u8 {
        let place = random.below(self.lines.len());
        self.lines.swap_remove(place)
    }

    /// A gate that reads two lines drives a third.
    fn drive(&mut self, a: u8, b: u8, own: usize) {
        self.lines.retain(|line| *line != a && *line != b);
        self.lines.push(own as u8);
    }

    /// The outputs, in any order: what is left, and any other lines, some of them more than once.
    fn outputs(self, random: &mut Random, lines: usize) -> Vec<u8> {
        assert!(self.lines.len() <= self.outputs);
        let mut outputs = self.lines;
        while outputs.len() < self.outputs {
            let repeats = !outputs.is_empty() && random.once_in(4);
            let line = if repeats { random.pick(&outputs) } else { random.below(lines) as u8 };
            outputs.push(line);
        }
        random.shuffle(&mut outputs);
        outputs
    }
}

impl Circuit {
    /// A circuit of any gates that are allowed, none of them loose: what no gate reads is an output.
    pub fn any(random: &mut Random, inputs: usize, gates: usize, outputs: usize) -> Circuit {
        let mut unread = Unread { lines: Vec::new(), outputs };
        let mut made = Vec::new();
        for q in 0..gates {
            let own = inputs + q;
            let [mut kind, mut a, mut b] = any_gate(random, own);
            let (must_read, must_join) = unread.must(gates - q);
            if must_read {
                a = unread.take(random);
            }
            if must_join {
                b = unread.take(random);
                kind %= NOT;
            }
            if kind >= NOT {
                b = a;
            }
            unread.drive(a, b, own);
            made.push([kind, a, b]);
        }
        let outputs = unread.outputs(random, inputs + gates);
        Circuit { inputs, gates: made, outputs }
    }

    /// The circuit with a loose gate: what reads one of its gates, outputs too, reads a lower line instead. It has at
    /// least one gate.
    pub fn loosened(mut self, random: &mut Random) -> Circuit {
        let cut = self.inputs + random.below(self.gates.len());
        let other = random.below(cut) as u8;
        let read = self.gates.iter_mut().flat_map(|[_, a, b]| [a, b]);
        for line in read.chain(&mut self.outputs) {
            if usize::from(*line) == cut {
                *line = other;
            }
        }
        self
    }

    /// A circuit of which every input and every gate has a way to an output. It has at least as many gates as are
    /// needed to join the inputs.
    pub fn whole(random: &mut Random, inputs: usize, gates: usize, outputs: usize) -> Circuit {
        assert!(gates >= inputs.max(2) - 1);
        let mut unread = Unread { lines: (0..inputs as u8).collect(), outputs };
        let mut made = Vec::new();
        for q in 0..gates {
            let own = inputs + q;
            let (must_read, must_join) = unread.must(gates - q);
            let a = if must_read || random.once_in(2) { unread.take(random) } else { random.below(own) as u8 };
            let b = if must_join { unread.take(random) } else { random.below(own) as u8 };
            let kind = if a != b { two_line_kind(random) } else { NOT };
            unread.drive(a, b, own);
            made.push([kind, a, b]);
        }
        let outputs = unread.outputs(random, inputs + gates);
        Circuit { inputs, gates: made, outputs }
    }

    pub fn lines(&self) -> usize {
        self.inputs + self.gates.len()
    }

    pub fn fields(&self, faults: &[Fault]) -> Vec<Field> {
        let field = |value, width| Field { value, width };
        let mut fields = vec![field(self.inputs as u8, 4), field(self.gates.len() as u8, 7)];
        for [kind, a, b] in &self.gates {
            fields.extend([field(*kind, 3), field(*a, 7), field(*b, 7)]);
        }
        fields.push(field(self.outputs.len() as u8 - 1, 2));
        fields.extend(self.outputs.iter().map(|output| field(*output, 7)));
        fields.push(field(faults.len() as u8, 6));
        for [kind, a, b, part] in faults {
            fields.extend([field(*kind, 2), field(*a, 7), field(*b, 7), field(*part, 6)]);
        }
        fields
    }

    pub fn bytes(&self, faults: &[Fault]) -> Vec<u8> {
        encode(&self.fields(faults))
    }

    /// Any fault that is allowed, of a part.
    fn any_fault(&self, random: &mut Random, part: u8) -> Fault {
        if self.inputs > 1 && random.once_in(3) {
            let b = 1 + random.below(self.inputs - 1);
            return [random.pick(&BRIDGES), random.below(b) as u8, b as u8, part];
        }
        let line = random.below(self.lines()) as u8;
        [random.pick(&STUCKS), line, line, part]
    }

    /// So many faults of any parts; they may be alike.
    pub fn any_faults(&self, random: &mut Random, count: usize) -> Vec<Fault> {
        let parts = Parts::any(random);
        let fault = |place| {
            let part = parts.part(random, place, count);
            self.any_fault(random, part)
        };
        (0..count).map(fault).collect()
    }

    /// All faults that the circuit can have, in any order, each of part 1.
    fn all_faults(&self, random: &mut Random) -> Vec<Fault> {
        let mut all: Vec<Fault> = Vec::new();
        for line in 0..self.lines() as u8 {
            all.extend(STUCKS.map(|kind| [kind, line, line, 1]));
        }
        for b in 1..self.inputs as u8 {
            for a in 0..b {
                all.extend(BRIDGES.map(|kind| [kind, a, b, 1]));
            }
        }
        random.shuffle(&mut all);
        all
    }

    /// As many faults as asked of which no two circuits of different parts, the good one among them, have equal tables
    /// at all outputs; fewer if the circuit has no more. A fault that equals an earlier one is left out, or gets its
    /// part once in so many times. By the reference's tables.
    pub fn distinct_faults(&self, random: &mut Random, most: usize, parts: Parts, twins: Option<usize>) -> Vec<Fault> {
        let all = self.all_faults(random);
        let tables_of = |faults: &[Fault], circuit| {
            let bytes = self.bytes(faults);
            let table = |output| {
                let mut table = [0; 32];
                reference::table(&bytes, circuit, output, &mut table).expect("a valid job");
                table
            };
            (0..self.outputs.len()).map(table).collect::<Vec<_>>()
        };
        let mut tables = vec![tables_of(&[], 0)];
        let mut faults: Vec<Fault> = Vec::new();
        for chunk in all.chunks(MOST_FAULTS) {
            for (place, [kind, a, b, _]) in chunk.iter().enumerate() {
                if faults.len() == most {
                    return faults;
                }
                let faulty = tables_of(chunk, place + 1);
                let part = match tables.iter().position(|earlier| *earlier == faulty) {
                    None => parts.part(random, faults.len(), most),
                    Some(circuit) if circuit > 0 && twins.is_some_and(|times| random.once_in(times)) => {
                        faults[circuit - 1][3]
                    }
                    Some(_) => continue,
                };
                tables.push(faulty);
                faults.push([*kind, *a, *b, part]);
            }
        }
        faults
    }
}

fn any_gate(random: &mut Random, own: usize) -> Gate {
    // Lines near its own make deep circuits.
    let mut line = || if random.once_in(2) { random.below(own) } else { own - 1 - random.below(own.min(4)) } as u8;
    let (a, b) = (line(), line());
    let kind = if random.once_in(4) { XOR } else { random.below(8) as u8 };
    [kind, a, if kind < NOT { b } else { a }]
}

/// Mostly XOR and XNOR, which hide no fault.
fn two_line_kind(random: &mut Random) -> u8 {
    if random.once_in(2) {
        random.pick(&[XOR, XNOR])
    } else {
        random.below(4) as u8
    }
}

/// One output as often as several.
pub fn any_outputs(random: &mut Random) -> usize {
    if random.once_in(2) {
        1
    } else {
        2 + random.below(MOST_OUTPUTS - 1)
    }
}

/// A valid job with the counts given and any number of outputs and parts; in one of four its faults may be alike, in
/// the others they may be equal only where they have one part.
pub fn any_job(random: &mut Random, inputs: usize, gates: usize, faults: usize) -> Vec<Field> {
    let outputs = any_outputs(random);
    let circuit = Circuit::any(random, inputs, gates, outputs);
    if random.once_in(4) {
        return circuit.fields(&circuit.any_faults(random, faults));
    }
    let parts = Parts::any(random);
    let twins = random.pick(&[None, Some(1), Some(2)]);
    circuit.fields(&circuit.distinct_faults(random, faults, parts, twins))
}

/// A valid job of few lines and faults.
pub fn small_job(random: &mut Random) -> Vec<Field> {
    let (inputs, gates, faults) = (1 + random.below(5), random.below(12), random.below(10));
    any_job(random, inputs, gates, faults)
}

/// A job that would be valid but for a loose gate, mostly of few lines and faults.
pub fn loose_job(random: &mut Random) -> Vec<Field> {
    let (inputs, gates, faults) = if random.once_in(10) { (MOST_INPUTS, MOST_GATES, MOST_FAULTS) } else { (5, 11, 9) };
    let (inputs, gates, faults) = (1 + random.below(inputs), 1 + random.below(gates), random.below(faults + 1));
    let outputs = any_outputs(random);
    let circuit = Circuit::any(random, inputs, gates, outputs).loosened(random);
    circuit.fields(&circuit.any_faults(random, faults))
}

/// A valid job of any size.
pub fn sized_job(random: &mut Random) -> Vec<Field> {
    let inputs = 1 + random.below(MOST_INPUTS);
    let (gates, faults) = (random.below(MOST_GATES + 1), random.below(MOST_FAULTS + 1));
    any_job(random, inputs, gates, faults)
}

/// A job of just these counts, without equal circuits and loose gates, found by trying. Fault c has part c.
pub fn full_job(random: &mut Random, inputs: usize, gates: usize, outputs: usize, faults: usize) -> Vec<u8> {
    parted_job(random, [inputs, gates, outputs, faults], Parts::Own)
}

/// The same with other parts. Parts that aren't random leave the circuit and the faults of a seed as they are.
pub fn parted_job(random: &mut Random, [inputs, gates, outputs, faults]: [usize; 4], parts: Parts) -> Vec<u8> {
    loop {
        let circuit = Circuit::whole(random, inputs, gates, outputs);
        let distinct = circuit.distinct_faults(random, faults, parts, None);
        if distinct.len() == faults {
            return circuit.bytes(&distinct);
        }
    }
}

/// A job of 63 faults with a long signature: each of four outputs is the sum of all inputs and of some products of two,
/// in a chain of its own. With a line of a chain stuck at 0 the first few are missing at that output, so that by RM
/// each place in each chain has its own entry; and so has each output stuck at 1. Fault c has part c.
pub fn chained_job(inputs: usize, products: usize) -> Vec<u8> {
    let pairs = (1..inputs as u8).flat_map(|b| (0..b).map(move |a| [AND, a, b]));
    let mut gates: Vec<Gate> = pairs.take(products).collect();
    let summands = (inputs + products) as u8;
    let mut outputs = Vec::new();
    for _ in 0..MOST_OUTPUTS {
        let mut sum = 0;
        for line in 1..summands {
            gates.push([XOR, sum, line]);
            sum = (inputs + gates.len() - 1) as u8;
        }
        outputs.push(sum);
    }
    let circuit = Circuit { inputs, gates, outputs };
    let chains = (summands..circuit.lines() as u8).map(|line| [STUCKS[0], line, line]);
    let outputs = circuit.outputs.iter().map(|line| [STUCKS[1], *line, *line]);
    let products = (inputs as u8..summands).map(|line| [STUCKS[0], line, line]);
    circuit.bytes(&numbered(chains.chain(outputs).chain(products).take(MOST_FAULTS)))
}
