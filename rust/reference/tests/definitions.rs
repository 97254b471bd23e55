//! A slow and literal model of the documents, compared with the library on random jobs, whole and damaged.

use reference::{choose, locate, read, report, spectrum, table, undo, write};
use reference::{Chosen, Entry, Fault, FaultEntry, Gate, Job, Kind, Located, Purpose};

// ---- the model ----

fn bits_of(bytes: &[u8]) -> Vec<u8> {
    bytes.iter().flat_map(|byte| (0..8).map(move |i| byte >> (7 - i) & 1)).collect()
}

struct Bits {
    bits: Vec<u8>,
    at: usize,
}

impl Bits {
    fn field(&mut self, width: usize) -> Result<u8, u8> {
        let bits = self.bits.get(self.at..self.at + width).ok_or(1)?;
        self.at += width;
        Ok(bits.iter().fold(0, |value, bit| 2 * value + bit))
    }
}

fn model_read(bytes: &[u8]) -> Result<Job, u8> {
    let mut bits = Bits { bits: bits_of(bytes), at: 0 };
    let mut job = Job {
        inputs: bits.field(4)?,
        gate_count: 0,
        gates: [Gate::Buf(0); 64],
        output_count: 0,
        outputs: [0; 4],
        fault_count: 0,
        faults: [FaultEntry::UNUSED; 63],
    };
    let n = job.inputs;
    if !(1..=8).contains(&n) {
        return Err(2);
    }
    job.gate_count = bits.field(7)?;
    let g = job.gate_count;
    if g > 64 {
        return Err(3);
    }
    for q in 0..g {
        let (kind, a, b) = (bits.field(3)?, bits.field(7)?, bits.field(7)?);
        if !(a < n + q && b < n + q) {
            return Err(4);
        }
        if kind >= 6 && b != a {
            return Err(5);
        }
        job.gates[q as usize] = match kind {
            0 => Gate::And(a, b),
            1 => Gate::Or(a, b),
            2 => Gate::Nand(a, b),
            3 => Gate::Nor(a, b),
            4 => Gate::Xor(a, b),
            5 => Gate::Xnor(a, b),
            6 => Gate::Not(a),
            7 => Gate::Buf(a),
            _ => unreachable!(),
        };
    }
    job.output_count = bits.field(2)? + 1;
    for o in 0..job.output_count {
        let line = bits.field(7)?;
        if line >= n + g {
            return Err(6);
        }
        job.outputs[o as usize] = line;
    }
    if model_loose(&job) {
        return Err(19);
    }
    job.fault_count = bits.field(6)?;
    for c in 0..job.fault_count {
        let (kind, a, b, part) = (bits.field(2)?, bits.field(7)?, bits.field(7)?, bits.field(6)?);
        let stuck = kind < 2;
        if (stuck && a >= n + g) || (!stuck && (a >= n || b >= n)) {
            return Err(7);
        }
        if (stuck && a != b) || (!stuck && a >= b) {
            return Err(8);
        }
        if !(1..=63).contains(&part) {
            return Err(21);
        }
        let fault = match kind {
            0 => Fault::Stuck(a, false),
            1 => Fault::Stuck(a, true),
            2 => Fault::Bridge(a, b, true),
            3 => Fault::Bridge(a, b, false),
            _ => unreachable!(),
        };
        job.faults[c as usize] = FaultEntry { fault, part };
    }
    let spare = &bits.bits[bits.at..];
    if spare.len() >= 8 || spare.contains(&1) {
        return Err(9);
    }
    Ok(job)
}

/// The kind of a gate, line a and line b.
fn gate_fields(gate: Gate) -> (u8, u8, u8) {
    match gate {
        Gate::And(a, b) => (0, a, b),
        Gate::Or(a, b) => (1, a, b),
        Gate::Nand(a, b) => (2, a, b),
        Gate::Nor(a, b) => (3, a, b),
        Gate::Xor(a, b) => (4, a, b),
        Gate::Xnor(a, b) => (5, a, b),
        Gate::Not(a) => (6, a, a),
        Gate::Buf(a) => (7, a, a),
    }
}

/// Adds the lines that the gate of a line reads, directly or through other gates.
fn add_read(job: &Job, line: u8, found: &mut Vec<u8>) {
    if line < job.inputs {
        return;
    }
    let (_, a, b) = gate_fields(job.gates[usize::from(line - job.inputs)]);
    for read in [a, b] {
        if !found.contains(&read) {
            found.push(read);
            add_read(job, read, found);
        }
    }
}

/// Whether some gate's line is no output, and none depends on it.
fn model_loose(job: &Job) -> bool {
    let depends = |output: &u8, line: u8| {
        let mut read = Vec::new();
        add_read(job, *output, &mut read);
        read.contains(&line)
    };
    let outputs = &job.outputs[..usize::from(job.output_count)];
    let is_loose = |line| !outputs.iter().any(|output| *output == line || depends(output, line));
    (job.inputs..job.inputs + job.gate_count).any(is_loose)
}

/// The bytes of a record in order, or the refusal other than 10.
fn model_write(job: &Job) -> Result<Vec<u8>, u8> {
    let n = usize::from(job.inputs);
    let g = usize::from(job.gate_count);
    if !(1..=8).contains(&n) {
        return Err(2);
    }
    if g > 64 {
        return Err(3);
    }
    let mut bits = String::new();
    bits += &format!("{n:04b}{g:07b}");
    for q in 0..g {
        let (kind, a, b) = gate_fields(job.gates[q]);
        if usize::from(a) >= n + q || usize::from(b) >= n + q {
            return Err(4);
        }
        bits += &format!("{kind:03b}{a:07b}{b:07b}");
    }
    if !(1..=4).contains(&job.output_count) {
        return Err(20);
    }
    bits += &format!("{:02b}", job.output_count - 1);
    for o in 0..usize::from(job.output_count) {
        if usize::from(job.outputs[o]) >= n + g {
            return Err(6);
        }
        bits += &format!("{:07b}", job.outputs[o]);
    }
    if model_loose(job) {
        return Err(19);
    }
    if job.fault_count > 63 {
        return Err(18);
    }
    bits += &format!("{:06b}", job.fault_count);
    for c in 0..usize::from(job.fault_count) {
        let FaultEntry { fault, part } = job.faults[c];
        let (kind, a, b) = match fault {
            Fault::Stuck(line, level) => (if level { 1 } else { 0 }, line, line),
            Fault::Bridge(low, high, is_and) => (if is_and { 2 } else { 3 }, low, high),
        };
        if usize::from(a) >= (if kind < 2 { n + g } else { n }) || (kind >= 2 && usize::from(b) >= n) {
            return Err(7);
        }
        if kind >= 2 && a >= b {
            return Err(8);
        }
        if !(1..=63).contains(&part) {
            return Err(21);
        }
        bits += &format!("{kind:02b}{a:07b}{b:07b}{part:06b}");
    }
    while bits.len() % 8 != 0 {
        bits.push('0');
    }
    Ok((0..bits.len() / 8).map(|i| u8::from_str_radix(&bits[8 * i..8 * i + 8], 2).unwrap()).collect())
}

/// Entry m of the tables of a circuit: the value of each output.
fn model_entry(job: &Job, circuit: usize, m: usize) -> Vec<bool> {
    let n = usize::from(job.inputs);
    let fault = if circuit == 0 { None } else { Some(job.faults[circuit - 1].fault) };
    let mut lines = Vec::new();
    for line in 0..n + usize::from(job.gate_count) {
        let input = |i: u8| m >> i & 1 == 1;
        let read = |line: u8| -> bool { lines[usize::from(line)] };
        let mut value = if line < n {
            input(line as u8)
        } else {
            match job.gates[line - n] {
                Gate::And(a, b) => read(a) && read(b),
                Gate::Or(a, b) => read(a) || read(b),
                Gate::Nand(a, b) => !(read(a) && read(b)),
                Gate::Nor(a, b) => !(read(a) || read(b)),
                Gate::Xor(a, b) => read(a) != read(b),
                Gate::Xnor(a, b) => read(a) == read(b),
                Gate::Not(a) => !read(a),
                Gate::Buf(a) => read(a),
            }
        };
        match fault {
            Some(Fault::Stuck(stuck, level)) if usize::from(stuck) == line => value = level,
            Some(Fault::Bridge(low, high, true)) if line == low.into() || line == high.into() => {
                value = input(low) && input(high);
            }
            Some(Fault::Bridge(low, high, false)) if line == low.into() || line == high.into() => {
                value = input(low) || input(high);
            }
            _ => {}
        }
        lines.push(value);
    }
    job.outputs[..usize::from(job.output_count)].iter().map(|output| lines[usize::from(*output)]).collect()
}

/// The tables of a circuit, one for each output.
fn model_tables(job: &Job, circuit: usize) -> Vec<Vec<bool>> {
    let entries: Vec<_> = (0..1 << job.inputs).map(|m| model_entry(job, circuit, m)).collect();
    (0..usize::from(job.output_count)).map(|o| entries.iter().map(|values| values[o]).collect()).collect()
}

fn model_pack(table: &[bool]) -> Vec<u8> {
    let mut bytes = vec![0; table.len().div_ceil(8)];
    for (m, entry) in table.iter().enumerate() {
        bytes[m / 8] |= u8::from(*entry) << (7 - m % 8);
    }
    bytes
}

fn model_spectrum(table: &[bool], kind: Kind, k: usize) -> Vec<u16> {
    let sum = |j: usize| (0..table.len()).filter(|t| t & !j == 0).map(|t| u16::from(table[t ^ k])).sum::<u16>();
    let coefficient = |j| if kind == Kind::Rm { sum(j) % 2 } else { sum(j) };
    (0..table.len()).map(coefficient).collect()
}

/// The table of a spectrum by sums with signs, and whether the spectrum is that table's.
fn model_undo(numbers: &[u16], kind: Kind, k: usize) -> Option<Vec<bool>> {
    let mut table = vec![false; numbers.len()];
    for t in 0..numbers.len() {
        let signed = |j: &usize| {
            let sign = if (j ^ t).count_ones() % 2 == 0 { 1 } else { -1 };
            sign * i64::from(numbers[*j])
        };
        let mut entry = (0..numbers.len()).filter(|j| j & !t == 0).map(|j| signed(&j)).sum::<i64>();
        if kind == Kind::Rm {
            entry = entry.rem_euclid(2);
        }
        table[t ^ k] = entry == 1;
    }
    (model_spectrum(&table, kind, k) == numbers).then_some(table)
}

/// Per circuit and output a table and its spectrum.
struct Model {
    job: Job,
    tables: Vec<Vec<Vec<bool>>>,
    spectra: Vec<Vec<Vec<u16>>>,
}

fn model(job: &Job, kind: Kind, k: usize) -> Model {
    let tables: Vec<_> = (0..=usize::from(job.fault_count)).map(|c| model_tables(job, c)).collect();
    let spectrum = |table: &Vec<bool>| model_spectrum(table, kind, k);
    let spectra = tables.iter().map(|outputs| outputs.iter().map(spectrum).collect()).collect();
    Model { job: *job, tables, spectra }
}

impl Model {
    fn coefficient(&self, circuit: usize, entry: &Entry) -> u16 {
        self.spectra[circuit][usize::from(entry.output)][usize::from(entry.index)]
    }

    fn tells(&self, set: &[Entry], pair: (usize, usize)) -> bool {
        set.iter().any(|entry| self.coefficient(pair.0, entry) != self.coefficient(pair.1, entry))
    }

    /// All entries, in the order of looking.
    fn scan(&self) -> Vec<Entry> {
        let outputs = u16::from(self.job.output_count);
        let indices = 0..1u16 << self.job.inputs;
        let mut scan: Vec<_> =
            indices.flat_map(|index| (0..outputs).map(move |output| Entry { index, output })).collect();
        scan.sort_by_key(|entry| (entry.index.count_ones(), entry.index, entry.output));
        scan
    }

    /// The part of a circuit: the good one's is 0.
    fn part(&self, circuit: usize) -> usize {
        if circuit == 0 {
            0
        } else {
            usize::from(self.job.faults[circuit - 1].part)
        }
    }

    /// The pairs of circuits that must be told apart, by the lower number, then by the higher.
    fn needed(&self, purpose: Purpose) -> Vec<(usize, usize)> {
        let circuits = self.tables.len();
        let pairs = (0..circuits).flat_map(|a| (a + 1..circuits).map(move |b| (a, b)));
        let is_needed = |pair: &(usize, usize)| match purpose {
            Purpose::Isolating => self.part(pair.0) != self.part(pair.1),
            Purpose::Detecting => pair.0 == 0,
        };
        pairs.filter(is_needed).collect()
    }

    /// The signature, or the pair that is alike.
    fn choose(&self, purpose: Purpose) -> Result<Vec<Entry>, (usize, usize)> {
        let needed = self.needed(purpose);
        if let Some(pair) = needed.iter().find(|pair| self.tables[pair.0] == self.tables[pair.1]) {
            return Err(*pair);
        }
        let mut taken = Vec::new();
        for entry in self.scan() {
            if needed.iter().any(|pair| self.tells(&[entry], *pair) && !self.tells(&taken, *pair)) {
                taken.push(entry);
            }
        }
        let mut kept = taken.clone();
        for entry in taken.iter().rev() {
            let rest: Vec<_> = kept.iter().copied().filter(|other| other != entry).collect();
            if needed.iter().all(|pair| self.tells(&rest, *pair)) {
                kept = rest;
            }
        }
        Ok(kept)
    }

    fn locate(&self, list: &[Entry], readings: &[u16]) -> Located {
        let gives = |c: &usize| (0..list.len()).all(|i| self.coefficient(*c, &list[i]) == readings[i]);
        let agreeing: Vec<_> = (0..self.spectra.len()).filter(gives).collect();
        let parts: Vec<_> = agreeing.iter().map(|c| self.part(*c)).collect();
        match agreeing.len() {
            0 => Located::Nowhere,
            _ if parts.iter().all(|part| *part == parts[0]) => Located::Part(parts[0], agreeing[0]),
            count => Located::Several(agreeing[0], count),
        }
    }

    /// The size of the spectra.
    fn size(&self) -> usize {
        (self.spectra.len() * usize::from(self.job.output_count)) << self.job.inputs
    }

    /// The spectra, then what the work held.
    fn work(&self, before: &[u16]) -> Vec<u16> {
        let mut work = before.to_vec();
        let (outputs, places) = (usize::from(self.job.output_count), 1 << self.job.inputs);
        for c in 0..self.spectra.len() {
            for o in 0..outputs {
                for j in 0..places {
                    work[((c * outputs) + o) * places + j] = self.spectra[c][o][j];
                }
            }
        }
        work
    }
}

fn model_report(bytes: &[u8]) -> String {
    let job = match model_read(bytes) {
        Ok(job) => job,
        Err(number) => return format!("refused {number}\n"),
    };
    let model = model(&job, Kind::Mrm, 0);
    if model.size() > 32768 {
        return "refused 10\n".to_string();
    }
    match model.choose(Purpose::Isolating) {
        Err((a, b)) => format!("refused 15 {a} {b}\n"),
        Ok(signature) => {
            let mut text = format!("inputs {} gates {} faults {}\n", job.inputs, job.gate_count, job.fault_count);
            text += "signature";
            signature.iter().for_each(|entry| text += &format!(" {}:{}", entry.index, entry.output));
            text += "\n";
            for c in 0..model.spectra.len() {
                text += &format!("{c}");
                signature.iter().for_each(|entry| text += &format!(" {}", model.coefficient(c, entry)));
                text += "\n";
            }
            text
        }
    }
}

// ---- random cases ----

struct Random(u64);

impl Random {
    fn next(&mut self) -> u64 {
        self.0 = self.0.wrapping_add(0x9e37_79b9_7f4a_7c15);
        let mut z = self.0;
        z = (z ^ z >> 30).wrapping_mul(0xbf58_476d_1ce4_e5b9);
        z = (z ^ z >> 27).wrapping_mul(0x94d0_49bb_1331_11eb);
        z ^ z >> 31
    }

    fn below(&mut self, limit: usize) -> usize {
        (self.next() % limit as u64) as usize
    }

    /// A line below a gate's own; lines near it make deep circuits.
    fn line(&mut self, own: usize) -> u8 {
        let line = if self.below(2) == 0 { self.below(own) } else { own - 1 - self.below(own.min(4)) };
        line as u8
    }

    fn take(&mut self, lines: &mut Vec<u8>) -> u8 {
        let place = self.below(lines.len());
        lines.swap_remove(place)
    }

    /// The gate of line `own`. `unread` are the gate lines that no gate reads yet; each of the gates that are left,
    /// this one among them, can join two of them to one, and as many as there are outputs may stay.
    fn gate(&mut self, own: usize, left: usize, outputs: usize, unread: &mut Vec<u8>) -> Gate {
        let room = left + outputs - 1;
        let (must_read, must_join) = (unread.len() >= room, unread.len() > room);
        let a = if must_read { self.take(unread) } else { self.line(own) };
        let b = if must_join { self.take(unread) } else { self.line(own) };
        let gate = match self.below(if must_join { 7 } else { 9 }) {
            0 => Gate::And(a, b),
            1 => Gate::Or(a, b),
            2 => Gate::Nand(a, b),
            3 => Gate::Nor(a, b),
            4 => Gate::Xnor(a, b),
            5 | 6 => Gate::Xor(a, b),
            7 => Gate::Not(a),
            _ => Gate::Buf(a),
        };
        let (_, a, b) = gate_fields(gate);
        unread.retain(|line| *line != a && *line != b);
        unread.push(own as u8);
        gate
    }

    fn fault(&mut self, inputs: usize, lines: usize) -> Fault {
        if inputs > 1 && self.below(3) == 0 {
            let high = 1 + self.below(inputs - 1);
            Fault::Bridge(self.below(high) as u8, high as u8, self.below(2) == 0)
        } else {
            Fault::Stuck(self.below(lines) as u8, self.below(2) == 0)
        }
    }

    /// The output lines: those that no gate reads, and any others, in any order.
    fn outputs(&mut self, lines: usize, count: usize, mut unread: Vec<u8>) -> [u8; 4] {
        let mut outputs = [0; 4];
        for place in 0..count {
            let must_take = unread.len() >= count - place;
            outputs[place] = if must_take || (!unread.is_empty() && self.below(2) == 0) {
                self.take(&mut unread)
            } else if place > 0 && self.below(4) == 0 {
                outputs[self.below(place)]
            } else {
                self.below(lines) as u8
            };
        }
        outputs
    }

    /// A part for each of so many faults: each its own, one for all, falling, in fours, or any.
    fn parts(&mut self, faults: usize) -> Vec<u8> {
        let (scheme, one) = (self.below(7), 1 + self.below(63));
        let part = |place: usize| match scheme {
            0 | 1 => place + 1,
            2 => one,
            3 => faults - place,
            4 => 1 + (faults - 1 - place) / 4,
            5 => 1 + self.below(3),
            _ => 1 + self.below(63),
        };
        (0..faults).map(part).map(|part| part as u8).collect()
    }

    /// A job without loose gates; with `distinct`, faults that are alike are left out, but for some that get the part
    /// of the one that they equal.
    fn job(&mut self, inputs: usize, gates: usize, outputs: usize, faults: usize, distinct: bool) -> Job {
        let mut job = Job {
            inputs: inputs as u8,
            gate_count: gates as u8,
            gates: [Gate::Buf(0); 64],
            output_count: outputs as u8,
            outputs: [0; 4],
            fault_count: 0,
            faults: [FaultEntry::UNUSED; 63],
        };
        let mut unread = Vec::new();
        for q in 0..gates {
            job.gates[q] = self.gate(inputs + q, gates - q, outputs, &mut unread);
        }
        let lines = inputs + gates;
        job.outputs = self.outputs(lines, outputs, unread);
        let parts = self.parts(faults);
        let mut tables = vec![model_tables(&job, 0)];
        for _ in 0..4 * faults {
            let place = usize::from(job.fault_count);
            if place == faults {
                break;
            }
            job.faults[place] = FaultEntry { fault: self.fault(inputs, lines), part: parts[place] };
            job.fault_count += 1;
            if distinct {
                let faulty = model_tables(&job, place + 1);
                let equal = tables.iter().position(|earlier| *earlier == faulty);
                let shared = equal.map(|circuit| if circuit == 0 { 0 } else { job.faults[circuit - 1].part });
                match shared {
                    Some(part) if part == 0 || (part != parts[place] && self.below(2) == 0) => {
                        job.fault_count -= 1;
                        job.faults[place] = FaultEntry::UNUSED;
                        continue;
                    }
                    Some(part) => job.faults[place].part = part,
                    None => {}
                }
                tables.push(faulty);
            }
        }
        job
    }

    fn small_job(&mut self) -> Job {
        let (inputs, gates, faults) = (1 + self.below(5), self.below(14), self.below(12));
        let outputs = if self.below(2) == 0 { 1 } else { 2 + self.below(3) };
        let distinct = self.below(4) != 0;
        self.job(inputs, gates, outputs, faults, distinct)
    }

    fn kind(&mut self) -> Kind {
        if self.below(2) == 0 {
            Kind::Rm
        } else {
            Kind::Mrm
        }
    }

    fn numbers(&mut self, count: usize) -> Vec<u16> {
        (0..count).map(|_| self.next() as u16).collect()
    }

    fn damage(&mut self, bytes: &mut Vec<u8>) {
        match self.below(5) {
            0 => bytes.truncate(self.below(bytes.len() + 1)),
            1 => bytes.push(self.below(3) as u8),
            _ => {
                for _ in 0..1 + self.below(2) {
                    let bit = self.below(8 * bytes.len());
                    bytes[bit / 8] ^= 0x80 >> (bit % 8);
                }
            }
        }
    }
}

/// The indices and the outputs of entries.
fn lists(entries: &[Entry]) -> (Vec<u16>, Vec<u16>) {
    entries.iter().map(|entry| (entry.index, entry.output)).unzip()
}

/// Compares every operation on these bytes with the model.
fn compare(random: &mut Random, bytes: &[u8]) {
    let expected = model_read(bytes);
    assert_eq!(read(bytes), expected);
    let kind = random.kind();
    let Ok(job) = expected else {
        let number = expected.unwrap_err();
        let spoilt = random.numbers(8);
        let mut work = spoilt.clone();
        let mut out = [0x5a; 32];
        assert_eq!(table(bytes, random.below(70), random.below(6), &mut out), Err(number));
        assert_eq!(out, [0x5a; 32]);
        assert_eq!(choose(bytes, Purpose::Isolating, kind, random.below(300), &mut work), Chosen::Refused(number));
        assert_eq!(locate(bytes, kind, random.below(300), &[0], &[9], &[], &mut work), Located::Refused(number));
        assert_eq!(work, spoilt);
        assert_eq!(String::from_utf8(report(bytes)).unwrap(), format!("refused {number}\n"));
        return;
    };

    let mut out = vec![0x5a; bytes.len() + 2];
    assert_eq!(write(&job, &mut out), Ok(bytes.len()));
    assert_eq!(&out[..bytes.len()], bytes);
    assert_eq!(out[bytes.len()..], [0x5a; 2]);

    let k = random.below(1 << job.inputs);
    let model = model(&job, kind, k);
    compare_tables(bytes, &model);
    for purpose in [Purpose::Isolating, Purpose::Detecting] {
        compare_choice(random, bytes, purpose, kind, k, &model);
    }
    compare_location(random, bytes, kind, k, &model);
    assert_eq!(String::from_utf8(report(bytes)).unwrap(), model_report(bytes));
}

fn compare_tables(bytes: &[u8], model: &Model) {
    let outputs = usize::from(model.job.output_count);
    for (c, tables) in model.tables.iter().enumerate() {
        for (o, entries) in tables.iter().enumerate() {
            let packed = model_pack(entries);
            let mut out = vec![0x5a; packed.len() + 1];
            assert_eq!(table(bytes, c, o, &mut out[..packed.len() - 1]), Err(10));
            assert_eq!(table(bytes, c, o, &mut out), Ok(()));
            assert_eq!(out[..packed.len()], packed);
            assert_eq!(out[packed.len()], 0x5a);
        }
        assert_eq!(table(bytes, c, outputs, &mut []), Err(20));
    }
    assert_eq!(table(bytes, model.tables.len(), outputs, &mut []), Err(11));
}

fn compare_choice(random: &mut Random, bytes: &[u8], purpose: Purpose, kind: Kind, k: usize, model: &Model) {
    let (job, size) = (&model.job, model.size());
    let spare = random.below(5);
    let spoilt = random.numbers(size + spare);
    let mut work = spoilt.clone();
    assert_eq!(choose(bytes, purpose, kind, (1 << job.inputs) + k, &mut work), Chosen::Refused(13));
    assert_eq!(choose(bytes, purpose, kind, k, &mut work[..size - 1]), Chosen::Refused(10));
    assert_eq!(work, spoilt);
    let chosen = choose(bytes, purpose, kind, k, &mut work);
    assert_eq!(work, model.work(&spoilt));
    match (chosen, model.choose(purpose)) {
        (Chosen::Alike(a, b), Err(pair)) => assert_eq!((a, b), pair),
        (Chosen::Signature { inputs, gates, outputs, faults, count, entries }, Ok(signature)) => {
            assert_eq!((inputs, gates), (job.inputs.into(), job.gate_count.into()));
            assert_eq!((outputs, faults), (job.output_count.into(), job.fault_count.into()));
            assert_eq!(entries[..count], signature);
            assert!(entries[count..].iter().all(|entry| *entry == Entry::default()));
            assert!(count <= faults);
            if purpose == Purpose::Isolating {
                let (indices, outputs) = lists(&signature);
                for c in 0..model.spectra.len() {
                    let readings: Vec<_> = signature.iter().map(|entry| model.coefficient(c, entry)).collect();
                    let located = locate(bytes, kind, k, &indices, &outputs, &readings, &mut work);
                    assert_eq!(located, model.locate(&signature, &readings));
                    // Its part, with the lowest circuit that has these readings.
                    assert!(matches!(located, Located::Part(part, lowest) if part == model.part(c) && lowest <= c));
                }
            }
        }
        (chosen, expected) => panic!("{chosen:?}, not {expected:?}"),
    }
}

fn compare_location(random: &mut Random, bytes: &[u8], kind: Kind, k: usize, model: &Model) {
    let (places, outputs) = (1 << model.job.inputs, usize::from(model.job.output_count));
    let length = random.below(4);
    let entry =
        |random: &mut Random| Entry { index: random.below(places) as u16, output: random.below(outputs) as u16 };
    let list: Vec<_> = (0..length).map(|_| entry(random)).collect();
    let of = random.below(model.spectra.len());
    let mut readings: Vec<_> = list.iter().map(|entry| model.coefficient(of, entry)).collect();
    if length > 0 && random.below(3) == 0 {
        readings[random.below(length)] ^= 1;
    }
    let spare = random.below(5);
    let (size, spoilt) = (model.size(), random.numbers(model.size() + spare));
    let mut work = spoilt.clone();
    let (indices, outputs_of) = lists(&list);
    let mut at = |indices: &[u16], outputs: &[u16], readings: &[u16], room: usize| {
        locate(bytes, kind, k, indices, outputs, readings, &mut work[..room])
    };
    // Each list in turn with a number more.
    let more = |numbers: &[u16], number: usize| [numbers, &[number as u16]].concat();
    let all = size + spare;
    assert_eq!(at(&indices, &outputs_of, &readings, size - 1), Located::Refused(10));
    assert_eq!(at(&indices, &outputs_of, &more(&readings, 0), 0), Located::Refused(17));
    assert_eq!(at(&indices, &more(&outputs_of, outputs - 1), &readings, all), Located::Refused(17));
    assert_eq!(at(&more(&indices, places - 1), &outputs_of, &readings, all), Located::Refused(17));
    assert_eq!(at(&indices, &more(&outputs_of, 0), &more(&readings, 0), all), Located::Refused(17));
    assert_eq!(at(&more(&indices, 0), &outputs_of, &more(&readings, 0), all), Located::Refused(17));
    assert_eq!(at(&more(&indices, 0), &more(&outputs_of, 0), &readings, all), Located::Refused(17));
    assert_eq!(at(&indices, &more(&outputs_of, outputs), &[], 0), Located::Refused(20));
    assert_eq!(at(&more(&indices, places), &more(&outputs_of, outputs), &[], 0), Located::Refused(16));
    // An output that is too high before an index that is.
    assert_eq!(at(&more(&[0], places), &[outputs as u16, 0], &[], 0), Located::Refused(16));
    assert_eq!(work, spoilt);
    assert_eq!(locate(bytes, kind, k, &indices, &outputs_of, &readings, &mut work), model.locate(&list, &readings));
    assert_eq!(work, model.work(&spoilt));
}

/// How many jobs had parts of each sort.
#[derive(Debug, Default)]
struct Seen {
    /// An isolating signature, though two faults are equal.
    equal_faults: usize,
    /// An isolating signature, and unequal faults of one part.
    unequal_faults: usize,
    /// One part for all of at least two faults.
    one_part: usize,
    /// A part below the one before it.
    falling: usize,
}

impl Seen {
    fn count(&mut self, job: &Job) {
        let model = model(job, Kind::Rm, 0);
        let circuits = 1..model.tables.len();
        let pairs = || circuits.clone().flat_map(|a| (1..a).map(move |b| (a, b)));
        let has_signature = model.choose(Purpose::Isolating).is_ok();
        let equal = |(a, b): (usize, usize)| model.tables[a] == model.tables[b];
        let one_part = |(a, b): (usize, usize)| model.part(a) == model.part(b);
        self.equal_faults += usize::from(has_signature && pairs().any(equal));
        self.unequal_faults += usize::from(has_signature && pairs().any(|pair| one_part(pair) && !equal(pair)));
        self.one_part += usize::from(job.fault_count > 1 && pairs().all(one_part));
        self.falling += usize::from(pairs().any(|(a, b)| a == b + 1 && model.part(a) < model.part(b)));
    }
}

#[test]
fn small_jobs() {
    let mut random = Random(1);
    let mut seen = Seen::default();
    for _ in 0..3000 {
        let job = random.small_job();
        compare(&mut random, &model_write(&job).unwrap());
        seen.count(&job);
    }
    println!("{seen:?}");
    assert!([seen.equal_faults, seen.unequal_faults, seen.one_part, seen.falling].iter().all(|count| *count > 200));
}

#[test]
fn damaged_jobs() {
    let mut random = Random(2);
    let mut seen = [0; 22];
    for _ in 0..6000 {
        let job = random.small_job();
        let mut bytes = model_write(&job).unwrap();
        random.damage(&mut bytes);
        seen[model_read(&bytes).err().unwrap_or(0) as usize] += 1;
        compare(&mut random, &bytes);
    }
    assert!((0..10).chain([19, 21]).all(|number| seen[number] > 0), "{seen:?}");
}

#[test]
fn large_jobs() {
    let mut random = Random(3);
    for turn in 0..24 {
        let (inputs, gates) = (6 + turn % 3, 64 - random.below(30));
        let outputs = [1, 4, 2, 3][turn % 4];
        let job = random.job(inputs, gates, outputs, if turn < 6 { 63 } else { 20 }, turn % 4 != 0);
        compare(&mut random, &model_write(&job).unwrap());
    }
}

/// Jobs of a certain length but any content.
#[test]
fn any_bytes() {
    let mut random = Random(4);
    for _ in 0..20000 {
        let length = random.below(40);
        let mut bytes: Vec<_> = (0..length).map(|_| random.next() as u8).collect();
        if length > 1 {
            // Mostly few gates and lines, so that reading gets further.
            bytes[0] = ((1 + random.below(8)) << 4) as u8;
            bytes[1] &= 0x3f;
        }
        compare(&mut random, &bytes);
    }
}

#[test]
fn records() {
    let mut random = Random(5);
    let mut seen = [0; 22];
    for _ in 0..6000 {
        let mut job = random.small_job();
        for _ in 0..random.below(3) {
            let any = if random.below(2) == 0 { random.below(12) } else { random.below(256) } as u8;
            let place = random.below(14);
            match random.below(9) {
                0 => job.inputs = any,
                1 => job.gate_count = any,
                2 => job.outputs[random.below(4)] = any,
                3 => job.fault_count = any,
                7 => job.output_count = any,
                4 => job.gates[place] = Gate::Xor(any, 0),
                5 => job.faults[place].fault = Fault::Stuck(any, true),
                6 => job.faults[place].fault = Fault::Bridge(any, random.below(9) as u8, true),
                _ => job.faults[place].part = random.below(100) as u8,
            }
        }
        let expected = model_write(&job);
        let mut out = [0x5a; 320];
        match &expected {
            Err(number) => assert_eq!(write(&job, &mut out), Err(*number)),
            Ok(bytes) => assert_eq!(write(&job, &mut out[..bytes.len() - 1]), Err(10)),
        }
        assert_eq!(out, [0x5a; 320]);
        if let Ok(bytes) = &expected {
            assert_eq!(write(&job, &mut out), Ok(bytes.len()));
            assert_eq!(&out[..bytes.len()], bytes);
            assert!(out[bytes.len()..].iter().all(|byte| *byte == 0x5a));
        }
        seen[expected.err().unwrap_or(0) as usize] += 1;
    }
    assert!([0, 2, 3, 4, 20, 6, 19, 18, 7, 8, 21].iter().all(|number| seen[*number] > 0), "{seen:?}");
}

fn compare_table(entries: &[bool], kind: Kind, k: usize) {
    let inputs = entries.len().trailing_zeros() as usize;
    let packed = model_pack(entries);
    let coefficients = model_spectrum(entries, kind, k);
    let mut out = vec![7; entries.len() + 3];
    assert_eq!(spectrum(inputs, &packed, kind, k, &mut out), Ok(()));
    assert_eq!(out[..entries.len()], coefficients);
    assert_eq!(out[entries.len()..], [7; 3]);
    compare_undo(&coefficients, kind, k);
}

fn compare_undo(numbers: &[u16], kind: Kind, k: usize) {
    let inputs = numbers.len().trailing_zeros() as usize;
    let mut out = [0x5a; 34];
    match model_undo(numbers, kind, k) {
        None => {
            assert_eq!(undo(inputs, numbers, kind, k, &mut out), Err(14));
            assert_eq!(undo(inputs, numbers, kind, k, &mut []), Err(14));
            assert_eq!(out, [0x5a; 34]);
        }
        Some(entries) => {
            let packed = model_pack(&entries);
            assert_eq!(undo(inputs, numbers, kind, k, &mut out[..packed.len() - 1]), Err(10));
            assert_eq!(out, [0x5a; 34]);
            assert_eq!(undo(inputs, numbers, kind, k, &mut out), Ok(()));
            assert_eq!(out[..packed.len()], packed);
            assert!(out[packed.len()..].iter().all(|byte| *byte == 0x5a));
        }
    }
}

/// Every table of up to three inputs in every polarity.
#[test]
fn small_tables() {
    for inputs in 1..=3 {
        let places = 1usize << inputs;
        for table in 0..1usize << places {
            let entries: Vec<_> = (0..places).map(|m| table >> m & 1 == 1).collect();
            for k in 0..places {
                compare_table(&entries, Kind::Rm, k);
                compare_table(&entries, Kind::Mrm, k);
            }
        }
    }
}

/// Tables of up to eight inputs, constant ones too, and spectra with a wrong number.
#[test]
fn random_tables() {
    let mut random = Random(6);
    for turn in 0..600 {
        let places = 2usize << (turn % 8);
        let density = [0, 1, 4, 7, 8][random.below(5)];
        let entries: Vec<_> = (0..places).map(|_| random.below(8) < density).collect();
        let (kind, k) = (random.kind(), random.below(places));
        compare_table(&entries, kind, k);
        let mut numbers = model_spectrum(&entries, kind, k);
        let place = random.below(places);
        numbers[place] = numbers[place].wrapping_add([1, 2, 256, 65535, 32768][random.below(5)]);
        compare_undo(&numbers, kind, k);
    }
}

/// All short lists of small numbers: exactly the spectra of some table are undone.
#[test]
fn small_spectra() {
    for kind in [Kind::Rm, Kind::Mrm] {
        for k in 0..4 {
            let entries = |table: usize| (0..4).map(|m| table >> m & 1 == 1).collect::<Vec<_>>();
            let spectra: Vec<_> = (0..16).map(|table| model_spectrum(&entries(table), kind, k)).collect();
            for code in 0..6u16.pow(4) {
                let numbers = [code % 6, code / 6 % 6, code / 36 % 6, code / 216];
                let mut out = [0];
                match spectra.iter().position(|spectrum| *spectrum == numbers) {
                    None => assert_eq!(undo(2, &numbers, kind, k, &mut out), Err(14)),
                    Some(table) => {
                        assert_eq!(undo(2, &numbers, kind, k, &mut out), Ok(()));
                        assert_eq!(out[..], model_pack(&entries(table)));
                    }
                }
            }
        }
    }
}
