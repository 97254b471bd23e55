//! Every exported operation but the report against the reference, on seeded calls.

use differential::compare::{Comparison, Entry, Kind, List, Operation, Purpose, NUMBERS};
use differential::jobs::{any_job, any_outputs, chained_job, encode, loose_job, parted_job, sized_job};
use differential::jobs::{small_job, Circuit, Fault, Field, Parts};
use differential::random::Random;
use reference::Located;

const KINDS: [Kind; 2] = [Kind::Rm, Kind::Mrm];
const PURPOSES: [Purpose; 2] = [Purpose::Isolating, Purpose::Detecting];

/// Numbers whose low bits alone would be in range.
fn beyond(random: &mut Random, least: usize) -> usize {
    match random.below(5) {
        0 => least,
        1 => least + random.below(300),
        2 => usize::MAX - random.below(3),
        3 => random.below(least.min(256)) + (1 << random.pick(&[8, 16, 31, 32, 63])),
        _ => (random.number() as usize).max(least),
    }
}

/// Mostly below the limit.
fn around(random: &mut Random, limit: usize) -> usize {
    if random.once_in(6) {
        beyond(random, limit)
    } else {
        random.below(limit)
    }
}

/// Mostly enough room; else from none up.
fn room(random: &mut Random, enough: usize) -> usize {
    match random.below(10) {
        0 => 0,
        1 => enough - 1,
        2 => random.below(enough),
        3 => enough + 1,
        4 => enough + random.below(40),
        _ => enough,
    }
}

/// The counts that say which arguments a job allows and how much memory it needs.
#[derive(Clone, Copy)]
struct Counts {
    inputs: usize,
    outputs: usize,
    faults: usize,
}

impl Counts {
    /// Those of a job that may be damaged: its own, or any.
    fn new(random: &mut Random, bytes: &[u8]) -> Counts {
        match reference::read(bytes) {
            Ok(job) => {
                Counts { inputs: job.inputs.into(), outputs: job.output_count.into(), faults: job.fault_count.into() }
            }
            Err(_) => Counts { inputs: 1 + random.below(8), outputs: 1 + random.below(4), faults: random.below(12) },
        }
    }

    fn places(self) -> usize {
        1 << self.inputs
    }

    fn work(self) -> usize {
        (self.faults + 1) * self.outputs * self.places()
    }

    fn any_entry(self, random: &mut Random) -> Entry {
        Entry { index: random.below(self.places()) as u16, output: random.below(self.outputs) as u16 }
    }

    /// What a circuit reads at entries, the work holding the spectra of all circuits.
    fn readings(self, work: &[u16], circuit: usize, entries: &[Entry]) -> Vec<u16> {
        let place = |entry: &Entry| {
            (circuit * self.outputs + usize::from(entry.output)) * self.places() + usize::from(entry.index)
        };
        entries.iter().map(|entry| work[place(entry)]).collect()
    }
}

/// The spectra of all circuits, if the bytes are a job and the polarity is one of it.
fn spectra_of(counts: Counts, bytes: &[u8], kind: Kind, polarity: usize) -> Vec<u16> {
    let mut work = vec![0; counts.work()];
    reference::locate(bytes, kind, polarity, &[], &[], &[], &mut work);
    work
}

/// A list of entries and its readings, all mostly as they should be. `work` holds the spectra of all circuits.
fn list(random: &mut Random, counts: Counts, work: &[u16]) -> List {
    let length = match random.below(8) {
        0 => 0,
        1 => random.below(400),
        _ => random.below(9),
    };
    let entries: Vec<Entry> = (0..length).map(|_| counts.any_entry(random)).collect();
    let circuit = random.below(counts.faults + 1);
    let mut list = List::new(&entries, counts.readings(work, circuit, &entries));
    if length > 0 && random.once_in(5) {
        let last = length - 1;
        list.readings[random.pick(&[0, last, last / 2])] ^= random.pick(&[1, 2, 0x100, 0x8000]);
    }
    if length > 0 && random.once_in(8) {
        let place = random.below(length);
        list.indices[place] = beyond(random, counts.places()).min(0xffff) as u16;
    }
    if length > 0 && random.once_in(8) {
        let place = random.below(length);
        list.outputs[place] = beyond(random, counts.outputs).min(0xffff) as u16;
    }
    match random.below(20) {
        0 => list.readings.push(random.below(3) as u16),
        1 => drop(list.readings.pop()),
        2 => list.indices.push(random.below(counts.places()) as u16),
        3 => drop(list.indices.pop()),
        4 => list.outputs.push(random.below(counts.outputs) as u16),
        5 => drop(list.outputs.pop()),
        6 => list.readings.clear(),
        7 => list.outputs.clear(),
        _ => {}
    }
    list
}

/// Makes every call that takes a job, each once or twice, with random arguments.
fn every_call(to: &mut Comparison, bytes: &[u8]) {
    let counts = Counts::new(&mut to.random, bytes);
    let places = counts.places();
    to.check(bytes);
    let lent = room(&mut to.random, bytes.len().max(1));
    to.rewrite(bytes, lent);
    for _ in 0..2 {
        let circuit = around(&mut to.random, counts.faults + 1);
        let output = around(&mut to.random, counts.outputs);
        let lent = room(&mut to.random, usize::div_ceil(places, 8));
        to.table(bytes, circuit, output, lent);
    }
    for purpose in PURPOSES {
        let kind = to.random.pick(&KINDS);
        let polarity = around(&mut to.random, places);
        let lent = room(&mut to.random, counts.work());
        let signature = to.choose(bytes, purpose, kind, polarity, lent);
        if let (Some(signature), Purpose::Isolating) = (signature, purpose) {
            name_part(to, bytes, kind, polarity, &signature);
        }
    }
    let (kind, polarity) = (to.random.pick(&KINDS), around(&mut to.random, places));
    let work = spectra_of(counts, bytes, kind, polarity);
    let list = list(&mut to.random, counts, &work);
    let lent = room(&mut to.random, counts.work());
    to.locate(bytes, kind, polarity, &list, lent);
}

/// The part of each circuit of a job.
fn parts_of(bytes: &[u8]) -> Vec<usize> {
    let job = reference::read(bytes).expect("a valid job");
    let faults = &job.faults[..job.fault_count.into()];
    [0].into_iter().chain(faults.iter().map(|entry| usize::from(entry.part))).collect()
}

/// The readings of a circuit for an isolating signature name its part, and the lowest circuit that has them.
fn name_part(to: &mut Comparison, bytes: &[u8], kind: Kind, polarity: usize, signature: &[Entry]) {
    let counts = Counts::new(&mut to.random, bytes);
    let work = spectra_of(counts, bytes, kind, polarity);
    let circuit = to.random.below(counts.faults + 1);
    let readings = counts.readings(&work, circuit, signature);
    let lowest = (0..circuit).find(|lower| counts.readings(&work, *lower, signature) == readings).unwrap_or(circuit);
    let list = List::new(signature, readings);
    let located = to.locate(bytes, kind, polarity, &list, work.len());
    assert_eq!(located, Some(Located::Part(parts_of(bytes)[circuit], lowest)));
}

/// Bytes that are no job any more, mostly.
fn damage(random: &mut Random, fields: &[Field]) -> Vec<u8> {
    let mut fields = fields.to_vec();
    if random.once_in(2) {
        for _ in 0..1 + random.below(2) {
            let place = random.below(fields.len());
            let any = random.below(1 << fields[place].width) as u8;
            fields[place].value = if random.once_in(3) { 0 } else { any };
        }
        return encode(&fields);
    }
    let mut bytes = encode(&fields);
    match random.below(4) {
        0 => bytes.truncate(random.below(bytes.len())),
        1 => {
            let count = 1 + random.below(4);
            let value = random.pick(&[0, 0, 1, 0x80, 0xff]);
            bytes.extend(vec![value; count]);
        }
        _ => {
            for _ in 0..1 + random.below(3) {
                let bit = random.below(8 * bytes.len());
                bytes[bit / 8] ^= 0x80 >> (bit % 8);
            }
        }
    }
    bytes
}

/// A spectrum and undoing with random arguments.
fn spectra(to: &mut Comparison) {
    let inputs = 1 + to.random.below(8);
    let places = 1usize << inputs;
    let (mut table, kind) = (to.random.bytes(places.div_ceil(8)), to.random.pick(&KINDS));
    if places < 8 {
        table[0] &= !(0xff >> places);
    }
    let polarity = to.random.below(places);
    let mut numbers = vec![0; places];
    reference::spectrum(inputs, &table, kind, polarity, &mut numbers).expect("a table");

    match to.random.below(16) {
        0 => drop(table.pop()),
        1 => table.push(0),
        2 => table[0] ^= 1 << to.random.below(8),
        _ => {}
    }
    let (given, lent) = (around(&mut to.random, places), room(&mut to.random, places));
    let of = if to.random.once_in(8) { beyond(&mut to.random, 9) } else { inputs };
    let of = if to.random.once_in(16) { to.random.below(10) } else { of };
    to.spectrum(of, &table, kind, given, lent);

    match to.random.below(12) {
        0 => drop(numbers.pop()),
        1 => numbers.push(0),
        2 => numbers.clear(),
        3 => numbers = to.random.numbers(places),
        4 => numbers = (0..places).map(|_| to.random.below(2) as u16).collect(),
        5 | 6 => {
            let place = to.random.below(places);
            numbers[place] = numbers[place].wrapping_add(to.random.pick(&[1, 2, 0x100, 0x8000, 0xfffe, 0xffff]));
        }
        _ => {}
    }
    let given = if to.random.once_in(3) { around(&mut to.random, places) } else { polarity };
    let lent = room(&mut to.random, places.div_ceil(8));
    let kind = if to.random.once_in(8) { to.random.pick(&KINDS) } else { kind };
    to.undo(of, &numbers, kind, given, lent);
}

/// Each operation meets each of its refusals, and success, and no other refusal.
#[test]
fn every_refusal_of_every_operation() {
    let mut to = Comparison::new(1);
    for turn in 0..50_000 {
        let fields = match turn % 40 {
            0 => sized_job(&mut to.random),
            1 | 2 => loose_job(&mut to.random),
            _ => small_job(&mut to.random),
        };
        let bytes = if turn % 5 < 2 { encode(&fields) } else { damage(&mut to.random, &fields) };
        every_call(&mut to, &bytes);
        spectra(&mut to);
    }
    println!("{}", to.tally);
    for operation in Operation::ALL {
        for number in 0..NUMBERS {
            let count = to.tally.of(operation, number);
            let has = number == 0 || operation.refusals().contains(&number);
            assert_eq!(count > 0, has, "{operation:?} answered {number} {count} times");
        }
    }
}

/// Every call with bytes whose refusal by reading is known.
fn refused_by_reading(to: &mut Comparison, bytes: &[u8], number: u8) {
    assert_eq!(reference::read(bytes).err(), Some(number), "{bytes:02x?}");
    every_call(to, bytes);
}

/// Loose gates in circuits of every size: after an output that is no line, before the fault count is read.
#[test]
fn loose_gates_in_turn() {
    let mut to = Comparison::new(12);
    let (mut outputs_on_inputs, mut cut_jobs, mut later_outputs) = (0, 0, 0);
    for _ in 0..4000 {
        let (inputs, gates, outputs) = (1 + to.random.below(8), 1 + to.random.below(64), any_outputs(&mut to.random));
        let tight = Circuit::any(&mut to.random, inputs, gates, outputs);
        let loose = tight.clone().loosened(&mut to.random);
        let count = to.random.below(4);
        let faults = tight.any_faults(&mut to.random, count);
        assert!(reference::read(&tight.bytes(&faults)).is_ok());
        refused_by_reading(&mut to, &loose.bytes(&faults), 19);
        outputs_on_inputs += usize::from(loose.outputs.iter().any(|line| usize::from(*line) < inputs));

        // The last output line ends in the last of these bytes, and mostly the fault count doesn't.
        let fault_count = 4 + 7 + 17 * gates + 2 + 7 * outputs;
        let length = fault_count.div_ceil(8);
        if 8 * length < fault_count + 6 {
            refused_by_reading(&mut to, &tight.bytes(&faults)[..length], 1);
            refused_by_reading(&mut to, &loose.bytes(&faults)[..length], 19);
            cut_jobs += 1;
        }
        refused_by_reading(&mut to, &loose.bytes(&faults)[..length - 1], 1);

        let mut none = loose.clone();
        let place = to.random.below(outputs);
        none.outputs[place] = (loose.lines() + to.random.below(128 - loose.lines())) as u8;
        refused_by_reading(&mut to, &none.bytes(&faults), 6);

        // What the last output alone depends on is loose without it.
        let mut fewer = tight.clone();
        fewer.outputs.truncate(outputs.max(2) - 1);
        every_call(&mut to, &fewer.bytes(&faults));
        later_outputs += usize::from(reference::read(&fewer.bytes(&faults)) == Err(19));
    }
    println!("outputs on inputs {outputs_on_inputs}, 19 before 1 {cut_jobs}, by a later output {later_outputs}");
    assert!([outputs_on_inputs, cut_jobs, later_outputs].iter().all(|count| *count > 0));
}

/// Each output is judged as soon as it is read: the fields behind one that is no line don't matter, nor do the gates.
#[test]
fn outputs_in_turn() {
    let mut to = Comparison::new(13);
    let mut cut_jobs = [0; 4];
    for turn in 0..2000 {
        let (inputs, gates, outputs) = (1 + to.random.below(8), to.random.below(20), 1 + turn % 4);
        let mut circuit = Circuit::any(&mut to.random, inputs, gates, outputs);
        let count = to.random.below(4);
        let faults = circuit.any_faults(&mut to.random, count);
        let place = to.random.below(outputs);
        // The bytes up to the end of an output, and without its last bit.
        let ends = |place: usize| (4 + 7 + 17 * gates + 2 + 7 * (place + 1)).div_ceil(8);
        let whole = circuit.bytes(&faults);
        refused_by_reading(&mut to, &whole[..ends(place) - 1], 1);
        let line = circuit.lines() + if turn % 8 < 4 { 0 } else { to.random.below(128 - circuit.lines()) };
        circuit.outputs[place] = line as u8;
        let bytes = circuit.bytes(&faults);
        refused_by_reading(&mut to, &bytes, 6);
        refused_by_reading(&mut to, &bytes[..ends(place)], 6);
        refused_by_reading(&mut to, &bytes[..ends(place) - 1], 1);
        if ends(outputs - 1) > ends(place) {
            cut_jobs[place] += 1;
        }
    }
    println!("6 before 1, by output {cut_jobs:?}");
    assert!(cut_jobs[..3].iter().all(|count| *count > 0));
}

/// A fault of a circuit spoilt so that reading gives the number; its part is as given.
fn spoilt(random: &mut Random, circuit: &Circuit, number: u8, part: u8) -> Fault {
    let (inputs, lines) = (circuit.inputs, circuit.lines());
    let (line, input) = (random.below(lines) as u8, random.below(inputs) as u8);
    let mut beyond = |least: usize| (least + random.below(128 - least)) as u8;
    let (no_line, no_input) = (beyond(lines), beyond(inputs));
    let (stuck, bridge) = (random.below(2) as u8, 2 + random.below(2) as u8);
    let choices = match number {
        // A stuck fault is judged by line a, a bridge by both.
        7 => [[stuck, no_line, no_line], [stuck, no_line, line], [bridge, input, no_input], [bridge, no_input, input]],
        8 => [[stuck, line, no_line], [stuck, line, line ^ 1], [bridge, input, input], [bridge, input, 0]],
        _ => [[stuck, line, line]; 4],
    };
    let [kind, a, b] = random.pick(&choices);
    [kind, a, b, part]
}

/// Per fault 7, 8 and 21 in turn, once all four of its fields are there: a job that ends inside a part is cut, whatever
/// stands before it.
#[test]
fn parts_in_turn() {
    let mut to = Comparison::new(16);
    let mut cut_inside = [0; 6];
    for turn in 0..4000 {
        let (inputs, gates, outputs) = (1 + to.random.below(8), to.random.below(8), any_outputs(&mut to.random));
        let circuit = Circuit::any(&mut to.random, inputs, gates, outputs);
        let count = 1 + to.random.below(6);
        let mut faults = circuit.any_faults(&mut to.random, count);
        let place = to.random.below(faults.len());
        let number = [7, 8, 21, 0][turn % 4];
        // Of the part's own refusal the part is 0; of the others it is 0 as often as not.
        let part = if number == 21 || (number > 0 && turn % 8 < 4) { 0 } else { 1 + to.random.below(63) as u8 };
        faults[place] = spoilt(&mut to.random, &circuit, number, part);
        let bytes = circuit.bytes(&faults);
        if number == 0 {
            assert!(reference::read(&bytes).is_ok(), "{bytes:02x?}");
            every_call(&mut to, &bytes);
        } else {
            refused_by_reading(&mut to, &bytes, number);
            // What is wrong with a later fault doesn't matter.
            for later in &mut faults[place + 1..] {
                let number = to.random.pick(&[7, 8, 21]);
                *later = spoilt(&mut to.random, &circuit, number, 0);
            }
            refused_by_reading(&mut to, &circuit.bytes(&faults), number);
        }
        // The bytes that end inside the part, or right before it.
        let end = 4 + 7 + 17 * gates + 2 + 7 * outputs + 6 + 22 * (place + 1);
        let length = (end - 1) / 8;
        if 8 * length >= end - 6 {
            refused_by_reading(&mut to, &bytes[..length], 1);
            cut_inside[8 * length - (end - 6)] += 1;
        }
    }
    println!("cut inside a part, by bits of it that are there: {cut_inside:?}");
    assert!(cut_inside.iter().all(|count| *count > 100));
}

/// Lists whose faults share parts: equal ones, for which no signature is refused, and unequal ones.
#[test]
fn shared_parts() {
    let mut to = Comparison::new(17);
    let mut seen = Sorts::default();
    for turn in 0..3000 {
        let (inputs, gates, outputs) = (1 + to.random.below(6), to.random.below(24), any_outputs(&mut to.random));
        let circuit = Circuit::any(&mut to.random, inputs, gates, outputs);
        let most = to.random.below(if turn % 10 == 0 { 64 } else { 16 });
        let one = 1 + to.random.below(63) as u8;
        let parts = match turn % 6 {
            0 => Parts::One(one),
            1 => Parts::Falling,
            2 => Parts::Fours,
            3 => Parts::Among(2),
            4 => Parts::Among(63),
            _ => Parts::Own,
        };
        let faults = match turn % 7 {
            0 => circuit.any_faults(&mut to.random, most),
            1 => circuit.distinct_faults(&mut to.random, most, parts, None),
            _ => circuit.distinct_faults(&mut to.random, most, parts, Some(1 + turn % 2)),
        };
        let bytes = circuit.bytes(&faults);
        let counts = Counts::new(&mut to.random, &bytes);
        for kind in KINDS {
            let polarity = to.random.below(counts.places());
            for purpose in PURPOSES {
                let signature = to.choose(&bytes, purpose, kind, polarity, counts.work());
                let Some(signature) = signature else { continue };
                assert!(signature.len() <= faults.len());
                if purpose == Purpose::Isolating {
                    seen.count(&bytes, &spectra_of(counts, &bytes, kind, polarity));
                }
                locate_all(&mut to, counts, &bytes, kind, polarity, &signature, &mut seen);
            }
        }
        seen.alike += usize::from(to.tally.of(Operation::Choose, 15) > seen.refused);
        seen.refused = to.tally.of(Operation::Choose, 15);
    }
    println!("{seen:?}");
    let counts = [seen.equal, seen.unequal, seen.one_part, seen.falling, seen.alike];
    assert!(counts.iter().all(|count| *count > 100), "{seen:?}");
    let located = [seen.located, seen.lower, seen.several, seen.several_faults, seen.nowhere];
    assert!(located.iter().all(|count| *count > 100), "{seen:?}");
}

/// How many jobs and answers of each sort there were.
#[derive(Debug, Default)]
struct Sorts {
    /// An isolating signature of a list with two equal faults.
    equal: usize,
    /// Of a list with unequal faults of one part.
    unequal: usize,
    /// Of a list of two faults or more, all of one part.
    one_part: usize,
    /// Of a list in which a part is below the one before it.
    falling: usize,
    /// Jobs refused as alike, and the calls so refused.
    alike: usize,
    refused: usize,
    /// A part was located, and it was so with a lower circuit than the one that gave the readings.
    located: usize,
    lower: usize,
    /// Circuits of several parts agreed, and they did without the good one.
    several: usize,
    several_faults: usize,
    nowhere: usize,
}

impl Sorts {
    /// A job that has an isolating signature, by the spectra of its circuits.
    fn count(&mut self, bytes: &[u8], work: &[u16]) {
        let parts = parts_of(bytes);
        let rows: Vec<_> = work.chunks_exact(work.len() / parts.len()).collect();
        let pairs = || (2..parts.len()).flat_map(|b| (1..b).map(move |a| (a, b)));
        self.equal += usize::from(pairs().any(|(a, b)| rows[a] == rows[b]));
        self.unequal += usize::from(pairs().any(|(a, b)| parts[a] == parts[b] && rows[a] != rows[b]));
        self.one_part += usize::from(parts.len() > 2 && pairs().all(|(a, b)| parts[a] == parts[b]));
        self.falling += usize::from(parts[1..].windows(2).any(|two| two[1] < two[0]));
    }
}

/// The readings of every circuit at the first few entries of a signature, and with the last reading changed.
fn locate_all(
    to: &mut Comparison,
    counts: Counts,
    bytes: &[u8],
    kind: Kind,
    polarity: usize,
    signature: &[Entry],
    seen: &mut Sorts,
) {
    let work = spectra_of(counts, bytes, kind, polarity);
    for (circuit, own_part) in parts_of(bytes).into_iter().enumerate() {
        let entries = &signature[..to.random.below(signature.len() + 1)];
        let mut list = List::new(entries, counts.readings(&work, circuit, entries));
        match to.locate(bytes, kind, polarity, &list, work.len()) {
            Some(Located::Part(part, lowest)) => {
                assert_eq!(part, own_part);
                seen.located += 1;
                seen.lower += usize::from(lowest < circuit);
            }
            Some(Located::Several(lowest, count)) => {
                assert!(lowest <= circuit && count > 1);
                seen.several += 1;
                seen.several_faults += usize::from(lowest > 0);
            }
            other => panic!("{other:?}"),
        }
        if let Some(last) = list.readings.last_mut() {
            *last ^= 0x100;
            assert_eq!(to.locate(bytes, kind, polarity, &list, work.len()), Some(Located::Nowhere));
            seen.nowhere += 1;
        }
    }
}

/// The arguments of tables and of locating, of which several can be refused: the first number counts.
#[test]
fn arguments_in_turn() {
    let mut to = Comparison::new(14);
    for _ in 0..3000 {
        let bytes = encode(&small_job(&mut to.random));
        let counts = Counts::new(&mut to.random, &bytes);
        let (places, work) = (counts.places(), counts.work());
        let (size, good) = (usize::div_ceil(places, 8), counts.any_entry(&mut to.random));
        let (index, output) = (usize::from(good.index), usize::from(good.output));
        let circuit = to.random.below(counts.faults + 1);
        let (no_circuit, no_output) =
            (beyond(&mut to.random, counts.faults + 1), beyond(&mut to.random, counts.outputs));
        let (no_polarity, no_index) = (beyond(&mut to.random, places), beyond(&mut to.random, places));
        for (circuit, output, lent, number) in [
            (no_circuit, no_output, size - 1, 11),
            (circuit, no_output, size - 1, 20),
            (circuit, output, size - 1, 10),
            (circuit, output, size, 0),
        ] {
            let before = to.tally.of(Operation::Table, number);
            to.table(&bytes, circuit, output, lent);
            assert_eq!(to.tally.of(Operation::Table, number), before + 1, "table's {number} of {bytes:02x?}");
        }

        let number = |value: usize| value.min(0xffff) as u16;
        let (no_output, no_index) = (number(no_output), number(no_index));
        let (index, output) = (number(index), number(output));
        let polarity = to.random.below(places);
        for (polarity, indices, outputs, readings, lent, number) in [
            (no_polarity, vec![no_index], vec![no_output, 0], vec![], work - 1, 13),
            // 16 for any index, though an output before it is too high.
            (polarity, vec![index, no_index], vec![no_output], vec![], work - 1, 16),
            (polarity, vec![index, index, no_index], vec![no_output, output, output], vec![0; 3], work, 16),
            (polarity, vec![index], vec![output, no_output], vec![], work - 1, 20),
            (polarity, vec![], vec![no_output], vec![0], work, 20),
            (polarity, vec![index, index], vec![output, no_output], vec![0; 2], work, 20),
            // 17 wherever one of the three is longer or shorter.
            (polarity, vec![index], vec![output, output], vec![0], work - 1, 17),
            (polarity, vec![index, index], vec![output], vec![0], work - 1, 17),
            (polarity, vec![index], vec![output], vec![0; 2], work - 1, 17),
            (polarity, vec![index], vec![output, output], vec![0; 2], work, 17),
            (polarity, vec![index, index], vec![output], vec![0; 2], work, 17),
            (polarity, vec![index, index], vec![output, output], vec![0], work, 17),
            (polarity, vec![], vec![output], vec![], work, 17),
            (polarity, vec![index], vec![output], vec![0], work - 1, 10),
            (polarity, vec![index], vec![output], vec![0], work, 0),
        ] {
            let list = List { indices, outputs, readings };
            let before = to.tally.of(Operation::Locate, number);
            to.locate(&bytes, KINDS[circuit % 2], polarity, &list, lent);
            assert_eq!(to.tally.of(Operation::Locate, number), before + 1, "{list:?} gives no {number}");
        }
    }
}

#[test]
fn jobs_of_every_size() {
    let mut to = Comparison::new(2);
    let (mut by_outputs, mut repeats, mut on_inputs) = ([0; 5], 0, 0);
    for _ in 0..4000 {
        let bytes = encode(&sized_job(&mut to.random));
        every_call(&mut to, &bytes);
        let job = reference::read(&bytes).expect("a valid job");
        let outputs = &job.outputs[..job.output_count.into()];
        by_outputs[outputs.len()] += 1;
        repeats += usize::from((1..outputs.len()).any(|place| outputs[..place].contains(&outputs[place])));
        on_inputs += usize::from(job.gate_count > 0 && outputs.iter().any(|line| *line < job.inputs));
    }
    println!("jobs by outputs {by_outputs:?}, with one twice {repeats}, with one on an input {on_inputs}");
    assert!(by_outputs[1..].iter().chain([&repeats, &on_inputs]).all(|count| *count > 0));
}

/// The most inputs, gates and faults, no two circuits equal: all kinds and purposes, and every table.
#[test]
fn full_jobs() {
    let mut to = Comparison::new(3);
    let mut entries_by_output = [0; 4];
    for turn in 0..100 {
        let (inputs, outputs) = ([8, 7, 6, 5][turn % 4], 1 + turn / 4 % 4);
        let parts = if turn % 2 == 0 { Parts::Own } else { Parts::any(&mut to.random) };
        let bytes = parted_job(&mut to.random, [inputs, 64, outputs, 63], parts);
        for circuit in 0..64 {
            for output in 0..outputs {
                to.table(&bytes, circuit, output, 32);
            }
        }
        for kind in KINDS {
            for purpose in PURPOSES {
                let polarity = to.random.below(1 << inputs);
                let work = (64 * outputs) << inputs;
                let signature = to.choose(&bytes, purpose, kind, polarity, work).expect("distinct circuits");
                signature.iter().for_each(|entry| entries_by_output[usize::from(entry.output)] += 1);
                if purpose == Purpose::Isolating {
                    name_part(&mut to, &bytes, kind, polarity, &signature);
                }
            }
        }
    }
    println!("entries by output {entries_by_output:?}");
    assert!(entries_by_output.iter().all(|count| *count > 0));
}

/// Signatures near the most entries that there can be, by entries of every output.
#[test]
fn long_signatures() {
    let mut to = Comparison::new(15);
    for (inputs, products) in [(8, 7), (7, 8), (6, 8)] {
        let bytes = chained_job(inputs, products);
        for kind in KINDS {
            for purpose in PURPOSES {
                let signature = to.choose(&bytes, purpose, kind, 0, 256 << inputs).expect("distinct circuits");
                if purpose == Purpose::Isolating {
                    println!("{inputs} inputs, {kind:?}: {} entries", signature.len());
                    assert!(signature.len() >= 40);
                    name_part(&mut to, &bytes, kind, 0, &signature);
                }
            }
        }
    }
}

/// Every circuit, output, polarity, kind and purpose of small jobs.
#[test]
fn all_arguments_of_small_jobs() {
    let mut to = Comparison::new(4);
    for turn in 0..150 {
        let (inputs, gates, faults) = (1 + turn % 4, to.random.below(10), to.random.below(8));
        let bytes = encode(&any_job(&mut to.random, inputs, gates, faults));
        let counts = Counts::new(&mut to.random, &bytes);
        let (places, enough) = (counts.places(), counts.work());
        for circuit in 0..faults + 2 {
            for output in 0..counts.outputs + 2 {
                to.table(&bytes, circuit, output, 2);
            }
        }
        for polarity in 0..places + 2 {
            for kind in KINDS {
                for purpose in PURPOSES {
                    to.choose(&bytes, purpose, kind, polarity, enough);
                }
                for index in 0..places as u16 + 2 {
                    for output in 0..counts.outputs as u16 + 1 {
                        for reading in 0..3 {
                            let list = List::new(&[Entry { index, output }], vec![reading]);
                            to.locate(&bytes, kind, polarity, &list, enough);
                        }
                    }
                }
            }
        }
    }
}

/// Every value of every field, the others as they were.
#[test]
fn every_value_of_every_field() {
    let mut to = Comparison::new(5);
    for _ in 0..5 {
        let fields = any_job(&mut to.random, 3, 4, 4);
        for place in 0..fields.len() {
            let mut fields = fields.clone();
            for value in 0..=u8::MAX >> (8 - fields[place].width) {
                fields[place].value = value;
                every_call(&mut to, &encode(&fields));
            }
        }
    }
}

/// Every bit flipped, every shorter length, every spare bit, and bytes after the end.
#[test]
fn every_bit_and_every_length() {
    let mut to = Comparison::new(6);
    for turn in 0..100 {
        let fields = if turn == 0 { any_job(&mut to.random, 8, 64, 63) } else { small_job(&mut to.random) };
        let bytes = encode(&fields);
        for bit in 0..8 * bytes.len() {
            let mut bytes = bytes.clone();
            bytes[bit / 8] ^= 0x80 >> (bit % 8);
            every_call(&mut to, &bytes);
        }
        for length in 0..bytes.len() {
            every_call(&mut to, &bytes[..length]);
        }
        for after in [0, 1, 0x80, 0xff] {
            for count in [1, 2, 3, 300] {
                let mut bytes = bytes.clone();
                bytes.extend(vec![after; count]);
                every_call(&mut to, &bytes);
            }
        }
    }
}

/// Bytes of any content; the first two such that reading mostly gets further.
#[test]
fn any_bytes() {
    let mut to = Comparison::new(7);
    for _ in 0..40_000 {
        let length = if to.random.once_in(20) { to.random.below(300) } else { to.random.below(24) };
        let mut bytes = to.random.bytes(length);
        if length > 1 && !to.random.once_in(4) {
            bytes[0] = ((1 + to.random.below(8)) << 4) as u8;
            bytes[1] &= 0x7f;
        }
        every_call(&mut to, &bytes);
    }
}

/// Lent memory of every length from none to more than enough.
#[test]
fn every_length_of_lent_memory() {
    let mut to = Comparison::new(8);
    for turn in 0..40 {
        let fields = if turn < 3 { any_job(&mut to.random, 8, 64, 63) } else { small_job(&mut to.random) };
        let bytes = encode(&fields);
        let counts = Counts::new(&mut to.random, &bytes);
        let enough = counts.work();
        for lent in 0..bytes.len() + 4 {
            to.rewrite(&bytes, lent);
        }
        for lent in 0..37 {
            to.table(&bytes, counts.faults, counts.outputs - 1, lent);
            to.spectrum(8, &[0xa5; 32], Kind::Mrm, 3, 8 * lent);
            to.undo(8, &[0; 256], Kind::Mrm, 3, lent);
        }
        let list = List { indices: vec![0, 1, 0], outputs: vec![0; 3], readings: vec![0, 1, 0] };
        // Of the largest work, the lengths near every power of two and near enough.
        let near = |lent: usize| enough.abs_diff(lent) < 4 || (lent & (lent + 1)) == 0 || (lent & (lent - 1)) == 0;
        for lent in (0..enough + 5).filter(|lent| enough < 300 || near(*lent)) {
            for purpose in PURPOSES {
                let kind = to.random.pick(&KINDS);
                to.choose(&bytes, purpose, kind, 0, lent);
            }
            to.locate(&bytes, Kind::Mrm, 0, &list, lent);
        }
        to.choose(&bytes, Purpose::Isolating, Kind::Mrm, 0, enough + 5000);
        to.locate(&bytes, Kind::Rm, 0, &list, enough + 5000);
    }
}

/// Every table of up to three inputs, at every polarity; and undone.
#[test]
fn every_small_table() {
    let mut to = Comparison::new(9);
    for inputs in 1..=3 {
        let places = 1usize << inputs;
        for table in 0..1usize << places {
            let table = [(table << (8 - places)) as u8];
            for polarity in 0..places {
                for kind in KINDS {
                    to.spectrum(inputs, &table, kind, polarity, places);
                    let mut numbers = vec![0; places];
                    reference::spectrum(inputs, &table, kind, polarity, &mut numbers).expect("a table");
                    to.undo(inputs, &numbers, kind, polarity, 1);
                }
            }
        }
        for spare in 0..=u8::MAX {
            to.spectrum(inputs, &[spare], Kind::Mrm, 0, places);
        }
    }
    // Every four small numbers as a spectrum of two inputs.
    for number in 0..6usize.pow(4) {
        let numbers: Vec<u16> = (0..4).map(|place| (number / 6usize.pow(place) % 6) as u16).collect();
        for kind in KINDS {
            to.undo(2, &numbers, kind, number % 4, 1);
        }
    }
}

#[test]
fn spectra_of_any_tables() {
    let mut to = Comparison::new(10);
    for _ in 0..40_000 {
        spectra(&mut to);
    }
}

/// Each number of a spectrum changed by itself.
#[test]
fn every_number_of_a_spectrum() {
    let mut to = Comparison::new(11);
    for inputs in 1..=8 {
        let places = 1usize << inputs;
        for kind in KINDS {
            let table = to.random.bytes(32);
            let mut table = table[..places.div_ceil(8)].to_vec();
            if places < 8 {
                table[0] &= !(0xff >> places);
            }
            let polarity = to.random.below(places);
            let mut numbers = vec![0; places];
            reference::spectrum(inputs, &table, kind, polarity, &mut numbers).expect("a table");
            for place in 0..places {
                for change in [1, 2, 3, 0x100, 0x7fff, 0x8000, 0xfffe, 0xffff] {
                    let mut numbers = numbers.clone();
                    numbers[place] = numbers[place].wrapping_add(change);
                    to.undo(inputs, &numbers, kind, polarity, 32);
                }
            }
        }
    }
}
