//! The built test program `papers`, on tasks that its stored vectors don't have: what it prints is worked out anew.

use differential::jobs::{encode, full_job, loose_job, small_job};
use differential::random::Random;
use horncurlew::MOST_WORK;
use reference::{choose, locate, read, spectrum, table, undo, write, Chosen, Entry, Kind, Located, Purpose};
use reference::{Fault, FaultEntry, Gate, Job, MOST_FAULTS, MOST_GATES, MOST_OUTPUTS};
use std::array::from_fn;
use std::fmt::{Display, Write as _};
use std::io::Write as _;
use std::path::Path;
use std::process::{Command, Stdio};

/// What the program prints for tasks.
fn printed(tasks: &str) -> String {
    let program = Path::new(env!("CARGO_MANIFEST_DIR")).join("../../crates/papers/out/papers");
    assert!(program.exists(), "{} isn't there: build it with `rt run` in crates/papers", program.display());
    assert!(tasks.len() < 65536, "the program reads no more");
    let mut child =
        Command::new(&program).stdin(Stdio::piped()).stdout(Stdio::piped()).spawn().expect("the program runs");
    child.stdin.take().expect("a pipe").write_all(tasks.as_bytes()).expect("it reads the tasks");
    let output = child.wait_with_output().expect("it ends");
    assert!(output.status.success(), "{}", output.status);
    String::from_utf8(output.stdout).expect("text")
}

/// Numbers, each behind a space.
fn listed<T: Display>(numbers: impl IntoIterator<Item = T>) -> String {
    numbers.into_iter().map(|number| format!(" {number}")).collect()
}

fn hex(bytes: &[u8]) -> String {
    listed(bytes.iter().map(|byte| format!("{byte:02x}")))
}

/// Entries, each behind a space.
fn listed_entries(entries: &[Entry]) -> String {
    listed(entries.iter().map(|entry| format!("{}:{}", entry.index, entry.output)))
}

/// The coefficients of a job, by circuit, output and index.
struct Spectra {
    inputs: usize,
    outputs: usize,
    faults: usize,
    work: Vec<u16>,
}

impl Spectra {
    /// Those of bytes that are no job are all 0, with the counts of the smallest one.
    fn new(bytes: &[u8], kind: Kind, polarity: usize) -> Spectra {
        let counts = |job: Job| [job.inputs, job.output_count, job.fault_count].map(usize::from);
        let [inputs, outputs, faults] = read(bytes).map_or([1, 1, 0], counts);
        let mut work = vec![0; MOST_WORK];
        locate(bytes, kind, polarity, &[], &[], &[], &mut work);
        Spectra { inputs, outputs, faults, work }
    }

    /// 0 where the work has no such place.
    fn coefficient(&self, circuit: usize, entry: Entry) -> u16 {
        let row = circuit * self.outputs + usize::from(entry.output);
        self.work.get((row << self.inputs) + usize::from(entry.index)).copied().unwrap_or(0)
    }
}

fn any_kind(random: &mut Random) -> (&'static str, Kind) {
    random.pick(&[("rm", Kind::Rm), ("mrm", Kind::Mrm)])
}

/// Tasks, and the answers that they have by the reference.
#[derive(Default)]
struct Tasks {
    tasks: String,
    answers: String,
    /// The answers to records by number, 0 for one that is written.
    records: [usize; 22],
    /// How many records with too many faults were refused for a loose gate.
    loose_before_faults: usize,
    /// How many records were written whose unused output lines are no lines.
    unused_outputs: usize,
}

impl Tasks {
    fn add(&mut self, task: String, answer: String) {
        writeln!(self.tasks, "{task}").expect("a string");
        writeln!(self.answers, "{answer}").expect("a string");
    }

    fn tables(&mut self, bytes: &[u8]) {
        let answer = match read(bytes) {
            Err(number) => format!("refused {number}"),
            Ok(job) => {
                let size = usize::div_ceil(1 << job.inputs, 8);
                let mut text = format!("inputs {} gates {} faults {}", job.inputs, job.gate_count, job.fault_count);
                for circuit in 0..=usize::from(job.fault_count) {
                    for output in 0..usize::from(job.output_count) {
                        let mut packed = vec![0; size];
                        table(bytes, circuit, output, &mut packed).expect("a circuit of the job");
                        write!(text, "\n{circuit}{}", hex(&packed)).expect("a string");
                    }
                }
                text
            }
        };
        self.add("tables".to_string(), answer);
    }

    fn choice(&mut self, random: &mut Random, bytes: &[u8], purpose: Purpose) {
        let name = if purpose == Purpose::Isolating { "isolating" } else { "detecting" };
        let ((word, kind), polarity) = (any_kind(random), random.below(9));
        let answer = match choose(bytes, purpose, kind, polarity, &mut [0; MOST_WORK]) {
            Chosen::Signature { count, entries, .. } => format!("signature{}", listed_entries(&entries[..count])),
            Chosen::Alike(first, second) => format!("refused 15 {first} {second}"),
            Chosen::Refused(number) => format!("refused {number}"),
        };
        self.add(format!("{name} {word} {polarity}"), answer);
    }

    /// By the readings of one of the circuits, if the job has any.
    fn location(&mut self, random: &mut Random, bytes: &[u8]) {
        let ((word, kind), polarity) = (any_kind(random), random.below(4));
        let mut spectra = Spectra::new(bytes, kind, polarity);
        let (circuit, count) = (random.below(spectra.faults + 1), 1 + random.below(5));
        let entry = |_| {
            // Sometimes an output that the job doesn't have.
            let outputs = spectra.outputs + usize::from(random.once_in(20));
            Entry { index: random.below(1 << spectra.inputs) as u16, output: random.below(outputs) as u16 }
        };
        let entries: Vec<Entry> = (0..count).map(entry).collect();
        let readings: Vec<u16> = entries.iter().map(|entry| spectra.coefficient(circuit, *entry)).collect();
        let (indices, outputs): (Vec<u16>, Vec<u16>) = entries.iter().map(|e| (e.index, e.output)).unzip();
        let answer = match locate(bytes, kind, polarity, &indices, &outputs, &readings, &mut spectra.work) {
            Located::Part(part, lowest) => format!("part {part} {lowest}"),
            Located::Several(lowest, count) => format!("several {lowest} {count}"),
            Located::Nowhere => "none".to_string(),
            Located::Refused(number) => format!("refused {number}"),
        };
        self.add(format!("locate {word} {polarity}{} /{}", listed_entries(&entries), listed(readings)), answer);
    }

    /// The entries at which one of the circuits differs from the good one, by output, then by index.
    fn fault(&mut self, random: &mut Random, bytes: &[u8]) {
        let (word, kind) = any_kind(random);
        let polarity = random.below(2);
        let spectra = Spectra::new(bytes, kind, polarity);
        let circuit = random.below(spectra.faults + 1);
        let answer = match read(bytes) {
            Err(number) => format!("refused {number}"),
            Ok(_) => {
                let indices = 0..1u16 << spectra.inputs;
                let entries = (0..spectra.outputs as u16)
                    .flat_map(|output| indices.clone().map(move |index| Entry { index, output }))
                    .filter(|entry| spectra.coefficient(0, *entry) != spectra.coefficient(circuit, *entry));
                format!("detects{}", listed_entries(&entries.collect::<Vec<_>>()))
            }
        };
        self.add(format!("fault {word} {polarity} {circuit}"), answer);
    }

    /// The spectra of a table, one of them undone, and one undone with a number changed.
    fn spectra(&mut self, random: &mut Random) {
        let inputs = 1 + random.below(6);
        let (places, polarity) = (1 << inputs, random.below(1 << inputs));
        let mut packed = random.bytes(usize::div_ceil(places, 8));
        packed[0] &= if places < 8 { !(0xff >> places) } else { 0xff };
        let of = |kind| {
            let mut numbers = vec![0; places];
            spectrum(inputs, &packed, kind, polarity, &mut numbers).expect("a table");
            numbers
        };
        let answer = format!("rm{}\nmrm{}", listed(of(Kind::Rm)), listed(of(Kind::Mrm)));
        self.add(format!("spectra {inputs} {polarity}{}", hex(&packed)), answer);
        let (word, kind) = any_kind(random);
        let mut numbers = of(kind);
        for change in [0, 1] {
            numbers[random.below(places)] ^= change;
            let mut back = packed.clone();
            let answer = match undo(inputs, &numbers, kind, polarity, &mut back) {
                Ok(()) => format!("table{}", hex(&back)),
                Err(number) => format!("refused {number}"),
            };
            self.add(format!("undo {word} {inputs} {polarity}{}", listed(&numbers)), answer);
        }
    }

    /// A record, among them such as no bytes give. All gates but the first are BUF of line 0, all faults but the first
    /// stuck-at-0 on it, of part 0.
    fn record(&mut self, random: &mut Random) {
        let inputs = if random.once_in(12) { 9 * random.below(2) } else { 1 + random.below(4) };
        let gates = if random.once_in(12) { 62 + random.below(6) } else { random.below(3) };
        let output_count = if random.once_in(8) { 5 * random.below(2) } else { 1 + random.below(MOST_OUTPUTS) };
        // Mostly from the last line down, so that no gate is loose.
        let outputs: [usize; MOST_OUTPUTS] = from_fn(|output| match random.below(5) {
            0 => random.below(inputs + gates + 2),
            _ => (inputs + gates).saturating_sub(output + 1),
        });
        let faults = if random.once_in(3) { 62 + random.below(4) } else { random.below(3) };
        let [a, b, c, d] = [0; 4].map(|_| random.below(inputs + 1) as u8);
        let (first_gate, gate_kind) = random.pick(&[(Gate::And(a, b), 0), (Gate::Xor(a, b), 4), (Gate::Not(a), 6)]);
        let (first_fault, fault_kind) = random.pick(&[(Fault::Stuck(c, true), 1), (Fault::Bridge(c, d, false), 3)]);
        let mut job = Job {
            inputs: inputs as u8,
            gate_count: gates as u8,
            gates: [Gate::Buf(0); MOST_GATES],
            output_count: output_count as u8,
            outputs: outputs.map(|line| line as u8),
            fault_count: faults as u8,
            faults: [FaultEntry::UNUSED; MOST_FAULTS],
        };
        let part = random.pick(&[0, 1, 2, 63, 64, 255]);
        (job.gates[0], job.faults[0]) = (first_gate, FaultEntry { fault: first_fault, part });
        let room = random.below(17);
        let written = write(&job, &mut vec![0; room]);
        self.records[usize::from(written.err().unwrap_or(0))] += 1;
        self.loose_before_faults += usize::from(faults > MOST_FAULTS && written == Err(19));
        let no_line = |line: &usize| *line >= inputs + gates;
        self.unused_outputs += usize::from(written.is_ok() && outputs.iter().any(no_line));
        // The four output lines are all there, however many are in use.
        let [first, second, third, fourth] = job.outputs;
        let counts = [room as u8, job.inputs, job.gate_count, job.output_count];
        let numbers = [first, second, third, fourth, job.fault_count];
        let entries = [gate_kind, a, b, fault_kind, c, d, part];
        let answer = match written {
            Ok(size) => format!("bytes {size}"),
            Err(number) => format!("refused {number}"),
        };
        self.add(format!("record{}{}{}", hex(&counts), hex(&numbers), hex(&entries)), answer);
    }
}

#[test]
fn other_tasks() {
    let mut random = Random::new(50);
    let mut all = Tasks::default();
    for turn in 0..60 {
        let mut bytes = match turn {
            0 => full_job(&mut random, 8, 64, 4, 63),
            1 => full_job(&mut random, 7, 64, 1, 63),
            _ if turn % 10 == 5 => encode(&loose_job(&mut random)),
            _ => encode(&small_job(&mut random)),
        };
        if turn % 8 == 7 {
            bytes.truncate(random.below(bytes.len()));
        }
        writeln!(all.tasks, "job{}", hex(&bytes)).expect("a string");
        all.tables(&bytes);
        all.choice(&mut random, &bytes, Purpose::Isolating);
        all.choice(&mut random, &bytes, Purpose::Detecting);
        all.location(&mut random, &bytes);
        all.fault(&mut random, &bytes);
        all.spectra(&mut random);
        for _ in 0..10 {
            all.record(&mut random);
        }
    }
    let words = ["signature ", "refused 15 ", "refused 1\n", "refused 14\n", "part ", "several ", "table ", "detects "];
    for word in words.into_iter().chain(["refused 20\n", ":3"]) {
        assert!(all.answers.contains(word), "no task is answered with {word}");
    }
    let (loose, unused) = (all.loose_before_faults, all.unused_outputs);
    println!("records by answer {:?}, 19 before 18 {loose}, unused outputs {unused}", all.records);
    for number in [0, 2, 3, 4, 20, 6, 19, 18, 7, 8, 21, 10] {
        assert!(all.records[number] > 0, "no record is answered with {number}");
    }
    assert!(loose > 0 && unused > 0);
    let found = printed(&all.tasks);
    for (place, (line, expected)) in found.lines().zip(all.answers.lines()).enumerate() {
        assert_eq!(line, expected, "line {place} of the answers");
    }
    assert_eq!(found.len(), all.answers.len());
}
