//! Calls made of both libraries.
//!
//! What is lent to be read stands between bytes that belong to nothing, at any alignment that is allowed; what is lent
//! to be written stands between guards and holds a pattern. Both are compared whole after a call: the memory of the two
//! libraries is equal, guards are untouched, and after a refusal other than 15 nothing has changed.

use crate::random::Random;
use horncurlew::{Counts, NoChoice, Refusal};
use std::fmt;

/// The operations that are compared.
#[derive(Clone, Copy, Debug, PartialEq, Eq)]
pub enum Operation {
    Check,
    Rewrite,
    Table,
    Spectrum,
    Undo,
    Choose,
    Locate,
}

impl Operation {
    pub const ALL: [Operation; 7] = [
        Operation::Check,
        Operation::Rewrite,
        Operation::Table,
        Operation::Spectrum,
        Operation::Undo,
        Operation::Choose,
        Operation::Locate,
    ];

    /// The refusals that the documents give it, in order.
    pub fn refusals(self) -> &'static [usize] {
        match self {
            Operation::Check => &[1, 2, 3, 4, 5, 6, 19, 7, 8, 21, 9],
            Operation::Rewrite => &[1, 2, 3, 4, 5, 6, 19, 7, 8, 21, 9, 10],
            Operation::Table => &[1, 2, 3, 4, 5, 6, 19, 7, 8, 21, 9, 11, 20, 10],
            Operation::Spectrum => &[2, 12, 13, 10],
            Operation::Undo => &[2, 13, 14, 10],
            Operation::Choose => &[1, 2, 3, 4, 5, 6, 19, 7, 8, 21, 9, 13, 10, 15],
            Operation::Locate => &[1, 2, 3, 4, 5, 6, 19, 7, 8, 21, 9, 13, 16, 20, 17, 10],
        }
    }
}

/// The numbers of refusals, and 0 for success.
pub const NUMBERS: usize = 22;

/// How often each operation answered each number.
#[derive(Clone, Default)]
pub struct Tally {
    counts: [[usize; NUMBERS]; 7],
}

impl Tally {
    pub fn of(&self, operation: Operation, number: usize) -> usize {
        self.counts[operation as usize][number]
    }

    fn count(&mut self, operation: Operation, number: usize) {
        self.counts[operation as usize][number] += 1;
    }

    /// How often an operation was compared.
    pub fn total(&self, operation: Operation) -> usize {
        self.counts[operation as usize].iter().sum()
    }
}

impl fmt::Display for Tally {
    fn fmt(&self, f: &mut fmt::Formatter) -> fmt::Result {
        write!(f, "{:<9}", "number")?;
        for number in 0..NUMBERS {
            write!(f, "{number:>7}")?;
        }
        for operation in Operation::ALL {
            write!(f, "\n{:<9}", format!("{operation:?}").to_lowercase())?;
            for number in 0..NUMBERS {
                write!(f, "{:>7}", self.of(operation, number))?;
            }
        }
        Ok(())
    }
}

/// What is lent to be read.
struct Read<T> {
    values: Vec<T>,
    copy: Vec<T>,
    start: usize,
    length: usize,
}

impl<T: Copy + PartialEq + fmt::Debug> Read<T> {
    fn new(random: &mut Random, values: &[T], other: fn(u64) -> T) -> Read<T> {
        let start = random.below(9);
        let end = 9 + random.below(9);
        let mut all: Vec<T> = (0..start).map(|_| other(random.number())).collect();
        all.extend_from_slice(values);
        all.extend((0..end).map(|_| other(random.number())));
        Read { copy: all.clone(), values: all, start, length: values.len() }
    }

    fn get(&self) -> &[T] {
        &self.values[self.start..self.start + self.length]
    }

    fn unchanged(&self) {
        assert_eq!(self.values, self.copy, "memory that was lent to be read has changed");
    }
}

fn read_bytes(random: &mut Random, values: &[u8]) -> Read<u8> {
    Read::new(random, values, |number| number as u8)
}

fn read_numbers(random: &mut Random, values: &[u16]) -> Read<u16> {
    Read::new(random, values, |number| number as u16)
}

/// What is lent to be written, to each library.
struct Lent<T> {
    before: Vec<T>,
    ours: Vec<T>,
    theirs: Vec<T>,
    start: usize,
    length: usize,
}

impl<T: Copy + PartialEq + fmt::Debug> Lent<T> {
    fn new(random: &mut Random, length: usize, pattern: fn(u64) -> T) -> Lent<T> {
        let start = 8 + random.below(9);
        let seed = random.number() | 1;
        let place = |place: usize| pattern(seed.wrapping_mul(place as u64 + 1) >> 40);
        let before: Vec<T> = (0..start + length + 17).map(place).collect();
        Lent { ours: before.clone(), theirs: before.clone(), before, start, length }
    }

    fn ours(&mut self) -> &mut [T] {
        &mut self.ours[self.start..self.start + self.length]
    }

    fn theirs(&mut self) -> &mut [T] {
        &mut self.theirs[self.start..self.start + self.length]
    }

    /// The memory of both is equal, and as before if nothing may be written.
    fn compare(&self, number: usize, call: &dyn Fn() -> String) {
        assert!(self.ours == self.theirs, "other memory after {}", call());
        if number != 0 && number != 15 {
            assert!(self.ours == self.before, "memory has changed by refused {}", call());
        }
    }
}

fn lent_bytes(random: &mut Random, length: usize) -> Lent<u8> {
    Lent::new(random, length, |number| number as u8)
}

fn lent_numbers(random: &mut Random, length: usize) -> Lent<u16> {
    Lent::new(random, length, |number| number as u16)
}

/// The kinds, purposes and entries of both libraries.
pub type Kind = reference::Kind;
pub type Purpose = reference::Purpose;
pub type Entry = reference::Entry;

/// What locating takes: entries, as two lists, and readings. Nothing keeps their lengths equal.
#[derive(Clone, Debug, Default)]
pub struct List {
    pub indices: Vec<u16>,
    pub outputs: Vec<u16>,
    pub readings: Vec<u16>,
}

impl List {
    pub fn new(entries: &[Entry], readings: Vec<u16>) -> List {
        let (indices, outputs) = entries.iter().map(|entry| (entry.index, entry.output)).unzip();
        List { indices, outputs, readings }
    }
}

fn kind_of(kind: Kind) -> horncurlew::Kind {
    match kind {
        Kind::Rm => horncurlew::Kind::Rm,
        Kind::Mrm => horncurlew::Kind::Mrm,
    }
}

fn purpose_of(purpose: Purpose) -> horncurlew::Purpose {
    match purpose {
        Purpose::Isolating => horncurlew::Purpose::Isolating,
        Purpose::Detecting => horncurlew::Purpose::Detecting,
    }
}

/// The number of a refusal of ours.
fn refused(cause: Refusal) -> u8 {
    cause.number().and_then(|number| number.try_into().ok()).unwrap_or_else(|| panic!("{cause}"))
}

fn number_of<T>(result: &Result<T, u8>) -> usize {
    match result {
        Ok(_) => 0,
        Err(number) => usize::from(*number),
    }
}

/// Makes calls of both libraries and counts their answers.
pub struct Comparison {
    pub random: Random,
    pub tally: Tally,
}

impl Comparison {
    pub fn new(seed: u64) -> Comparison {
        Comparison { random: Random::new(seed), tally: Tally::default() }
    }

    /// Compares the answers of a call, and gives the number.
    fn answers<T: PartialEq + fmt::Debug>(
        &mut self,
        operation: Operation,
        ours: &Result<T, u8>,
        theirs: &Result<T, u8>,
        call: &dyn Fn() -> String,
    ) -> usize {
        assert!(ours == theirs, "{ours:?}, not {theirs:?}, is the answer of {}", call());
        let number = number_of(ours);
        self.tally.count(operation, number);
        number
    }

    pub fn check(&mut self, bytes: &[u8]) {
        let input = read_bytes(&mut self.random, bytes);
        let ours = horncurlew::check(input.get());
        let ours = ours.map(|counts| [counts.inputs, counts.gates, counts.outputs, counts.faults]);
        let theirs = reference::read(bytes);
        let theirs = theirs.map(|job| [job.inputs, job.gate_count, job.output_count, job.fault_count].map(usize::from));
        let call = || format!("check of {bytes:02x?}");
        self.answers(Operation::Check, &ours.map_err(refused), &theirs, &call);
        input.unchanged();
    }

    pub fn rewrite(&mut self, bytes: &[u8], room: usize) {
        let input = read_bytes(&mut self.random, bytes);
        let mut out = lent_bytes(&mut self.random, room);
        let ours = horncurlew::rewrite(input.get(), out.ours()).map_err(refused);
        let theirs = reference::read(bytes).and_then(|job| reference::write(&job, out.theirs()));
        let call = || format!("rewrite of {bytes:02x?}, room {room}");
        let number = self.answers(Operation::Rewrite, &ours, &theirs, &call);
        out.compare(number, &call);
        input.unchanged();
    }

    pub fn table(&mut self, bytes: &[u8], circuit: usize, output: usize, room: usize) {
        let input = read_bytes(&mut self.random, bytes);
        let mut out = lent_bytes(&mut self.random, room);
        let ours = horncurlew::table(input.get(), circuit, output, out.ours()).map_err(refused);
        let theirs = reference::table(bytes, circuit, output, out.theirs());
        let call = || format!("table of {bytes:02x?}, circuit {circuit}, output {output}, room {room}");
        let number = self.answers(Operation::Table, &ours, &theirs, &call);
        out.compare(number, &call);
        input.unchanged();
    }

    pub fn spectrum(&mut self, inputs: usize, table: &[u8], kind: Kind, polarity: usize, room: usize) {
        let input = read_bytes(&mut self.random, table);
        let mut out = lent_numbers(&mut self.random, room);
        let ours = horncurlew::spectrum(inputs, input.get(), kind_of(kind), polarity, out.ours());
        let ours = ours.map_err(refused);
        let theirs = reference::spectrum(inputs, table, kind, polarity, out.theirs());
        let call = || format!("spectrum of {inputs} inputs, {table:02x?}, {kind:?}, polarity {polarity}, room {room}");
        let number = self.answers(Operation::Spectrum, &ours, &theirs, &call);
        out.compare(number, &call);
        input.unchanged();
    }

    pub fn undo(&mut self, inputs: usize, numbers: &[u16], kind: Kind, polarity: usize, room: usize) {
        let input = read_numbers(&mut self.random, numbers);
        let mut out = lent_bytes(&mut self.random, room);
        let ours = horncurlew::undo(inputs, input.get(), kind_of(kind), polarity, out.ours());
        let ours = ours.map_err(refused);
        let theirs = reference::undo(inputs, numbers, kind, polarity, out.theirs());
        let call = || format!("undo of {inputs} inputs, {numbers:?}, {kind:?}, polarity {polarity}, room {room}");
        let number = self.answers(Operation::Undo, &ours, &theirs, &call);
        out.compare(number, &call);
        input.unchanged();
    }

    /// Gives the signature, if there is one.
    pub fn choose(
        &mut self,
        bytes: &[u8],
        purpose: Purpose,
        kind: Kind,
        polarity: usize,
        room: usize,
    ) -> Option<Vec<Entry>> {
        let input = read_bytes(&mut self.random, bytes);
        let mut work = lent_numbers(&mut self.random, room);
        let call = || format!("choose of {bytes:02x?}, {purpose:?}, {kind:?}, polarity {polarity}, room {room}");
        let ours = horncurlew::choose(input.get(), purpose_of(purpose), kind_of(kind), polarity, work.ours());
        let theirs = reference::choose(bytes, purpose, kind, polarity, work.theirs());
        let mut signature = None;
        let number = match (ours, theirs) {
            (Err(NoChoice::Refused(cause)), reference::Chosen::Refused(number)) => {
                self.answers(Operation::Choose, &Err::<(), u8>(refused(cause)), &Err(number), &call)
            }
            (Err(NoChoice::Alike(first, second)), reference::Chosen::Alike(lower, higher)) => {
                assert_eq!((first, second), (lower, higher), "the pair of {}", call());
                self.tally.count(Operation::Choose, 15);
                15
            }
            (Ok(choice), reference::Chosen::Signature { inputs, gates, outputs, faults, count, entries }) => {
                let taken = choice.signature.entries().iter();
                let taken: Vec<Entry> = taken.map(|entry| Entry { index: entry.index, output: entry.output }).collect();
                assert_eq!(choice.counts, Counts { inputs, gates, outputs, faults }, "{}", call());
                assert_eq!(taken, entries[..count], "the signature of {}", call());
                self.tally.count(Operation::Choose, 0);
                signature = Some(taken);
                0
            }
            (ours, theirs) => panic!("{ours:?}, not {theirs:?}, is the answer of {}", call()),
        };
        work.compare(number, &call);
        input.unchanged();
        signature
    }

    /// By the lists or, where they are as long, sometimes by entries made of them. Gives the answer, if it is no
    /// refusal.
    pub fn locate(
        &mut self,
        bytes: &[u8],
        kind: Kind,
        polarity: usize,
        list: &List,
        room: usize,
    ) -> Option<reference::Located> {
        use horncurlew::Location;
        use reference::Located;
        let input = read_bytes(&mut self.random, bytes);
        let List { indices, outputs, readings } = list;
        let lists = [indices, outputs, readings].map(|numbers| read_numbers(&mut self.random, numbers));
        let [own_indices, own_outputs, own_readings] = lists.each_ref().map(Read::get);
        let mut work = lent_numbers(&mut self.random, room);
        let ours = if indices.len() == outputs.len() && self.random.once_in(4) {
            let entry = |(index, output): (&u16, &u16)| horncurlew::Entry { index: *index, output: *output };
            let entries: Vec<_> = indices.iter().zip(outputs).map(entry).collect();
            horncurlew::locate(input.get(), kind_of(kind), polarity, &entries, own_readings, work.ours())
        } else {
            let kind = kind_of(kind);
            let numbers = work.ours();
            horncurlew::locate_lists(input.get(), kind, polarity, own_indices, own_outputs, own_readings, numbers)
        };
        let ours = match ours {
            Ok(Location::Part { part, lowest }) => Ok(Located::Part(part, lowest)),
            Ok(Location::Several { lowest, count }) => Ok(Located::Several(lowest, count)),
            Ok(Location::Nowhere) => Ok(Located::Nowhere),
            Err(cause) => Err(refused(cause)),
        };
        let theirs = match reference::locate(bytes, kind, polarity, indices, outputs, readings, work.theirs()) {
            Located::Refused(number) => Err(number),
            located => Ok(located),
        };
        let call = || format!("locate of {bytes:02x?}, {kind:?}, polarity {polarity}, {list:?}, room {room}");
        let number = self.answers(Operation::Locate, &ours, &theirs, &call);
        work.compare(number, &call);
        input.unchanged();
        lists.iter().for_each(Read::unchanged);
        ours.ok()
    }
}
