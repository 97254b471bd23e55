//! What is measured: calls of both libraries with the same arguments.

use std::hint::black_box;

/// The library that is called.
#[derive(Clone, Copy, PartialEq, Eq)]
pub enum Library {
    Proved,
    Reference,
}

/// A job and the arguments of calls with it.
pub struct Case {
    pub bytes: Vec<u8>,
    inputs: usize,
    polarity: usize,
    /// The circuit and the output of the table, and the table.
    circuit: usize,
    output: usize,
    table: Vec<u8>,
    /// The isolating signatures by RM and by MRM, and a circuit's readings for them.
    lists: [List; 2],
    work: usize,
}

struct List {
    indices: Vec<u16>,
    outputs: Vec<u16>,
    readings: Vec<u16>,
}

/// The memory that calls are lent, the same for both libraries.
pub struct Memory {
    bytes: [u8; 32],
    numbers: Vec<u16>,
}

impl Memory {
    pub fn new() -> Memory {
        Memory { bytes: [0; 32], numbers: vec![0; horncurlew::MOST_WORK] }
    }
}

const KINDS: [reference::Kind; 2] = [reference::Kind::Rm, reference::Kind::Mrm];

impl Case {
    /// The calls of a job without equal circuits. The circuit that is located is the last, at the last output.
    pub fn new(bytes: Vec<u8>) -> Case {
        let job = reference::read(&bytes).expect("a job");
        let (inputs, circuit) = (usize::from(job.inputs), usize::from(job.fault_count));
        let outputs = usize::from(job.output_count);
        let places = 1usize << inputs;
        // A polarity of both levels.
        let polarity = 0x5a & (places - 1);
        let mut table = vec![0; places.div_ceil(8)];
        reference::table(&bytes, circuit, outputs - 1, &mut table).expect("a table");
        let mut work = vec![0; (circuit + 1) * outputs * places];
        let lists = KINDS.map(|kind| {
            let chosen = reference::choose(&bytes, reference::Purpose::Isolating, kind, polarity, &mut work);
            let reference::Chosen::Signature { count, entries, .. } = chosen else { panic!("{chosen:?}") };
            let entries = &entries[..count];
            let place = |entry: &reference::Entry| {
                (circuit * outputs + usize::from(entry.output)) * places + usize::from(entry.index)
            };
            List {
                indices: entries.iter().map(|entry| entry.index).collect(),
                outputs: entries.iter().map(|entry| entry.output).collect(),
                readings: entries.iter().map(|entry| work[place(entry)]).collect(),
            }
        });
        Case { bytes, inputs, polarity, circuit, output: outputs - 1, table, lists, work: work.len() }
    }
}

/// A line of the table.
#[derive(Clone, Copy, PartialEq, Eq)]
pub enum Line {
    Reading,
    Table,
    Spectrum(Kind),
    Choosing(Purpose, Kind),
    Locating(Kind),
    /// The spectra of all circuits: what choosing and locating begin with.
    Filling(Kind),
}

#[derive(Clone, Copy, PartialEq, Eq)]
pub enum Kind {
    Rm,
    Mrm,
}

#[derive(Clone, Copy, PartialEq, Eq)]
pub enum Purpose {
    Isolating,
    Detecting,
}

use Kind::{Mrm, Rm};
use Purpose::{Detecting, Isolating};

pub const LINES: [Line; 12] = [
    Line::Reading,
    Line::Table,
    Line::Spectrum(Rm),
    Line::Spectrum(Mrm),
    Line::Filling(Rm),
    Line::Filling(Mrm),
    Line::Choosing(Isolating, Rm),
    Line::Choosing(Isolating, Mrm),
    Line::Choosing(Detecting, Rm),
    Line::Choosing(Detecting, Mrm),
    Line::Locating(Rm),
    Line::Locating(Mrm),
];

/// From this line on the number of outputs counts.
pub const FIRST_OF_OUTPUTS: usize = 4;
/// From this line on the parts count.
pub const FIRST_OF_PARTS: usize = 6;

impl Kind {
    fn proved(self) -> horncurlew::Kind {
        match self {
            Rm => horncurlew::Kind::Rm,
            Mrm => horncurlew::Kind::Mrm,
        }
    }

    fn reference(self) -> reference::Kind {
        KINDS[self as usize]
    }
}

impl Purpose {
    fn proved(self) -> horncurlew::Purpose {
        match self {
            Isolating => horncurlew::Purpose::Isolating,
            Detecting => horncurlew::Purpose::Detecting,
        }
    }

    fn reference(self) -> reference::Purpose {
        match self {
            Isolating => reference::Purpose::Isolating,
            Detecting => reference::Purpose::Detecting,
        }
    }
}

impl Line {
    pub fn name(self) -> &'static str {
        match self {
            Line::Reading => "reading",
            Line::Table => "table",
            Line::Spectrum(Rm) => "spectrum RM",
            Line::Spectrum(Mrm) => "spectrum MRM",
            Line::Choosing(Isolating, Rm) => "isolating RM",
            Line::Choosing(Isolating, Mrm) => "isolating MRM",
            Line::Choosing(Detecting, Rm) => "detecting RM",
            Line::Choosing(Detecting, Mrm) => "detecting MRM",
            Line::Locating(Rm) => "locating RM",
            Line::Locating(Mrm) => "locating MRM",
            Line::Filling(Rm) => "filling RM",
            Line::Filling(Mrm) => "filling MRM",
        }
    }

    /// Makes the call once.
    pub fn run(self, library: Library, case: &Case, memory: &mut Memory) {
        let case = black_box(case);
        match library {
            Library::Proved => self.run_proved(case, memory),
            Library::Reference => self.run_reference(case, memory),
        }
        black_box(memory);
    }

    fn run_proved(self, case: &Case, memory: &mut Memory) {
        use horncurlew::{check, choose, locate_lists, spectrum, table};
        let bytes = &case.bytes[..];
        let (out, numbers) = (&mut memory.bytes[..], &mut memory.numbers[..]);
        match self {
            Line::Reading => {
                black_box(check(bytes).is_ok());
            }
            Line::Table => {
                black_box(table(bytes, case.circuit, case.output, out).is_ok());
            }
            Line::Spectrum(kind) => {
                black_box(spectrum(case.inputs, &case.table, kind.proved(), case.polarity, numbers).is_ok());
            }
            Line::Choosing(purpose, kind) => {
                let work = &mut numbers[..case.work];
                let _ = black_box(choose(bytes, purpose.proved(), kind.proved(), case.polarity, work));
            }
            Line::Locating(kind) => {
                let (list, work) = (&case.lists[kind as usize], &mut numbers[..case.work]);
                let List { indices, outputs, readings } = list;
                let located = locate_lists(bytes, kind.proved(), case.polarity, indices, outputs, readings, work);
                let _ = black_box(located);
            }
            Line::Filling(kind) => {
                let work = &mut numbers[..case.work];
                let _ = black_box(locate_lists(bytes, kind.proved(), case.polarity, &[], &[], &[], work));
            }
        }
    }

    fn run_reference(self, case: &Case, memory: &mut Memory) {
        use reference::{choose, locate, read, spectrum, table};
        let bytes = &case.bytes[..];
        let (out, numbers) = (&mut memory.bytes[..], &mut memory.numbers[..]);
        match self {
            Line::Reading => {
                let _ = black_box(read(bytes));
            }
            Line::Table => {
                black_box(table(bytes, case.circuit, case.output, out).is_ok());
            }
            Line::Spectrum(kind) => {
                black_box(spectrum(case.inputs, &case.table, kind.reference(), case.polarity, numbers).is_ok());
            }
            Line::Choosing(purpose, kind) => {
                let work = &mut numbers[..case.work];
                black_box(choose(bytes, purpose.reference(), kind.reference(), case.polarity, work));
            }
            Line::Locating(kind) => {
                let (list, work) = (&case.lists[kind as usize], &mut numbers[..case.work]);
                let List { indices, outputs, readings } = list;
                black_box(locate(bytes, kind.reference(), case.polarity, indices, outputs, readings, work));
            }
            Line::Filling(kind) => {
                let work = &mut numbers[..case.work];
                black_box(locate(bytes, kind.reference(), case.polarity, &[], &[], &[], work));
            }
        }
    }
}
