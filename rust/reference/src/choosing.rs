//! Choosing a signature.
//!
//! Isolating needs the pairs of circuits whose parts differ. It keeps the circuits in classes: two are in one class
//! while no coefficient taken tells them apart. A class of one part is done with. An entry is taken when it splits a
//! class of several parts: such a class has two circuits that differ both in this coefficient and in their parts. One
//! is dropped when those before it and those kept after it leave no two circuits of different parts in one class.
//! Detecting keeps, per entry taken, the set of faults that it tells from the good circuit.

use crate::differences::MOST_CIRCUITS;
use crate::job::{read, Job, MOST_FAULTS, MOST_PART};
use crate::refusal::{self, Refusal};
use crate::spectra::{fill, size, width, Kind};
use crate::words::Table;

/// Which pairs of circuits a signature must tell apart.
#[derive(Clone, Copy, Debug, PartialEq, Eq)]
pub enum Purpose {
    /// Every two circuits whose parts differ.
    Isolating,
    /// The good circuit and each faulty one.
    Detecting,
}

/// The coefficient of an index at an output.
#[derive(Clone, Copy, Debug, Default, PartialEq, Eq)]
pub struct Entry {
    pub index: u16,
    pub output: u16,
}

/// What choosing comes to.
#[derive(Clone, Copy, Debug, PartialEq, Eq)]
#[allow(clippy::large_enum_variant, reason = "there is one a call, and nothing here uses the heap")]
pub enum Chosen {
    /// The job's counts and the signature: the first `count` entries, in the order of taking; the others are 0.
    Signature {
        inputs: usize,
        gates: usize,
        outputs: usize,
        faults: usize,
        count: usize,
        entries: [Entry; MOST_FAULTS],
    },
    /// Refusal 15 with the first pair of circuits, of those to be told apart, that have equal tables.
    Alike(usize, usize),
    /// Any other refusal.
    Refused(Refusal),
}

/// The indices of each number of inputs, by their number of ones, then by value.
const ORDER: [[u16; 256]; 9] = {
    let mut order = [[0; 256]; 9];
    let mut inputs: usize = 0;
    while inputs <= 8 {
        let mut place = 0;
        let mut ones = 0;
        while ones <= inputs as u32 {
            let mut index: u16 = 0;
            while index < 1 << inputs {
                if index.count_ones() == ones {
                    order[inputs][place] = index;
                    place += 1;
                }
                index += 1;
            }
            ones += 1;
        }
        inputs += 1;
    }
    order
};

/// Chooses a signature; `work` then holds coefficient j of circuit c at output o at place (c x outputs + o) x N + j.
pub fn choose(bytes: &[u8], purpose: Purpose, kind: Kind, polarity: usize, work: &mut [u16]) -> Chosen {
    let job = match read(bytes) {
        Ok(job) => job,
        Err(number) => return Chosen::Refused(number),
    };
    if polarity >> job.inputs != 0 {
        return Chosen::Refused(refusal::POLARITY);
    }
    let Some(work) = work.get_mut(..size(&job)) else {
        return Chosen::Refused(refusal::MEMORY);
    };
    let alike = match job.output_count {
        1 => fill_and_compare::<1>(&job, purpose, kind, polarity, work),
        2 => fill_and_compare::<2>(&job, purpose, kind, polarity, work),
        3 => fill_and_compare::<3>(&job, purpose, kind, polarity, work),
        _ => fill_and_compare::<4>(&job, purpose, kind, polarity, work),
    };
    match alike {
        Some((lower, higher)) => Chosen::Alike(lower, higher),
        None => signature(&job, purpose, work),
    }
}

/// Writes the spectra of a job of O outputs, and gives the first needed pair of circuits with equal tables at all
/// outputs.
fn fill_and_compare<const O: usize>(
    job: &Job,
    purpose: Purpose,
    kind: Kind,
    polarity: usize,
    work: &mut [u16],
) -> Option<(usize, usize)> {
    let tables = fill::<O>(job, kind, polarity, work);
    let tables = &tables[..=job.fault_count.into()];
    match purpose {
        Purpose::Isolating => first_alike(tables, &Parts::new(job)),
        Purpose::Detecting => (1..tables.len()).find(|c| tables[*c] == tables[0]).map(|c| (0, c)),
    }
}

/// The signature of a job whose spectra are there; no needed pair of circuits is alike.
fn signature(job: &Job, purpose: Purpose, work: &[u16]) -> Chosen {
    let [inputs, gates, outputs, faults] =
        [job.inputs, job.gate_count, job.output_count, job.fault_count].map(usize::from);
    let spectra = Spectra { inputs, outputs, circuits: faults + 1, width: width(job), work };
    let mut entries = [Entry::default(); MOST_FAULTS];
    let count = match purpose {
        Purpose::Isolating => isolate(&spectra, &Parts::new(job), &mut entries),
        Purpose::Detecting => detect(&spectra, &mut entries),
    };
    Chosen::Signature { inputs, gates, outputs, faults, count, entries }
}

/// The parts of the circuits.
struct Parts {
    /// Per circuit those that have its part, itself among them, a bit each.
    mates: [u64; MOST_CIRCUITS],
}

impl Parts {
    fn new(job: &Job) -> Parts {
        let mut circuits_of = [0u64; MOST_PART as usize + 1];
        for (circuit, part) in job.parts().enumerate() {
            circuits_of[usize::from(part)] |= 1 << circuit;
        }
        let mut mates = [0; MOST_CIRCUITS];
        for (place, part) in mates.iter_mut().zip(job.parts()) {
            *place = circuits_of[usize::from(part)];
        }
        Parts { mates }
    }

    /// Whether one of the circuits has another part than this one.
    #[inline]
    fn differ(&self, circuit: usize, circuits: u64) -> bool {
        circuits & !self.mates[circuit] != 0
    }
}

/// The first pair of circuits of different parts with equal tables, by the lower number, then by the higher. Of
/// circuits with equal tables and not one part the lowest is in such a pair.
fn first_alike<const O: usize>(tables: &[[Table; O]], parts: &Parts) -> Option<(usize, usize)> {
    // Twice as many slots as circuits at least, so a free one is always found.
    const SLOTS: usize = 2 * MOST_CIRCUITS;
    const FREE: u8 = u8::MAX;
    let mut slots = [FREE; SLOTS];
    let mut first: Option<(usize, usize)> = None;
    for (circuit, table) in tables.iter().enumerate() {
        let words = table.as_flattened().iter();
        let hash = words.fold(0u64, |hash, word| (hash ^ word).wrapping_mul(0x9e37_79b9_7f4a_7c15));
        let mut slot = (hash >> 57) as usize % SLOTS;
        while slots[slot] != FREE && tables[usize::from(slots[slot])] != *table {
            slot = (slot + 1) % SLOTS;
        }
        if slots[slot] == FREE {
            slots[slot] = circuit as u8;
            continue;
        }
        let lower = usize::from(slots[slot]);
        if parts.differ(lower, 1 << circuit) && first.is_none_or(|pair| lower < pair.0) {
            first = Some((lower, circuit));
        }
    }
    first
}

/// The coefficients of all circuits: a row for each, with N places for each output. A place in a row stands for an
/// entry.
struct Spectra<'a> {
    inputs: usize,
    outputs: usize,
    circuits: usize,
    width: usize,
    work: &'a [u16],
}

impl Spectra<'_> {
    /// The places of all entries: by the order of the index, by the index, then by the output.
    #[inline]
    fn order(&self) -> impl Iterator<Item = usize> + '_ {
        let indices = &ORDER[self.inputs][..1 << self.inputs];
        indices.iter().flat_map(|index| (0..self.outputs).map(|output| output << self.inputs | usize::from(*index)))
    }

    fn entry(&self, place: usize) -> Entry {
        Entry { index: (place % (1 << self.inputs)) as u16, output: (place >> self.inputs) as u16 }
    }

    #[inline]
    fn coefficient(&self, circuit: usize, place: usize) -> u16 {
        self.work[circuit * self.width + place]
    }
}

/// An entry's coefficient of each circuit.
type Column = [u16; MOST_CIRCUITS];

/// The circuits in classes.
#[derive(Clone, Copy)]
struct Classes {
    /// Those whose class has several parts, a bit each.
    mixed: u64,
    /// Per circuit of these those of its class, itself among them.
    class: [u64; MOST_CIRCUITS],
}

impl Classes {
    /// All circuits in one class.
    fn one(circuits: usize, parts: &Parts) -> Classes {
        let all = u64::MAX >> (MOST_CIRCUITS - circuits);
        Classes { mixed: if parts.differ(0, all) { all } else { 0 }, class: [all; MOST_CIRCUITS] }
    }

    /// Writes an entry's coefficients of the circuits in classes of several parts, and tells whether such a class has
    /// different ones.
    #[inline]
    fn differ(&self, spectra: &Spectra, place: usize, column: &mut Column) -> bool {
        let mut differ = false;
        for circuit in ones(self.mixed) {
            column[circuit] = spectra.coefficient(circuit, place);
            differ |= column[circuit] != column[self.class[circuit].trailing_zeros() as usize];
        }
        differ
    }

    /// Splits the classes of several parts by coefficient.
    fn split(&mut self, column: &Column, parts: &Parts) {
        let mut left = self.mixed;
        self.mixed = 0;
        while left != 0 {
            let lowest = left.trailing_zeros() as usize;
            let joins = |circuit: usize| u64::from(column[circuit] == column[lowest]) << circuit;
            let class = ones(self.class[lowest] & left).fold(0, |class, circuit| class | joins(circuit));
            left &= !class;
            if parts.differ(lowest, class) {
                self.mixed |= class;
                ones(class).for_each(|circuit| self.class[circuit] = class);
            }
        }
    }

    /// No two circuits of different parts are in one class both here and there.
    fn isolate_with(&self, other: &Classes, parts: &Parts) -> bool {
        let mut circuits = ones(self.mixed & other.mixed);
        circuits.all(|circuit| !parts.differ(circuit, self.class[circuit] & other.class[circuit]))
    }
}

/// The circuits of a set, from the lowest.
#[inline]
fn ones(mut set: u64) -> impl Iterator<Item = usize> {
    std::iter::from_fn(move || {
        (set != 0).then(|| {
            let circuit = set.trailing_zeros() as usize;
            set &= set - 1;
            circuit
        })
    })
}

/// Writes the isolating signature and gives its length; no two circuits of different parts have equal spectra.
fn isolate(spectra: &Spectra, parts: &Parts, entries: &mut [Entry; MOST_FAULTS]) -> usize {
    let mut taken = [0; MOST_FAULTS];
    let mut classes = Classes::one(spectra.circuits, parts);
    let mut after = classes;
    let mut before = [classes; MOST_FAULTS];
    let mut count = 0;
    let mut column = [0; MOST_CIRCUITS];
    for place in spectra.order() {
        if classes.mixed == 0 {
            break;
        }
        if classes.differ(spectra, place, &mut column) {
            taken[count] = place;
            before[count] = classes;
            count += 1;
            classes.split(&column, parts);
        }
    }

    let mut kept = 0u64;
    for at in (0..count).rev() {
        if !before[at].isolate_with(&after, parts) {
            kept |= 1 << at;
            if after.differ(spectra, taken[at], &mut column) {
                after.split(&column, parts);
            }
        }
    }
    keep(spectra, &taken[..count], kept, entries)
}

/// Writes the detecting signature and gives its length; no fault has the good circuit's spectrum.
fn detect(spectra: &Spectra, entries: &mut [Entry; MOST_FAULTS]) -> usize {
    let differs = |circuit: usize, place| spectra.coefficient(circuit, place) != spectra.coefficient(0, place);
    let all = u64::MAX >> (MOST_CIRCUITS - spectra.circuits) & !1;
    let mut taken = [0; MOST_FAULTS];
    let mut detected = [0u64; MOST_FAULTS];
    let mut before = [0u64; MOST_FAULTS];
    let mut count = 0;
    let mut so_far = 0;
    for place in spectra.order() {
        if so_far == all {
            break;
        }
        if ones(all & !so_far).any(|circuit| differs(circuit, place)) {
            taken[count] = place;
            detected[count] = ones(all).fold(0, |set, circuit| set | u64::from(differs(circuit, place)) << circuit);
            before[count] = so_far;
            so_far |= detected[count];
            count += 1;
        }
    }

    let mut kept = 0u64;
    let mut after = 0;
    for at in (0..count).rev() {
        if before[at] | after != all {
            kept |= 1 << at;
            after |= detected[at];
        }
    }
    keep(spectra, &taken[..count], kept, entries)
}

/// Writes the entries of those taken that are kept, a bit each, and gives their number.
fn keep(spectra: &Spectra, taken: &[usize], kept: u64, entries: &mut [Entry; MOST_FAULTS]) -> usize {
    let mut count = 0;
    for (at, place) in taken.iter().enumerate() {
        if kept >> at & 1 == 1 {
            entries[count] = spectra.entry(*place);
            count += 1;
        }
    }
    count
}
