//! How long the proved library takes for what the reference does, on the same jobs, in one run.
//!
//! A ratio is the proved library's time by the reference's: the median of many rounds, in each of which both are timed
//! one after the other, with the quarters of the rounds below and above it. The times of a call stand beside them for
//! the order of size; they are this machine's. The jobs have no equal circuits and no loose gates.

#![forbid(unsafe_code)]

mod instructions;
mod lines;
mod measure;

use differential::jobs::{parted_job, Parts};
use differential::random::Random;
use lines::{Case, Kind, Library, Line, Memory, Purpose, FIRST_OF_OUTPUTS, FIRST_OF_PARTS, LINES};
use measure::{ratio, Timed};

const MOST_GATES: usize = 64;
const MOST_OUTPUTS: usize = 4;
const MOST_FAULTS: usize = 63;
/// How many jobs each line takes: so many that the processor's branch prediction does not learn them by heart, as it
/// does with eight.
const JOBS: u64 = 64;

fn main() {
    if instructions::counted() {
        return;
    }
    let mut memory = Memory::new();
    println!("Proved library by reference, {JOBS} jobs of {MOST_GATES} gates and {MOST_FAULTS} faults");
    println!();
    println!("                                           time                     instructions  (microseconds a call)");
    println!("a part  outputs  inputs  line             ratio  quarters          ratio         proved  reference");
    ratios(&[8, 6, 4], 1, Parts::Own, &LINES, &mut memory);
    ratios(&[8, 6, 4], MOST_OUTPUTS, Parts::Own, &LINES[FIRST_OF_OUTPUTS..], &mut memory);
    ratios(&[8], 1, Parts::Fours, &LINES[FIRST_OF_PARTS..], &mut memory);
    println!("(a part: how many faults have one)");
    if !instructions::has_valgrind() {
        println!("(instructions are counted where valgrind is there)");
    }
    shared_parts(&mut memory);
    growth(&mut memory);
}

/// Jobs of these inputs, gates, outputs and faults: the same circuits and faults, whatever the parts.
fn cases(counts: [usize; 4], parts: Parts) -> Vec<Case> {
    (1..=JOBS).map(|seed| Case::new(parted_job(&mut Random::new(seed), counts, parts))).collect()
}

/// The lines of the largest lists with so many outputs.
fn ratios(inputs: &[usize], outputs: usize, parts: Parts, lines: &[Line], memory: &mut Memory) {
    let counts = instructions::has_valgrind();
    let a_part = if parts == Parts::Fours { 4 } else { 1 };
    for inputs in inputs {
        let cases = cases([*inputs, MOST_GATES, outputs, MOST_FAULTS], parts);
        let mut time = |line: &Line| {
            let timed = |library| Timed { line: *line, library, cases: &cases };
            ratio(timed(Library::Proved), timed(Library::Reference), memory)
        };
        // All are timed before any is counted: another program that has just run disturbs short times.
        let times: Vec<_> = lines.iter().map(&mut time).collect();
        for (line, ratio) in lines.iter().zip(times) {
            let counted = if counts { instructions::ratio(*line, &cases) } else { None };
            let counted = counted.map_or("-".into(), |ratio| format!("{ratio:.2}"));
            let quarters = format!("{:.2} to {:.2}", ratio.lower, ratio.upper);
            print!("{a_part:>6}  {outputs:>7}  {inputs:>6}  ");
            println!(
                "{:<14}  {:>6.2}  {quarters:<16}  {counted:>5}  {:>13.3}  {:>9.3}",
                line.name(),
                ratio.median,
                ratio.first,
                ratio.second
            );
        }
    }
}

/// Four faults a part: each library's time by its own for the same list with one fault a part.
fn shared_parts(memory: &mut Memory) {
    let counts = [8, MOST_GATES, 1, MOST_FAULTS];
    let (own, fours) = (cases(counts, Parts::Own), cases(counts, Parts::Fours));
    println!();
    println!("Four faults a part: time by that of one fault a part, 8 inputs, one output, {MOST_FAULTS} faults");
    println!();
    println!("line            proved  reference");
    for line in &LINES[FIRST_OF_PARTS..] {
        let timed = |library, cases| Timed { line: *line, library, cases };
        let mut by_own = |library| ratio(timed(library, &fours), timed(library, &own), memory).median;
        let (proved, reference) = (by_own(Library::Proved), by_own(Library::Reference));
        println!("{:<14}  {proved:>6.2}  {reference:>9.2}", line.name());
    }
}

/// How choosing grows: each library's time by its own for the largest list, and the ratio of the two.
fn growth(memory: &mut Memory) {
    let full = cases([8, MOST_GATES, 1, MOST_FAULTS], Parts::Own);
    let by_inputs = [4, 5, 6, 7, 8].map(|inputs| [inputs, MOST_GATES, 1, MOST_FAULTS]);
    let by_gates = [8, 16, 32, 48, 64].map(|gates| [8, gates, 1, 31]);
    let by_outputs = [1, 2, 3, 4].map(|outputs| [8, MOST_GATES, outputs, MOST_FAULTS]);
    let by_faults = [0, 1, 7, 15, 31, 47, 63].map(|faults| [8, MOST_GATES, 1, faults]);
    for kind in [Kind::Rm, Kind::Mrm] {
        let line = Line::Choosing(Purpose::Isolating, kind);
        println!();
        let largest = format!("8 inputs, {MOST_GATES} gates, one output, {MOST_FAULTS} faults");
        println!("Growth of {}: time by that of {largest}", line.name());
        println!();
        println!("inputs  gates  outputs  faults  proved  reference  proved by reference");
        for counts in [&by_inputs[..], &by_gates, &by_outputs, &by_faults] {
            for [inputs, gates, outputs, faults] in counts {
                let cases = cases([*inputs, *gates, *outputs, *faults], Parts::Own);
                let timed = |library, cases| Timed { line, library, cases };
                let mut grown = |library| ratio(timed(library, &cases), timed(library, &full), memory).median;
                let (proved, reference) = (grown(Library::Proved), grown(Library::Reference));
                let both = ratio(timed(Library::Proved, &cases), timed(Library::Reference, &cases), memory);
                println!(
                    "{inputs:>6}  {gates:>5}  {outputs:>7}  {faults:>6}  {proved:>6.3}  {reference:>9.3}  {:>6.2}",
                    both.median
                );
            }
        }
    }
}
