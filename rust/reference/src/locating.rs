//! Locating the circuits that give some readings, and their part.

use crate::job::read;
use crate::refusal::{self, Refusal};
use crate::spectra::{fill, size, width, Kind};

/// What locating comes to.
#[derive(Clone, Copy, Debug, PartialEq, Eq)]
pub enum Located {
    /// The one part of all circuits that give the readings, and the lowest of them.
    Part(usize, usize),
    /// The lowest circuit that gives them, and how many do; they have different parts.
    Several(usize, usize),
    /// No circuit gives them.
    Nowhere,
    Refused(Refusal),
}

/// Finds the circuits whose coefficients at a list's entries are the readings. An entry is an index and an output,
/// which come in two lists. `work` then holds the spectra as in choosing.
pub fn locate(
    bytes: &[u8],
    kind: Kind,
    polarity: usize,
    indices: &[u16],
    outputs: &[u16],
    readings: &[u16],
    work: &mut [u16],
) -> Located {
    let job = match read(bytes) {
        Ok(job) => job,
        Err(number) => return Located::Refused(number),
    };
    if polarity >> job.inputs != 0 {
        return Located::Refused(refusal::POLARITY);
    }
    // Without a branch per index the compiler compares many at a time.
    if indices.iter().fold(0, |all, index| all | *index) >> job.inputs != 0 {
        return Located::Refused(refusal::INDEX);
    }
    if outputs.iter().fold(0, |most, output| most.max(*output)) >= job.output_count.into() {
        return Located::Refused(refusal::OUTPUT_NUMBER);
    }
    if indices.len() != outputs.len() || indices.len() != readings.len() {
        return Located::Refused(refusal::READINGS);
    }
    let Some(work) = work.get_mut(..size(&job)) else {
        return Located::Refused(refusal::MEMORY);
    };
    match job.output_count {
        1 => drop(fill::<1>(&job, kind, polarity, work)),
        2 => drop(fill::<2>(&job, kind, polarity, work)),
        3 => drop(fill::<3>(&job, kind, polarity, work)),
        _ => drop(fill::<4>(&job, kind, polarity, work)),
    }

    // The part and the number of the lowest circuit that agrees.
    let mut lowest = None;
    let mut count = 0;
    let mut one_part = true;
    for ((circuit, part), row) in job.parts().enumerate().zip(work.chunks_exact(width(&job))) {
        let mut list = indices.iter().zip(outputs).zip(readings);
        let agrees = list.all(|((index, output), reading)| {
            row[usize::from(*output) << job.inputs | usize::from(*index)] == *reading
        });
        if agrees {
            let (first_part, _) = *lowest.get_or_insert((part, circuit));
            one_part &= part == first_part;
            count += 1;
        }
    }
    match lowest {
        None => Located::Nowhere,
        Some((part, circuit)) if one_part => Located::Part(part.into(), circuit),
        Some((_, circuit)) => Located::Several(circuit, count),
    }
}
