//! Document 01's examples through the safe crate, a loose gate, the same circuit with two outputs, and a connector of
//! two halves.

use horncurlew::Kind::{Mrm, Rm};
use horncurlew::Purpose::{Detecting, Isolating};
use horncurlew::{check, choose, locate, locate_lists, rewrite, spectrum, table, undo};
use horncurlew::{Counts, Entry, Kind, Location, NoChoice, Purpose, Refusal};

const JOB_A: [u8; 14] = [0x20, 0x20, 0x00, 0x10, 0x10, 0x60, 0x00, 0x00, 0xa0, 0x00, 0x04, 0x81, 0x02, 0x18];
const JOB_P10: [u8; 9] = [0x20, 0x20, 0x00, 0x10, 0x10, 0x30, 0x00, 0x20, 0x80];
/// Job A with an OR of its inputs that nobody reads: examples/loose_gate.job.
const LOOSE: [u8; 16] =
    [0x20, 0x40, 0x00, 0x12, 0x00, 0x08, 0x08, 0x30, 0x00, 0x00, 0x50, 0x00, 0x02, 0x40, 0x81, 0x0c];
/// The same with the OR as its second output.
const TWO: [u8; 17] =
    [0x20, 0x40, 0x00, 0x12, 0x00, 0x0a, 0x08, 0x18, 0x60, 0x00, 0x00, 0xa0, 0x00, 0x04, 0x81, 0x02, 0x18];

fn spectrum_of(inputs: usize, table: &[u8], kind: Kind, polarity: usize) -> Vec<u16> {
    let mut out = vec![0; 1 << inputs];
    spectrum(inputs, table, kind, polarity, &mut out).unwrap();
    out
}

/// Each entry as index, colon, output.
fn signature(bytes: &[u8], purpose: Purpose, kind: Kind) -> Vec<String> {
    let choice = choose(bytes, purpose, kind, 0, &mut [0; 128]).unwrap();
    choice.signature.entries().iter().map(Entry::to_string).collect()
}

/// Entries at output 0.
fn entries(indices: &[u16]) -> Vec<Entry> {
    indices.iter().map(|index| Entry { index: *index, output: 0 }).collect()
}

#[test]
fn p1_to_p3_reading() {
    assert_eq!(check(&[]), Err(Refusal::BytesEnd));
    assert_eq!(check(&[0x10, 0, 0, 0]), Ok(Counts { inputs: 1, gates: 0, outputs: 1, faults: 0 }));
    assert_eq!(signature(&[0x10, 0, 0, 0], Isolating, Mrm), [""; 0]);
    assert_eq!(check(&[0x10, 0, 0, 0, 0]), Err(Refusal::Spare));
}

#[test]
fn loose_gate() {
    assert_eq!(check(&LOOSE), Err(Refusal::LooseGate));
    assert_eq!(choose(&LOOSE, Isolating, Mrm, 0, &mut [0; 16]), Err(NoChoice::Refused(Refusal::LooseGate)));
    // Without the fault count, then without the output line.
    assert_eq!(check(&LOOSE[..7]), Err(Refusal::LooseGate));
    assert_eq!(check(&LOOSE[..6]), Err(Refusal::BytesEnd));
}

#[test]
fn p4_to_p6_spectra() {
    assert_eq!(spectrum_of(3, &[0x5d], Rm, 0), [0, 1, 0, 0, 1, 1, 1, 1]);
    assert_eq!(spectrum_of(3, &[0x5d], Mrm, 5), [1, 2, 2, 3, 2, 3, 4, 5]);
    assert_eq!(spectrum_of(4, &[0x1d, 0xe2], Mrm, 0), [0, 0, 0, 1, 1, 2, 1, 4, 1, 2, 2, 4, 2, 4, 4, 8]);
}

#[test]
fn p7_undoing() {
    let mut out = [0x5a; 2];
    assert_eq!(undo(1, &[1, 0], Mrm, 0, &mut out), Err(Refusal::NoSpectrum));
    assert_eq!(out, [0x5a; 2]);
    assert_eq!(undo(1, &[1, 2], Mrm, 0, &mut out), Ok(()));
    assert_eq!(out, [0xc0, 0x5a]);
}

#[test]
fn p8_p9_choosing() {
    assert_eq!(signature(&JOB_A, Isolating, Rm), ["1:0", "2:0", "3:0"]);
    assert_eq!(signature(&JOB_A, Isolating, Mrm), ["1:0", "3:0"]);
    assert_eq!(signature(&JOB_A, Detecting, Rm), ["3:0"]);
    let mut work = [7; 20];
    let choice = choose(&JOB_A, Isolating, Mrm, 0, &mut work).unwrap();
    assert_eq!(choice.counts, Counts { inputs: 2, gates: 1, outputs: 1, faults: 3 });
    assert_eq!(work, [0, 0, 0, 1, 0, 0, 0, 0, 0, 0, 1, 2, 0, 1, 0, 2, 7, 7, 7, 7]);
}

#[test]
fn p10_alike() {
    let mut work = [7; 9];
    let alike = choose(&JOB_P10, Isolating, Mrm, 0, &mut work).unwrap_err();
    assert_eq!(alike, NoChoice::Alike(0, 1));
    assert_eq!(alike.number(), Some(15));
    assert_eq!(alike.to_string(), "refused 15: circuits 0 and 1 are alike");
    assert_eq!(work, [0, 0, 0, 1, 0, 0, 0, 1, 7]);
}

#[test]
fn tables_and_rewriting() {
    let mut out = [0xff; 16];
    assert_eq!(rewrite(&JOB_A, &mut out), Ok(14));
    assert_eq!(out[..14], JOB_A);
    assert_eq!(out[14..], [0xff; 2]);
    for (circuit, expected) in [0x10, 0x00, 0x30, 0x50].into_iter().enumerate() {
        assert_eq!(table(&JOB_A, circuit, 0, &mut out), Ok(()));
        assert_eq!(out[0], expected);
    }
    assert_eq!(table(&JOB_A, 4, 1, &mut out), Err(Refusal::Circuit));
    assert_eq!(table(&JOB_A, 3, 1, &mut out), Err(Refusal::OutputNumber));
}

#[test]
fn two_outputs() {
    assert_eq!(check(&TWO), Ok(Counts { inputs: 2, gates: 2, outputs: 2, faults: 3 }));
    let mut out = [0; 1];
    for (circuit, expected) in [[0x10, 0x70], [0x00, 0x30], [0x30, 0xf0], [0x50, 0xf0]].iter().enumerate() {
        for (output, entries) in expected.iter().enumerate() {
            assert_eq!(table(&TWO, circuit, output, &mut out), Ok(()));
            assert_eq!(out, [*entries]);
        }
    }
    assert_eq!(signature(&TWO, Isolating, Mrm), ["1:0", "1:1"]);
    let mut work = [0; 32];
    let second = |index| Entry { index, output: 1 };
    assert_eq!(locate(&TWO, Mrm, 0, &[second(1)], &[0], &mut work), Ok(Location::Part { part: 1, lowest: 1 }));
    assert_eq!(locate(&TWO, Mrm, 0, &[second(3)], &[4], &mut work), Ok(Location::Several { lowest: 2, count: 2 }));
    assert_eq!(locate(&JOB_A, Mrm, 0, &[second(1)], &[0], &mut work), Err(Refusal::OutputNumber));
    // The lists by themselves, of different lengths.
    let mut lists = |indices: &[u16], outputs: &[u16], readings: &[u16]| {
        locate_lists(&TWO, Mrm, 0, indices, outputs, readings, &mut work)
    };
    assert_eq!(lists(&[3, 1], &[1, 1], &[2, 0]), Ok(Location::Part { part: 1, lowest: 1 }));
    assert_eq!(lists(&[3, 1], &[1], &[2, 0]), Err(Refusal::Readings));
    assert_eq!(lists(&[3], &[1, 1], &[2]), Err(Refusal::Readings));
    assert_eq!(lists(&[3, 1], &[1, 1], &[2]), Err(Refusal::Readings));
    assert_eq!(lists(&[3], &[1, 2], &[2]), Err(Refusal::OutputNumber));
    assert_eq!(lists(&[3, 4], &[2], &[2]), Err(Refusal::Index));
}

#[test]
fn locating() {
    let mut work = [0; 16];
    let mut at = |indices: &[u16], readings: &[u16]| locate(&JOB_A, Mrm, 0, &entries(indices), readings, &mut work);
    assert_eq!(at(&[1, 3], &[0, 2]), Ok(Location::Part { part: 2, lowest: 2 }));
    assert_eq!(at(&[3, 3, 1], &[2, 2, 1]), Ok(Location::Part { part: 3, lowest: 3 }));
    assert_eq!(at(&[3], &[2]), Ok(Location::Several { lowest: 2, count: 2 }));
    assert_eq!(at(&[3], &[3]), Ok(Location::Nowhere));
    assert_eq!(at(&[], &[]), Ok(Location::Several { lowest: 0, count: 4 }));
    assert_eq!(at(&[4], &[]), Err(Refusal::Index));
    assert_eq!(at(&[3], &[]), Err(Refusal::Readings));
}

/// Faults 1 and 2 are equal and need no telling apart, since one half is mended for both.
#[test]
fn connector() {
    let job = include_bytes!("../../../examples/connector.job");
    assert_eq!(check(job), Ok(Counts { inputs: 4, gates: 3, outputs: 1, faults: 7 }));
    assert_eq!(signature(job, Isolating, Mrm), ["1:0", "9:0", "12:0"]);
    let mut work = [0; 128];
    let mut at = |indices: &[u16], readings: &[u16]| locate(job, Mrm, 0, &entries(indices), readings, &mut work);
    // Circuits 1 and 2, then 3 and 4, which differ but not here; then those of the other half, and the good one.
    assert_eq!(at(&[1, 9, 12], &[0, 2, 2]), Ok(Location::Part { part: 1, lowest: 1 }));
    assert_eq!(at(&[1, 9, 12], &[0, 0, 1]), Ok(Location::Part { part: 1, lowest: 3 }));
    assert_eq!(at(&[1, 9, 12], &[0, 1, 0]), Ok(Location::Part { part: 2, lowest: 5 }));
    assert_eq!(at(&[1, 9, 12], &[0, 1, 1]), Ok(Location::Part { part: 0, lowest: 0 }));
    // By a shorter list: 3 and 4 of the one half and 6 of the other.
    assert_eq!(at(&[1, 9], &[0, 0]), Ok(Location::Several { lowest: 3, count: 3 }));
    assert_eq!(at(&[1, 9, 12], &[1, 1, 1]), Ok(Location::Nowhere));
    // The same faults with parts of their own; the parts stand in the last six of 22 bits each, from bit 77 on.
    let mut own = *job;
    for part in 1..=7u8 {
        for bit in 0..6 {
            let place = 77 + 22 * usize::from(part) - 6 + bit;
            own[place / 8] &= !(0x80 >> (place % 8));
            own[place / 8] |= (part >> (5 - bit) & 1) << (7 - place % 8);
        }
    }
    assert_eq!(choose(&own, Isolating, Mrm, 0, &mut work), Err(NoChoice::Alike(1, 2)));
    // Fault 1 of no part.
    own[(77 + 16) / 8] &= 0xf8;
    own[(77 + 16) / 8 + 1] &= 0x1f;
    assert_eq!(check(&own), Err(Refusal::Part));
    assert_eq!(Refusal::Part.to_string(), "refused 21: a fault's part isn't 1 to 63");
}

/// Slices of length 0, whose pointers point nowhere.
#[test]
fn empty_slices() {
    let (mut no_bytes, mut no_numbers): ([u8; 0], [u16; 0]) = ([], []);
    assert_eq!(rewrite(&[], &mut no_bytes), Err(Refusal::BytesEnd));
    assert_eq!(rewrite(&JOB_A, &mut no_bytes), Err(Refusal::Memory));
    assert_eq!(table(&JOB_A, 0, 0, &mut no_bytes), Err(Refusal::Memory));
    assert_eq!(spectrum(3, &[], Rm, 0, &mut no_numbers), Err(Refusal::Table));
    assert_eq!(spectrum(3, &[0x5d], Rm, 0, &mut no_numbers), Err(Refusal::Memory));
    assert_eq!(undo(1, &[], Rm, 0, &mut no_bytes), Err(Refusal::NoSpectrum));
    assert_eq!(undo(1, &[0, 1], Rm, 0, &mut no_bytes), Err(Refusal::Memory));
    assert_eq!(choose(&[], Isolating, Rm, 0, &mut no_numbers), Err(NoChoice::Refused(Refusal::BytesEnd)));
    assert_eq!(choose(&JOB_A, Isolating, Rm, 0, &mut no_numbers), Err(NoChoice::Refused(Refusal::Memory)));
    assert_eq!(locate(&JOB_A, Rm, 0, &[], &[], &mut no_numbers), Err(Refusal::Memory));
}
