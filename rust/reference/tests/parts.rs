//! Parts that are mended together, refusal 21: in reading bytes and in writing records, in choosing and in locating.

use reference::Kind::{Mrm, Rm};
use reference::Purpose::{Detecting, Isolating};
use reference::{choose, locate, read, report, write, Chosen, Fault, FaultEntry, Gate, Job, Kind, Located, Purpose};

/// The fault count and faults as bits: a kind, line a, line b and a part each.
fn bits(faults: &[[u8; 4]]) -> String {
    let mut bits = format!("{:06b}", faults.len());
    for [kind, a, b, part] in faults {
        bits += &format!("{kind:02b}{a:07b}{b:07b}{part:06b}");
    }
    bits
}

/// Bits as bytes, with zero bits up to a whole byte.
fn bytes(bits: &str) -> Vec<u8> {
    let byte = |bits: &[u8]| bits.iter().enumerate().fold(0, |byte, (i, bit)| byte | (bit - b'0') << (7 - i));
    bits.as_bytes().chunks(8).map(byte).collect()
}

/// The bits of circuits without gates that end at different places in a byte, and their inputs. Each output is line 0.
fn circuits() -> Vec<(u8, String)> {
    let outputs = |count: usize| format!("{:02b}{}", count - 1, "0".repeat(7 * count));
    (1..=8)
        .flat_map(|inputs| (1..=4).map(move |count| (inputs, format!("{inputs:04b}0000000") + &outputs(count))))
        .collect()
}

/// A record without gates; each output is line 0.
fn record(inputs: u8, faults: &[(Fault, u8)]) -> Job {
    let mut job = Job {
        inputs,
        gate_count: 0,
        gates: [Gate::Buf(0); 64],
        output_count: 1,
        outputs: [0; 4],
        fault_count: faults.len() as u8,
        faults: [FaultEntry::UNUSED; 63],
    };
    for (place, (fault, part)) in job.faults.iter_mut().zip(faults) {
        *place = FaultEntry { fault: *fault, part: *part };
    }
    job
}

/// Reads the faults behind each of the circuits; the number that all of them give, 0 for success.
fn number(faults: &[[u8; 4]]) -> u8 {
    let number = |bits: &str| read(&bytes(bits)).err().unwrap_or(0);
    let numbers = circuits().iter().map(|(_, circuit)| number(&(circuit.clone() + &bits(faults)))).collect::<Vec<_>>();
    assert!(numbers[1..].iter().all(|other| *other == numbers[0]), "{faults:?}: {numbers:?}");
    numbers[0]
}

#[test]
fn every_part() {
    assert_eq!(number(&[[0, 0, 0, 0]]), 21);
    for part in 1..=63 {
        assert_eq!(number(&[[0, 0, 0, part]]), 0);
        let job = read(&bytes(&(circuits()[0].1.clone() + &bits(&[[1, 0, 0, part]])))).unwrap();
        assert_eq!(job.faults[0], FaultEntry { fault: Fault::Stuck(0, true), part });
        assert!(job.faults[1..].iter().all(|entry| *entry == FaultEntry::UNUSED));
    }
}

#[test]
fn every_part_of_a_record() {
    for part in 0..=255 {
        let job = record(1, &[(Fault::Stuck(0, true), part)]);
        let mut out = [0; 6];
        let answer = if (1..=63).contains(&part) { Ok(6) } else { Err(21) };
        assert_eq!(write(&job, &mut out), answer);
        // 21 comes before 10.
        assert_eq!(write(&job, &mut out[..5]), answer.and(Err(10)));
        if answer.is_ok() {
            assert_eq!(read(&out), Ok(job));
        }
    }
    // Unused entries are neither checked nor written.
    let mut job = record(1, &[]);
    job.faults[0].part = 64;
    assert_eq!(write(&job, &mut [0; 4]), Ok(4));
}

#[test]
fn after_7_and_8() {
    for part in [0, 1, 63] {
        // A stuck line that isn't, without and with another b; bridges of one and of two lines that are no inputs.
        for fault in [[0, 8, 8], [1, 8, 0], [2, 0, 8], [3, 9, 8], [2, 8, 8]] {
            assert_eq!(number(&[[fault[0], fault[1], fault[2], part]]), 7);
        }
        for fault in [[0, 0, 1], [1, 0, 127], [2, 0, 0], [3, 0, 0]] {
            assert_eq!(number(&[[fault[0], fault[1], fault[2], part]]), 8);
        }
    }
    for part in [0, 64, 255] {
        let written = |fault| write(&record(2, &[(fault, part)]), &mut []);
        assert_eq!(written(Fault::Stuck(2, true)), Err(7));
        assert_eq!(written(Fault::Bridge(0, 2, true)), Err(7));
        assert_eq!(written(Fault::Bridge(1, 0, true)), Err(8));
        assert_eq!(written(Fault::Bridge(1, 1, false)), Err(8));
        assert_eq!(written(Fault::Stuck(1, true)), Err(21));
        assert_eq!(written(Fault::Bridge(0, 1, true)), Err(21));
    }
}

#[test]
fn per_fault_in_turn() {
    let (good, no_part, no_line, two_lines) = ([0, 0, 0, 5], [0, 0, 0, 0], [0, 9, 9, 0], [1, 0, 1, 0]);
    assert_eq!(number(&[good, good, good]), 0);
    assert_eq!(number(&[good, no_part, no_line]), 21);
    assert_eq!(number(&[no_part, two_lines]), 21);
    assert_eq!(number(&[good, no_line, no_part]), 7);
    assert_eq!(number(&[two_lines, no_line, no_part]), 8);
    let (good, no_part) = ((Fault::Stuck(0, false), 5), (Fault::Stuck(0, false), 64));
    let (no_line, two_lines) = ((Fault::Stuck(9, false), 64), (Fault::Bridge(1, 0, false), 64));
    let written = |faults: &[(Fault, u8)]| write(&record(2, faults), &mut []);
    assert_eq!(written(&[good, good]), Err(10));
    assert_eq!(written(&[good, no_part, no_line]), Err(21));
    assert_eq!(written(&[no_part, two_lines]), Err(21));
    assert_eq!(written(&[good, no_line, no_part]), Err(7));
    assert_eq!(written(&[two_lines, no_part]), Err(8));
    // 18 comes before all faults, 9 after them.
    let mut job = record(2, &[no_part]);
    job.fault_count = 64;
    assert_eq!(write(&job, &mut []), Err(18));
    for (part, number) in [(0, 21), (1, 9)] {
        let mut bytes = bytes(&(circuits()[0].1.clone() + &bits(&[[0, 0, 0, part]])));
        bytes.push(0);
        assert_eq!(read(&bytes), Err(number));
    }
}

/// All four fields are read before 7 is judged: a job that ends inside the part is cut, whatever its lines are.
#[test]
fn cut_inside_the_part() {
    let mut inside = [0; 6];
    for (inputs, circuit) in circuits() {
        for fault in [[0, 0, 0, 63], [0, inputs, inputs, 63], [2, 0, 0, 63], [0, 0, 1, 0], [0, 0, 0, 0]] {
            for before in 0..4 {
                let faults = [vec![[1, 0, 0, 1]; before], vec![fault]].concat();
                let bits = circuit.clone() + &bits(&faults);
                let part = bits.len() - 6;
                for end in (part..part + 6).filter(|end| end % 8 == 0) {
                    assert_eq!(read(&bytes(&bits[..end])), Err(1), "{bits}");
                    assert_eq!(report(&bytes(&bits[..end])), b"refused 1\n");
                    inside[end - part] += 1;
                }
            }
        }
    }
    assert!(inside.iter().all(|count| *count > 0), "{inside:?}");
}

/// What choosing answers for a job without gates whose outputs are all its inputs.
fn chosen(inputs: u8, faults: &[(Fault, u8)], purpose: Purpose, kind: Kind) -> Chosen {
    choose(&job_bytes(inputs, faults), purpose, kind, 0, &mut [0; 1024])
}

fn job_bytes(inputs: u8, faults: &[(Fault, u8)]) -> Vec<u8> {
    let mut job = record(inputs, faults);
    job.output_count = inputs;
    job.outputs = [0, 1, 2, 3].map(|line| line % inputs);
    let mut out = [0; 320];
    let length = write(&job, &mut out).unwrap();
    out[..length].to_vec()
}

/// The signature as indices and outputs.
fn signature(inputs: u8, faults: &[(Fault, u8)], purpose: Purpose, kind: Kind) -> Vec<(u16, u16)> {
    match chosen(inputs, faults, purpose, kind) {
        Chosen::Signature { count, entries, .. } => entries[..count].iter().map(|e| (e.index, e.output)).collect(),
        other => panic!("{other:?}"),
    }
}

const A0: Fault = Fault::Stuck(0, false);
const A1: Fault = Fault::Stuck(0, true);
const B0: Fault = Fault::Stuck(1, false);

/// Equal faults are alike in isolating only where their parts differ.
#[test]
fn alike_by_part() {
    assert_eq!(chosen(2, &[(A0, 1), (A0, 2)], Isolating, Rm), Chosen::Alike(1, 2));
    assert_eq!(signature(2, &[(A0, 1), (A0, 1)], Isolating, Rm), [(1, 0)]);
    assert_eq!(signature(2, &[(A0, 1), (A0, 2)], Detecting, Rm), [(1, 0)]);
    // The first pair that is needed: by the lower number, then by the higher, over parts that fall and come again.
    assert_eq!(chosen(2, &[(A0, 7), (A0, 7), (A0, 3)], Isolating, Mrm), Chosen::Alike(1, 3));
    assert_eq!(chosen(2, &[(B0, 9), (A0, 7), (A0, 7), (A0, 9), (A0, 3)], Isolating, Mrm), Chosen::Alike(2, 4));
    let faults = [(A0, 5), (B0, 4), (A0, 5), (B0, 1), (A0, 2), (A0, 5)];
    assert_eq!(chosen(2, &faults, Isolating, Rm), Chosen::Alike(1, 5));
    let faults = [(A0, 5), (B0, 4), (A0, 5), (B0, 1), (A0, 5)];
    assert_eq!(chosen(2, &faults, Isolating, Rm), Chosen::Alike(2, 4));
    // A fault that changes nothing is alike with the good circuit, whatever its part: here one of an input that isn't
    // an output.
    let job = record(2, &[(A0, 1), (B0, 1)]);
    let mut out = [0; 320];
    let length = write(&job, &mut out).unwrap();
    for purpose in [Isolating, Detecting] {
        assert_eq!(choose(&out[..length], purpose, Rm, 0, &mut [0; 16]), Chosen::Alike(0, 2));
    }
    assert_eq!(report(&out[..length]), b"refused 15 0 2\n");
}

/// Unequal faults of one part need no telling apart.
#[test]
fn shorter_by_part() {
    let faults = |parts: [u8; 3]| [(A0, parts[0]), (A1, parts[1]), (B0, parts[2])];
    assert_eq!(signature(2, &faults([1, 2, 3]), Isolating, Mrm), [(1, 0), (2, 1)]);
    assert_eq!(signature(2, &faults([1, 2, 3]), Isolating, Rm), [(0, 0), (1, 0), (2, 1)]);
    assert_eq!(signature(2, &faults([1, 1, 2]), Isolating, Rm), [(1, 0), (2, 1)]);
    // One part for all: what detecting takes.
    for kind in [Rm, Mrm] {
        let one = signature(2, &faults([63, 63, 63]), Isolating, kind);
        assert_eq!(one, signature(2, &faults([1, 2, 3]), Detecting, kind));
    }
    // The numbers of the parts don't matter, only which are equal.
    for parts in [[3, 2, 1], [63, 1, 62], [1, 63, 2]] {
        assert_eq!(signature(2, &faults(parts), Isolating, Rm), signature(2, &faults([1, 2, 3]), Isolating, Rm));
    }
}

#[test]
fn located_by_part() {
    let bytes = job_bytes(2, &[(A0, 9), (B0, 4), (A0, 9), (A1, 9), (B0, 4)]);
    let mut work = [7; 50];
    let mut at = |indices: &[u16], outputs: &[u16], readings: &[u16]| {
        locate(&bytes, Mrm, 0, indices, outputs, readings, &mut work)
    };
    // Circuits 1 and 3, equal and of one part; 4 by itself; 2 and 5; the good one.
    assert_eq!(at(&[1, 2], &[0, 1], &[0, 1]), Located::Part(9, 1));
    assert_eq!(at(&[0], &[0], &[1]), Located::Part(9, 4));
    assert_eq!(at(&[2], &[1], &[0]), Located::Part(4, 2));
    assert_eq!(at(&[0, 1, 2], &[0, 0, 1], &[0, 1, 1]), Located::Part(0, 0));
    // The good one with 2 and 5, or with 4; the number of circuits, not of parts.
    assert_eq!(at(&[0, 1], &[0, 0], &[0, 1]), Located::Several(0, 3));
    assert_eq!(at(&[2], &[1], &[1]), Located::Several(0, 4));
    assert_eq!(at(&[], &[], &[]), Located::Several(0, 6));
    assert_eq!(at(&[3, 3], &[0, 1], &[2, 2]), Located::Part(0, 0));
    assert_eq!(at(&[3], &[0], &[3]), Located::Nowhere);
}

/// The lowest circuit isn't the one of the lowest part, and not every circuit between agrees.
#[test]
fn several_without_the_good_circuit() {
    let bytes = job_bytes(2, &[(B0, 1), (A0, 8), (A1, 3), (Fault::Bridge(0, 1, true), 2), (A0, 8)]);
    let mut work = [0; 48];
    let mut at = |reading: u16| locate(&bytes, Mrm, 0, &[1], &[0], &[reading], &mut work);
    // x1 at the input 1 is 1 in the good circuit, 0 with A0 and with the bridge.
    assert_eq!(at(0), Located::Several(2, 3));
    assert_eq!(at(1), Located::Several(0, 2));
    assert_eq!(at(2), Located::Part(3, 3));
}

/// An empty list: all circuits agree, of one part only where there is no fault.
#[test]
fn by_nothing() {
    let at = |faults: &[(Fault, u8)]| locate(&job_bytes(1, faults), Rm, 0, &[], &[], &[], &mut [0; 16]);
    assert_eq!(at(&[]), Located::Part(0, 0));
    assert_eq!(at(&[(A0, 1)]), Located::Several(0, 2));
    assert_eq!(at(&[(A0, 1), (A1, 1)]), Located::Several(0, 3));
}
