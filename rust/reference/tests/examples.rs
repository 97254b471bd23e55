//! Document 01's examples in the layout of several outputs and of parts, P1 to P10 and the report of job A, and the
//! checks that they leave open. Fault c has part c here.

use reference::Kind::{Mrm, Rm};
use reference::Purpose::{Detecting, Isolating};
use reference::{choose, locate, read, report, spectrum, table, undo, write};
use reference::{Chosen, Entry, Fault, FaultEntry, Gate, Job, Kind, Located, Purpose};

const JOB_A: [u8; 14] = [0x20, 0x20, 0x00, 0x10, 0x10, 0x60, 0x00, 0x00, 0xa0, 0x00, 0x04, 0x81, 0x02, 0x18];
const JOB_P2: [u8; 4] = [0x10, 0, 0, 0];
const JOB_P10: [u8; 9] = [0x20, 0x20, 0x00, 0x10, 0x10, 0x30, 0x00, 0x20, 0x80];

fn spectrum_of(inputs: usize, table: &[u8], kind: Kind, polarity: usize) -> Vec<u16> {
    let mut out = vec![0; 1 << inputs];
    spectrum(inputs, table, kind, polarity, &mut out).unwrap();
    out
}

/// The signature as indices and outputs.
fn signature(bytes: &[u8], purpose: Purpose, kind: Kind) -> Vec<(u16, u16)> {
    let mut work = [0; 1024];
    match choose(bytes, purpose, kind, 0, &mut work) {
        Chosen::Signature { count, entries, .. } => entries[..count].iter().map(|e| (e.index, e.output)).collect(),
        other => panic!("{other:?}"),
    }
}

/// The bytes of a record.
fn written(job: &Job) -> Vec<u8> {
    let mut bytes = [0; 320];
    let size = write(job, &mut bytes).unwrap();
    bytes[..size].to_vec()
}

/// A job without gates, of these output lines and faults.
fn without_gates(inputs: u8, outputs: &[u8], faults: &[Fault]) -> Job {
    let mut job = read(&JOB_P2).unwrap();
    job.inputs = inputs;
    job.output_count = outputs.len() as u8;
    job.outputs[..outputs.len()].copy_from_slice(outputs);
    job.fault_count = faults.len() as u8;
    for ((place, fault), part) in job.faults.iter_mut().zip(faults).zip(1..) {
        *place = FaultEntry { fault: *fault, part };
    }
    job
}

#[test]
fn p1_no_bytes() {
    assert_eq!(read(&[]), Err(1));
    assert_eq!(report(&[]), b"refused 1\n");
}

#[test]
fn p2_smallest_job() {
    let job = read(&JOB_P2).unwrap();
    assert_eq!((job.inputs, job.gate_count, job.output_count, job.fault_count), (1, 0, 1, 0));
    assert_eq!(job.outputs, [0; 4]);
    assert!(job.gates.iter().all(|gate| *gate == Gate::Buf(0)));
    let unused = FaultEntry { fault: Fault::Stuck(0, false), part: 0 };
    assert!(job.faults.iter().all(|entry| *entry == unused));
    assert_eq!(signature(&JOB_P2, Isolating, Mrm), []);
    assert_eq!(report(&JOB_P2), b"inputs 1 gates 0 faults 0\nsignature\n0\n");
    // Its bytes of one output end in the fault count.
    assert_eq!(read(&JOB_P2[..3]), Err(1));
}

#[test]
fn p3_byte_after_the_end() {
    assert_eq!(read(&[0x10, 0, 0, 0, 0]), Err(9));
    assert_eq!(report(&[0x10, 0, 0, 0, 0]), b"refused 9\n");
}

#[test]
fn p4_to_p6_spectra() {
    assert_eq!(spectrum_of(3, &[0x5d], Rm, 0), [0, 1, 0, 0, 1, 1, 1, 1]);
    assert_eq!(spectrum_of(3, &[0x5d], Mrm, 5), [1, 2, 2, 3, 2, 3, 4, 5]);
    assert_eq!(spectrum_of(4, &[0x1d, 0xe2], Mrm, 0), [0, 0, 0, 1, 1, 2, 1, 4, 1, 2, 2, 4, 2, 4, 4, 8]);
}

#[test]
fn p7_undoing() {
    let mut out = [0x5a; 2];
    assert_eq!(undo(1, &[1, 0], Mrm, 0, &mut out), Err(14));
    assert_eq!(out, [0x5a; 2]);
    assert_eq!(undo(1, &[1, 2], Mrm, 0, &mut out), Ok(()));
    assert_eq!(out, [0xc0, 0x5a]);
}

#[test]
fn p8_p9_job_a() {
    assert_eq!(signature(&JOB_A, Isolating, Rm), [(1, 0), (2, 0), (3, 0)]);
    assert_eq!(signature(&JOB_A, Isolating, Mrm), [(1, 0), (3, 0)]);
    assert_eq!(signature(&JOB_A, Detecting, Rm), [(3, 0)]);
    let mut work = [7; 20];
    let chosen = choose(&JOB_A, Isolating, Mrm, 0, &mut work);
    let Chosen::Signature { inputs: 2, gates: 1, outputs: 1, faults: 3, count: 2, entries } = chosen else {
        panic!("{chosen:?}")
    };
    assert!(entries[2..].iter().all(|entry| *entry == Entry::default()));
    assert_eq!(work, [0, 0, 0, 1, 0, 0, 0, 0, 0, 0, 1, 2, 0, 1, 0, 2, 7, 7, 7, 7]);
}

#[test]
fn p10_alike() {
    let mut work = [7; 9];
    assert_eq!(choose(&JOB_P10, Isolating, Mrm, 0, &mut work), Chosen::Alike(0, 1));
    assert_eq!(work, [0, 0, 0, 1, 0, 0, 0, 1, 7]);
    assert_eq!(report(&JOB_P10), b"refused 15 0 1\n");
}

#[test]
fn report_of_job_a() {
    let text = "inputs 2 gates 1 faults 3\nsignature 1:0 3:0\n0 0 1\n1 0 0\n2 0 2\n3 1 2\n";
    assert_eq!(report(&JOB_A), text.as_bytes());
}

#[test]
fn reading_judges_fields_in_turn() {
    assert_eq!(read(&[0x00]), Err(2));
    assert_eq!(read(&[0x90]), Err(2));
    assert_eq!(read(&[0x10]), Err(1));
    assert_eq!(read(&[0x18, 0x20]), Err(3));
    // NOT of line 0 with b too high is 4; with b another line below its own, 5.
    assert_eq!(read(&[0x20, 0x38, 0x00, 0x20]), Err(4));
    assert_eq!(read(&[0x20, 0x38, 0x00, 0x10]), Err(5));
    // Stuck fault on line 0 whose b is no line: 8. On a line that isn't: 7. Both have part 0.
    assert_eq!(read(&[0x10, 0x00, 0x00, 0x40, 0x01, 0x40]), Err(8));
    assert_eq!(read(&[0x10, 0x00, 0x00, 0x40, 0x20, 0x00]), Err(7));
    assert_eq!(read(&[0x10, 0x00, 0x00, 0x40, 0x00, 0x00]), Err(21));
    assert_eq!(read(&[0x10, 0x00, 0x00, 0x40, 0x20]), Err(1));
    assert_eq!(read(&[0x10, 0x00, 0x00, 0x40]), Err(1));
    // The last spare bit.
    assert_eq!(read(&[0x10, 0x00, 0x00, 0x01]), Err(9));
}

/// Each output is judged by 6 as soon as it is read.
#[test]
fn outputs_in_turn() {
    // Of one input: two outputs, of which the first is line 0 or 1; the second is cut off, or line 1.
    assert_eq!(read(&[0x10, 0x08, 0x00]), Err(1));
    assert_eq!(read(&[0x10, 0x08, 0x10]), Err(6));
    assert_eq!(read(&[0x10, 0x08, 0x00, 0x20]), Err(6));
    assert_eq!(read(&[0x10, 0x08, 0x00, 0x00]), Err(1));
    assert_eq!(read(&[0x10, 0x08, 0x00, 0x00, 0x00]).unwrap().output_count, 2);
    // The highest of four.
    let job = without_gates(8, &[7, 0, 7, 3], &[]);
    assert_eq!(read(&written(&job)), Ok(job));
    for place in 0..4 {
        let mut job = job;
        job.outputs[place] = 8;
        assert_eq!(write(&job, &mut []), Err(6));
    }
}

/// In a record the number of outputs is judged after the gates and before the output lines.
#[test]
fn outputs_of_a_record() {
    for count in [0, 5, 255] {
        let mut job = without_gates(8, &[8], &[]);
        job.output_count = count;
        assert_eq!(write(&job, &mut []), Err(20));
        job.gate_count = 1;
        job.gates[0] = Gate::Buf(8);
        assert_eq!(write(&job, &mut []), Err(4));
    }
    // Unused outputs are neither checked nor written.
    let mut job = without_gates(1, &[0], &[]);
    job.outputs = [0, 9, 9, 9];
    assert_eq!(written(&job), JOB_P2);
}

/// A copy of an input twice, then another input: the first and the third differ, the second tells nothing more.
#[test]
fn several_outputs() {
    let faults = [Fault::Stuck(0, false), Fault::Stuck(1, false), Fault::Bridge(0, 1, true)];
    let bytes = written(&without_gates(2, &[0, 0, 1], &faults));
    let mut out = [0x5a; 2];
    for (circuit, tables) in [[0x50, 0x50, 0x30], [0, 0, 0x30], [0x50, 0x50, 0], [0x10; 3]].iter().enumerate() {
        for (output, expected) in tables.iter().enumerate() {
            assert_eq!(table(&bytes, circuit, output, &mut out), Ok(()));
            assert_eq!(out, [*expected, 0x5a]);
        }
    }
    let mut work = [7; 50];
    let chosen = choose(&bytes, Isolating, Mrm, 0, &mut work);
    assert!(matches!(chosen, Chosen::Signature { outputs: 3, faults: 3, .. }), "{chosen:?}");
    assert_eq!(signature(&bytes, Isolating, Mrm), [(1, 0), (2, 2)]);
    assert_eq!(signature(&bytes, Detecting, Mrm), [(1, 0), (2, 2)]);
    #[rustfmt::skip]
    let spectra = [
        0, 1, 0, 2, 0, 1, 0, 2, 0, 0, 1, 2,
        0, 0, 0, 0, 0, 0, 0, 0, 0, 0, 1, 2,
        0, 1, 0, 2, 0, 1, 0, 2, 0, 0, 0, 0,
        0, 0, 0, 1, 0, 0, 0, 1, 0, 0, 0, 1,
        7, 7,
    ];
    assert_eq!(work, spectra);
    assert_eq!(locate(&bytes, Mrm, 0, &[1, 2], &[0, 2], &[0, 0], &mut work), Located::Part(3, 3));
    assert_eq!(locate(&bytes, Mrm, 0, &[2, 1, 1], &[2, 1, 0], &[0, 1, 1], &mut work), Located::Part(2, 2));
    assert_eq!(locate(&bytes, Mrm, 0, &[1], &[2], &[0], &mut work), Located::Several(0, 4));
    let text = "inputs 2 gates 0 faults 3\nsignature 1:0 2:2\n0 1 1\n1 0 1\n2 1 0\n3 0 0\n";
    assert_eq!(report(&bytes), text.as_bytes());
}

/// Circuits are alike when all outputs agree on every input.
#[test]
fn alike_at_one_output_only() {
    let faults = [Fault::Stuck(1, false), Fault::Stuck(1, true)];
    let mut work = [0; 24];
    assert_eq!(choose(&written(&without_gates(2, &[0], &faults)), Isolating, Rm, 0, &mut work), Chosen::Alike(0, 1));
    assert_eq!(signature(&written(&without_gates(2, &[0, 1], &faults)), Isolating, Mrm), [(2, 1)]);
    assert_eq!(signature(&written(&without_gates(2, &[0, 1], &faults)), Isolating, Rm), [(0, 1), (2, 1)]);
}

#[test]
fn more_bytes_than_any_job_are_9() {
    let mut bytes = vec![0; 100_000];
    bytes[0] = 0x10;
    assert_eq!(read(&bytes), Err(9));
    assert_eq!(report(&bytes), b"refused 9\n");
}

#[test]
fn longest_job_has_seven_spare_bits() {
    let mut job = without_gates(8, &[71, 0, 71, 7], &[Fault::Bridge(6, 7, false); 63]);
    job.gate_count = 64;
    // A chain of gates, each read by the next.
    job.gates = std::array::from_fn(|q| Gate::Xnor(7 + q as u8, 7));
    let mut out = [0xee; 321];
    assert_eq!(write(&job, &mut out[..315]), Err(10));
    assert_eq!(out, [0xee; 321]);
    assert_eq!(write(&job, &mut out), Ok(316));
    assert_eq!(out[316..], [0xee; 5]);
    assert_eq!(read(&out[..316]), Ok(job));
    // Only the last bit of the last part is in the last byte.
    assert_eq!(read(&out[..315]), Err(1));
    assert_eq!(read(&out[..317]), Err(9));
    assert_eq!(read(&out), Err(9));
    for spare in 0..7 {
        let mut bytes = out[..316].to_vec();
        bytes[315] |= 1 << spare;
        assert_eq!(read(&bytes), Err(9));
    }
    out[315] &= 0x7f;
    job.faults[62].part = 62;
    assert_eq!(read(&out[..316]), Ok(job));
}

/// The report lends 32768 numbers. All of these jobs have alike circuits, for which 15 comes after 10.
#[test]
fn report_at_the_edge_of_its_work() {
    let first_line = |inputs, outputs: &[u8], faults: usize| {
        let job = without_gates(inputs, outputs, &[Fault::Stuck(0, false); 63][..faults]);
        String::from_utf8(report(&written(&job))).unwrap()
    };
    assert_eq!(first_line(8, &[0; 4], 31), "refused 15 1 2\n");
    assert_eq!(first_line(8, &[0; 4], 32), "refused 10\n");
    assert_eq!(first_line(8, &[0; 3], 41), "refused 15 1 2\n");
    assert_eq!(first_line(8, &[0; 3], 42), "refused 10\n");
    assert_eq!(first_line(8, &[0; 2], 63), "refused 15 1 2\n");
    assert_eq!(first_line(7, &[0; 4], 63), "refused 15 1 2\n");
}

#[test]
fn refusals_come_in_the_stated_order() {
    let mut numbers = [9; 8];
    assert_eq!(spectrum(0, &[], Rm, 9, &mut []), Err(2));
    assert_eq!(spectrum(9, &[], Rm, 9, &mut []), Err(2));
    assert_eq!(spectrum(usize::MAX, &[], Rm, usize::MAX, &mut []), Err(2));
    assert_eq!(spectrum(3, &[0, 0], Rm, 8, &mut []), Err(12));
    assert_eq!(spectrum(1, &[0x20], Rm, 2, &mut []), Err(12));
    assert_eq!(spectrum(3, &[0], Rm, 8, &mut []), Err(13));
    assert_eq!(spectrum(3, &[0], Rm, 7, &mut numbers[..7]), Err(10));
    assert_eq!(numbers, [9; 8]);
    assert_eq!(undo(0, &[], Rm, 9, &mut []), Err(2));
    assert_eq!(undo(1, &[], Rm, 2, &mut []), Err(13));
    assert_eq!(undo(1, &[], Rm, 1, &mut []), Err(14));
    assert_eq!(undo(1, &[0, 2], Rm, 1, &mut []), Err(14));
    assert_eq!(undo(1, &[0, 1], Rm, 1, &mut []), Err(10));
    assert_eq!(table(&JOB_A, 4, 1, &mut []), Err(11));
    assert_eq!(table(&JOB_A, 3, 1, &mut []), Err(20));
    assert_eq!(table(&JOB_A, 3, usize::MAX, &mut []), Err(20));
    assert_eq!(table(&JOB_A, 3, 0, &mut []), Err(10));
    assert_eq!(choose(&JOB_P10, Isolating, Rm, 4, &mut []), Chosen::Refused(13));
    assert_eq!(choose(&JOB_P10, Isolating, Rm, 3, &mut numbers[..7]), Chosen::Refused(10));
    assert_eq!(locate(&JOB_P10, Rm, 4, &[4], &[1], &[], &mut []), Located::Refused(13));
    assert_eq!(locate(&JOB_P10, Rm, 3, &[3, 4], &[1], &[], &mut []), Located::Refused(16));
    assert_eq!(locate(&JOB_P10, Rm, 3, &[3], &[0, 1], &[], &mut []), Located::Refused(20));
    assert_eq!(locate(&JOB_P10, Rm, 3, &[3], &[0], &[], &mut []), Located::Refused(17));
    assert_eq!(locate(&JOB_P10, Rm, 3, &[3], &[], &[0], &mut []), Located::Refused(17));
    assert_eq!(locate(&JOB_P10, Rm, 3, &[], &[0], &[0], &mut []), Located::Refused(17));
    assert_eq!(locate(&JOB_P10, Rm, 3, &[3], &[0], &[0], &mut numbers[..7]), Located::Refused(10));
    assert_eq!(numbers, [9; 8]);
}

#[test]
fn locating_job_a() {
    let mut work = [0; 16];
    assert_eq!(locate(&JOB_A, Mrm, 0, &[1, 3], &[0, 0], &[0, 2], &mut work), Located::Part(2, 2));
    assert_eq!(locate(&JOB_A, Mrm, 0, &[3, 3, 1], &[0, 0, 0], &[2, 2, 1], &mut work), Located::Part(3, 3));
    assert_eq!(locate(&JOB_A, Mrm, 0, &[3], &[0], &[2], &mut work), Located::Several(2, 2));
    assert_eq!(locate(&JOB_A, Mrm, 0, &[3], &[0], &[3], &mut work), Located::Nowhere);
    assert_eq!(locate(&JOB_A, Mrm, 0, &[], &[], &[], &mut work), Located::Several(0, 4));
    assert_eq!(locate(&JOB_P2, Mrm, 0, &[], &[], &[], &mut work), Located::Part(0, 0));
}
