//! Loose gates, refusal 19, in reading bytes and in writing records.

use reference::{read, report, write, FaultEntry, Gate, Job};

/// A gate's kind, line a and line b.
type Fields = [u8; 3];

const AND: u8 = 0;
const OR: u8 = 1;
const XOR: u8 = 4;
const NOT: u8 = 6;
const BUF: u8 = 7;

fn gate([kind, a, b]: Fields) -> Gate {
    match kind {
        AND => Gate::And(a, b),
        OR => Gate::Or(a, b),
        XOR => Gate::Xor(a, b),
        NOT => Gate::Not(a),
        BUF => Gate::Buf(a),
        _ => panic!("no gate of kind {kind} here"),
    }
}

/// The record of a circuit without faults.
fn record(inputs: u8, gates: &[Fields], outputs: &[u8]) -> Job {
    let mut job = Job {
        inputs,
        gate_count: gates.len() as u8,
        gates: [Gate::Buf(0); 64],
        output_count: outputs.len() as u8,
        outputs: [0; 4],
        fault_count: 0,
        faults: [FaultEntry::UNUSED; 63],
    };
    for (place, fields) in job.gates.iter_mut().zip(gates) {
        *place = gate(*fields);
    }
    job.outputs[..outputs.len()].copy_from_slice(outputs);
    job
}

fn written(job: &Job) -> Result<usize, u8> {
    write(job, &mut [0; 320])
}

/// The bits of a circuit, up to the output lines.
fn bits(inputs: u8, gates: &[Fields], outputs: &[u8]) -> String {
    let mut bits = format!("{inputs:04b}{:07b}", gates.len());
    for [kind, a, b] in gates {
        bits += &format!("{kind:03b}{a:07b}{b:07b}");
    }
    bits += &format!("{:02b}", outputs.len() - 1);
    outputs.iter().for_each(|output| bits += &format!("{output:07b}"));
    bits
}

/// Bits as bytes, with zero bits up to a whole byte.
fn bytes(bits: &str) -> Vec<u8> {
    let byte = |bits: &[u8]| bits.iter().enumerate().fold(0, |byte, (i, bit)| byte | (bit - b'0') << (7 - i));
    bits.as_bytes().chunks(8).map(byte).collect()
}

/// The refusal of a circuit without faults, or 0: the same in reading and in writing.
fn number_of(inputs: u8, gates: &[Fields], outputs: &[u8]) -> u8 {
    let reading = read(&bytes(&(bits(inputs, gates, outputs) + "000000"))).err();
    assert_eq!(reading, written(&record(inputs, gates, outputs)).err());
    reading.unwrap_or(0)
}

/// With one output, which is the same as with that output several times.
fn number(inputs: u8, gates: &[Fields], output: u8) -> u8 {
    let number = number_of(inputs, gates, &[output]);
    for count in 2..=4 {
        assert_eq!(number_of(inputs, gates, &[output; 4][..count]), number);
    }
    number
}

#[test]
fn the_outputs_own_gate() {
    assert_eq!(number(2, &[[AND, 0, 1]], 2), 0);
    assert_eq!(number(1, &[[NOT, 0, 0]], 1), 0);
}

#[test]
fn read_through_other_gates() {
    assert_eq!(number(2, &[[AND, 0, 1], [NOT, 2, 2], [OR, 3, 0]], 4), 0);
    assert_eq!(number(2, &[[AND, 0, 1], [OR, 0, 1], [XOR, 2, 3]], 4), 0);
    let chain: Vec<Fields> = (7..71).map(|line| [XOR, line, line]).collect();
    assert_eq!(number(8, &chain, 71), 0);
}

#[test]
fn read_by_nobody() {
    // The last gate, the first one, one between.
    assert_eq!(number(2, &[[AND, 0, 1], [OR, 0, 1]], 2), 19);
    assert_eq!(number(2, &[[AND, 0, 1], [OR, 0, 1]], 3), 19);
    assert_eq!(number(2, &[[AND, 0, 1], [OR, 0, 1], [NOT, 2, 2]], 4), 19);
    let mut chain: Vec<Fields> = (7..71).map(|line| [BUF, line, line]).collect();
    assert_eq!(number(8, &chain, 70), 19);
    chain[63] = [BUF, 69, 69];
    assert_eq!(number(8, &chain, 71), 19);
    // All but the last.
    chain[63] = [BUF, 0, 0];
    assert_eq!(number(8, &chain, 71), 19);
}

#[test]
fn read_by_loose_gates_only() {
    assert_eq!(number(2, &[[AND, 0, 1], [OR, 0, 1], [NOT, 3, 3]], 2), 19);
    assert_eq!(number(2, &[[AND, 0, 1], [NOT, 2, 2], [OR, 0, 1]], 4), 19);
    // A gate that reads the output is none that the output reads.
    assert_eq!(number(2, &[[AND, 0, 1], [NOT, 2, 2]], 2), 19);
}

#[test]
fn output_on_an_input_line() {
    assert_eq!(number(2, &[[AND, 0, 1]], 0), 19);
    assert_eq!(number(2, &[[AND, 0, 1], [NOT, 2, 2]], 1), 19);
    assert_eq!(number(2, &[], 0), 0);
    assert_eq!(number(8, &[], 7), 0);
}

#[test]
fn unused_inputs() {
    assert_eq!(number(3, &[[BUF, 1, 1]], 3), 0);
    assert_eq!(number(8, &[[AND, 2, 5], [NOT, 8, 8]], 9), 0);
}

#[test]
fn read_without_influence() {
    assert_eq!(number(2, &[[AND, 0, 1], [XOR, 2, 2]], 3), 0);
    // An AND of a line with 0.
    assert_eq!(number(2, &[[XOR, 0, 0], [OR, 0, 1], [AND, 2, 3]], 4), 0);
}

#[test]
fn of_several_outputs() {
    // Each output's own gate, and what only a later one depends on.
    assert_eq!(number_of(2, &[[AND, 0, 1], [OR, 0, 1]], &[2, 3]), 0);
    assert_eq!(number_of(2, &[[AND, 0, 1], [OR, 0, 1]], &[3, 2]), 0);
    let gates = [[AND, 0, 1], [OR, 0, 1], [NOT, 2, 2], [NOT, 3, 3]];
    assert_eq!(number_of(2, &gates, &[4, 5]), 0);
    assert_eq!(number_of(2, &gates, &[5, 0, 1, 4]), 0);
    assert_eq!(number_of(2, &gates, &[4, 4, 4]), 19);
    assert_eq!(number_of(2, &gates, &[5, 2]), 19);
    // An output that another depends on.
    assert_eq!(number_of(2, &[[AND, 0, 1], [NOT, 2, 2]], &[2, 3]), 0);
    assert_eq!(number_of(2, &[[AND, 0, 1], [NOT, 2, 2], [OR, 0, 1]], &[2, 3]), 19);
    // One gate each.
    assert_eq!(number_of(1, &[[NOT, 0, 0]; 4], &[1, 2, 3, 4]), 0);
    assert_eq!(number_of(1, &[[NOT, 0, 0]; 4], &[1, 2, 4, 4]), 19);
    assert_eq!(number_of(1, &[[NOT, 0, 0]; 5], &[1, 2, 3, 4]), 19);
    // Only inputs.
    assert_eq!(number_of(2, &[[AND, 0, 1]], &[0, 1]), 19);
    assert_eq!(number_of(2, &[], &[0, 1, 0, 1]), 0);
}

#[test]
fn after_6() {
    assert_eq!(number(2, &[[AND, 0, 1], [OR, 0, 1]], 3), 19);
    assert_eq!(number(2, &[[AND, 0, 1], [OR, 0, 1]], 4), 6);
    assert_eq!(number(2, &[[AND, 0, 1], [OR, 0, 1]], 127), 6);
    // Whichever output isn't a line.
    assert_eq!(number_of(2, &[[AND, 0, 1]], &[0, 1, 3]), 6);
    assert_eq!(number_of(2, &[[AND, 0, 1]], &[3, 0]), 6);
    assert_eq!(number_of(2, &[[AND, 0, 1]], &[0, 1, 0, 1]), 19);
}

#[test]
fn before_the_fault_count_is_read() {
    // 37 bits with one output, 51 with three: the last byte ends inside the fault count.
    for outputs in [1, 3] {
        let cut = |output: u8| bytes(&bits(2, &[[AND, 0, 1]], &[output; 4][..outputs]));
        let length = cut(2).len();
        assert_eq!(length, if outputs == 1 { 5 } else { 7 });
        assert_eq!(read(&cut(2)), Err(1));
        assert_eq!(read(&cut(1)), Err(19));
        assert_eq!(report(&cut(1)), b"refused 19\n");
        // Inside the last output line nothing is known of it yet.
        assert_eq!(read(&cut(2)[..length - 1]), Err(1));
        assert_eq!(read(&cut(1)[..length - 1]), Err(1));
    }
}

#[test]
fn before_all_that_follows() {
    // A fault on no line, a stuck fault of two lines, one of no part, a spare bit.
    for (rest, number) in [
        ("000001 01 1111111 1111111 000001", 7),
        ("000001 00 0000000 0000001 000001", 8),
        ("000001 00 0000000 0000000 000000", 21),
        ("000000 1", 9),
    ] {
        let job = |output| bytes(&(bits(2, &[[AND, 0, 1]], &[output]) + &rest.replace(' ', "")));
        assert_eq!(read(&job(2)), Err(number));
        assert_eq!(read(&job(1)), Err(19));
    }
}

#[test]
fn before_18_in_a_record() {
    for (output, number) in [(2, 18), (1, 19), (3, 6)] {
        let mut job = record(2, &[[AND, 0, 1]], &[0, output]);
        job.fault_count = 64;
        assert_eq!(written(&job), Err(number));
    }
    // Unused gates are not looked at.
    let mut job = record(2, &[[AND, 0, 1]], &[2]);
    job.gates[1] = Gate::Or(0, 1);
    assert_eq!(written(&job), Ok(6));
    // Nor are unused outputs.
    let mut job = record(2, &[[AND, 0, 1]], &[1]);
    job.outputs[1] = 2;
    assert_eq!(written(&job), Err(19));
}
