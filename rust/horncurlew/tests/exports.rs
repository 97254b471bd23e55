//! Every operation in turn, so that neither two fields of an answer nor two arguments of a call can be exchanged unseen
//! between the library, the module `ffi` and the safe functions. In some call of each every two fields have different
//! values, and the call with two arguments of like type exchanged, by their numbers in the library, has another answer.
//! exports.c does the same by the header.

use horncurlew::{check, choose, locate, locate_lists, report, rewrite, spectrum, table, undo};
use horncurlew::{Choice, Counts, Entry, Kind, Location, NoChoice, NoReport, Purpose, Refusal, LARGEST_REPORT};

/// Two jobs of 3 inputs, 5 gates, 2 outputs and 6 faults, no two circuits alike. Fault c has part 40 - 5c.
const FIRST: [u8; 32] = [
    0x30, 0xa8, 0x08, 0x02, 0x04, 0x00, 0x02, 0x0c, 0x82, 0x01, 0x03, 0x04, 0x42, 0x87, 0x18, 0x0e, //
    0x1e, 0x3c, 0x00, 0x17, 0x80, 0x00, 0x19, 0x43, 0x06, 0x53, 0x02, 0x08, 0xf0, 0x18, 0x32, 0x80,
];
const SECOND: [u8; 32] = [
    0x30, 0xb0, 0x08, 0x24, 0x04, 0x1c, 0x06, 0x11, 0x85, 0x00, 0x41, 0x01, 0x43, 0x07, 0x18, 0x04, //
    0x0a, 0x3c, 0x00, 0x17, 0x80, 0x81, 0x19, 0x03, 0x06, 0x52, 0x00, 0x04, 0xf0, 0x00, 0x02, 0x80,
];
/// The first with its fault 2 as fault 6 too.
const ALIKE: [u8; 32] = [
    0x30, 0xa8, 0x08, 0x02, 0x04, 0x00, 0x02, 0x0c, 0x82, 0x01, 0x03, 0x04, 0x42, 0x87, 0x18, 0x0e, //
    0x1e, 0x3c, 0x00, 0x17, 0x80, 0x00, 0x19, 0x43, 0x06, 0x53, 0x02, 0x08, 0xfc, 0x00, 0x12, 0x80,
];
/// The first job's spectra by MRM at polarity 2, a circuit a line.
#[rustfmt::skip]
const SPECTRA: [u16; 112] = [
    1, 1, 1, 1, 2, 2, 2, 2, 1, 1, 1, 1, 1, 1, 2, 2,
    1, 1, 1, 1, 2, 2, 2, 2, 0, 0, 0, 0, 0, 0, 0, 0,
    0, 0, 0, 0, 0, 0, 0, 0, 0, 0, 0, 0, 0, 0, 1, 1,
    1, 2, 1, 2, 2, 4, 2, 4, 1, 2, 1, 2, 1, 2, 2, 4,
    1, 1, 1, 1, 2, 2, 2, 2, 0, 0, 1, 1, 0, 0, 2, 2,
    1, 1, 1, 1, 2, 2, 3, 3, 0, 0, 0, 0, 0, 0, 0, 0,
    0, 0, 0, 0, 0, 0, 0, 0, 1, 1, 1, 1, 1, 1, 2, 2,
];

fn kind(number: usize) -> Kind {
    [Kind::Rm, Kind::Mrm][number.min(1)]
}

fn purpose(number: usize) -> Purpose {
    [Purpose::Isolating, Purpose::Detecting][number.min(1)]
}

#[test]
fn checking() {
    assert_eq!(check(&FIRST), Ok(Counts { inputs: 3, gates: 5, outputs: 2, faults: 6 }));
    assert_eq!(check(&FIRST[..5]), Err(Refusal::BytesEnd));
}

#[test]
fn rewriting() {
    let call = |bytes: &[u8], mut out: [u8; 32], room| (rewrite(bytes, &mut out[..room]), out);
    assert_eq!(call(&FIRST, SECOND, 32), (Ok(32), FIRST));
    assert_eq!(call(&FIRST, SECOND, 31), (Err(Refusal::Memory), SECOND));
    assert_ne!(call(&FIRST, SECOND, 32), call(&SECOND, FIRST, 32), "bytes and out");
}

#[test]
fn tables() {
    let call = |bytes: &[u8], circuit, output, mut out: [u8; 32], room| {
        let answer = table(bytes, circuit, output, &mut out[..room]);
        (answer, out)
    };
    let mut after = SECOND;
    after[0] = 0x3c;
    assert_eq!(call(&FIRST, 3, 1, SECOND, 32), (Ok(()), after));
    assert_eq!(call(&FIRST, 7, 2, SECOND, 32), (Err(Refusal::Circuit), SECOND));
    assert_eq!(call(&FIRST, 6, 2, SECOND, 0), (Err(Refusal::OutputNumber), SECOND));
    assert_ne!(call(&FIRST, 3, 1, SECOND, 32), call(&SECOND, 3, 1, FIRST, 32), "bytes and out");
    assert_ne!(call(&FIRST, 1, 0, SECOND, 32), call(&FIRST, 0, 1, SECOND, 32), "circuit and output");
    assert_ne!(call(&FIRST, 3, 0, SECOND, 1), call(&FIRST, 1, 0, SECOND, 3), "circuit and out's length");
    assert_ne!(call(&FIRST, 3, 0, SECOND, 1), call(&FIRST, 3, 1, SECOND, 0), "output and out's length");
}

#[test]
fn spectra() {
    let call = |inputs, number, polarity| {
        let mut out = [7; 9];
        (spectrum(inputs, &[0xe0], kind(number), polarity, &mut out), out)
    };
    assert_eq!(call(3, 1, 2), (Ok(()), [1, 1, 2, 3, 1, 1, 2, 3, 7]));
    assert_eq!(call(3, 1, 8), (Err(Refusal::Polarity), [7; 9]));
    assert_ne!(call(3, 1, 2), call(2, 1, 3), "inputs and polarity");
    assert_ne!(call(3, 1, 2), call(1, 3, 2), "inputs and kind");
    assert_ne!(call(3, 1, 2), call(3, 2, 1), "kind and polarity");
}

#[test]
fn undoing() {
    let call = |inputs, number, polarity| {
        let mut out = [7; 2];
        (undo(inputs, &[1, 1, 2, 3, 1, 1, 2, 3], kind(number), polarity, &mut out), out)
    };
    assert_eq!(call(3, 1, 2), (Ok(()), [0xe0, 7]));
    assert_eq!(call(3, 1, 8), (Err(Refusal::Polarity), [7; 2]));
    assert_ne!(call(3, 1, 2), call(2, 1, 3), "inputs and polarity");
    assert_ne!(call(3, 1, 2), call(1, 3, 2), "inputs and kind");
    assert_ne!(call(3, 1, 2), call(3, 2, 1), "kind and polarity");
}

#[test]
fn choosing() {
    let call = |bytes: &[u8], for_what, of_kind, polarity, room| {
        let mut work = [7; 112];
        (choose(bytes, purpose(for_what), kind(of_kind), polarity, &mut work[..room]), work)
    };
    let (answer, work) = call(&FIRST, 0, 1, 2, 112);
    let Choice { counts, signature } = answer.expect("a signature");
    assert_eq!(counts, Counts { inputs: 3, gates: 5, outputs: 2, faults: 6 });
    let entries = [(0, 1), (1, 0), (2, 1), (6, 0)].map(|(index, output)| Entry { index, output });
    assert_eq!(signature.entries(), entries);
    assert_eq!(work, SPECTRA);
    let (alike, work) = call(&ALIKE, 0, 1, 2, 112);
    assert_eq!(alike, Err(NoChoice::Alike(2, 6)));
    assert_eq!((&work[..96], &work[96..]), (&SPECTRA[..96], &SPECTRA[32..48]));
    assert_eq!(call(&FIRST, 0, 1, 2, 111), (Err(NoChoice::Refused(Refusal::Memory)), [7; 112]));
    assert_ne!(call(&FIRST, 0, 1, 2, 112), call(&FIRST, 1, 0, 2, 112), "purpose and kind");
    assert_ne!(call(&FIRST, 0, 1, 2, 112), call(&FIRST, 2, 1, 0, 112), "purpose and polarity");
    assert_ne!(call(&FIRST, 0, 1, 2, 112), call(&FIRST, 0, 2, 1, 112), "kind and polarity");
}

#[test]
fn locating() {
    let call = |number, polarity, indices: &[u16], outputs: &[u16], readings: &[u16]| {
        let mut work = [7; 112];
        (locate_lists(&FIRST, kind(number), polarity, indices, outputs, readings, &mut work), work)
    };
    assert_eq!(call(0, 2, &[2], &[1], &[0]).0, Ok(Location::Several { lowest: 1, count: 3 }));
    assert_eq!(call(1, 2, &[7], &[1], &[4]), (Ok(Location::Part { part: 25, lowest: 3 }), SPECTRA));
    assert_eq!(call(1, 2, &[6, 1], &[0, 1], &[2, 2]), (Ok(Location::Part { part: 25, lowest: 3 }), SPECTRA));
    assert_eq!(call(1, 2, &[8], &[2], &[4]), (Err(Refusal::Index), [7; 112]));
    assert_eq!(call(1, 2, &[7], &[2], &[4]), (Err(Refusal::OutputNumber), [7; 112]));
    assert_eq!(call(1, 2, &[6, 1, 0], &[0, 1], &[2, 2]), (Err(Refusal::Readings), [7; 112]));
    assert_eq!(call(1, 2, &[6, 1], &[0, 1, 0], &[2, 2]), (Err(Refusal::Readings), [7; 112]));
    assert_eq!(call(1, 2, &[6, 1], &[0, 1], &[2, 2, 0]), (Err(Refusal::Readings), [7; 112]));
    assert_ne!(call(1, 2, &[7], &[1], &[4]), call(2, 1, &[7], &[1], &[4]), "kind and polarity");
    assert_ne!(call(1, 2, &[0], &[1], &[1]), call(1, 2, &[1], &[0], &[1]), "indices and outputs");
    assert_ne!(call(1, 2, &[7], &[1], &[4]), call(1, 2, &[4], &[1], &[7]), "indices and readings");
    assert_ne!(call(1, 2, &[7], &[1], &[0]), call(1, 2, &[7], &[0], &[1]), "outputs and readings");
}

/// By entries, whose indices and outputs become the two lists.
#[test]
fn locating_by_entries() {
    let call = |entries: &[(u16, u16)], readings: &[u16]| {
        let entries: Vec<Entry> =
            entries.iter().map(|(index, output)| Entry { index: *index, output: *output }).collect();
        let mut work = [7; 112];
        (locate(&FIRST, Kind::Mrm, 2, &entries, readings, &mut work), work)
    };
    assert_eq!(call(&[(6, 0), (1, 1)], &[2, 2]), (Ok(Location::Part { part: 25, lowest: 3 }), SPECTRA));
    assert_eq!(call(&[(6, 0), (1, 1)], &[2, 2, 0]), (Err(Refusal::Readings), [7; 112]));
    assert_eq!(call(&[(6, 0), (1, 2)], &[2]), (Err(Refusal::OutputNumber), [7; 112]));
    assert_eq!(call(&[(6, 2), (8, 0)], &[2]), (Err(Refusal::Index), [7; 112]));
    assert_ne!(call(&[(0, 1)], &[1]), call(&[(1, 0)], &[1]), "index and output");
}

#[test]
fn reporting() {
    let call = |bytes: &[u8], before: [u8; 32], places: usize, room| {
        let (mut work, mut out) = ([7; 112], [0; LARGEST_REPORT]);
        out[..32].copy_from_slice(&before);
        let length = report(bytes, &mut work[..places], &mut out[..room]);
        (length, work[..4].to_vec(), String::from_utf8_lossy(&out[..length.unwrap_or(32)]).into_owned())
    };
    let text = "inputs 3 gates 5 faults 6\nsignature 0:1 2:1 4:0 3:0\n\
                0 0 1 0 1\n1 0 0 0 1\n2 0 0 0 0\n3 0 1 0 2\n4 1 1 0 1\n5 0 0 1 1\n6 0 1 0 0\n";
    assert_eq!(call(&FIRST, SECOND, 112, LARGEST_REPORT), (Ok(122), vec![0, 0, 1, 1], text.to_string()));
    assert_eq!(call(&FIRST, SECOND, 111, LARGEST_REPORT), (Ok(11), vec![7; 4], "refused 10\n".to_string()));
    let before = String::from_utf8_lossy(&SECOND).into_owned();
    assert_eq!(call(&FIRST, SECOND, 112, LARGEST_REPORT - 1), (Err(NoReport::Room), vec![7; 4], before));
    assert_ne!(call(&FIRST, SECOND, 112, LARGEST_REPORT), call(&SECOND, FIRST, 112, LARGEST_REPORT), "bytes and out");
}
