//! The report program's text.

use crate::choosing::{choose, Chosen, Purpose};
use crate::refusal;
use crate::spectra::Kind;

/// The work that the program lends to choosing.
const WORK: usize = 32768;

/// What the program prints for these bytes on its standard input. It reads no more than 317 of them, as `read` does.
pub fn report(bytes: &[u8]) -> Vec<u8> {
    report_with(bytes, &mut [0; WORK])
}

/// The same with other work, which then holds the spectra as in choosing.
pub fn report_with(bytes: &[u8], work: &mut [u16]) -> Vec<u8> {
    let mut text = Vec::new();
    match choose(bytes, Purpose::Isolating, Kind::Mrm, 0, work) {
        Chosen::Refused(number) => line(&mut text, b"refused", &[number.into()]),
        Chosen::Alike(lower, higher) => line(&mut text, b"refused", &[refusal::ALIKE.into(), lower, higher]),
        Chosen::Signature { inputs, gates, outputs, faults, count, entries } => {
            let signature = &entries[..count];
            text.reserve(64 + (faults + 2) * (4 + 6 * count));
            word(&mut text, b"inputs");
            number(&mut text, inputs);
            word(&mut text, b" gates");
            number(&mut text, gates);
            word(&mut text, b" faults");
            number(&mut text, faults);
            text.push(b'\n');
            word(&mut text, b"signature");
            for entry in signature {
                number(&mut text, entry.index.into());
                text.push(b':');
                digits(&mut text, entry.output.into());
            }
            text.push(b'\n');
            for (circuit, row) in work.chunks_exact(outputs << inputs).take(faults + 1).enumerate() {
                digits(&mut text, circuit);
                for entry in signature {
                    number(&mut text, row[usize::from(entry.output) << inputs | usize::from(entry.index)].into());
                }
                text.push(b'\n');
            }
        }
    }
    text
}

/// A word and numbers on a line of their own.
fn line(text: &mut Vec<u8>, first: &[u8], numbers: &[usize]) {
    word(text, first);
    for value in numbers {
        number(text, *value);
    }
    text.push(b'\n');
}

fn word(text: &mut Vec<u8>, word: &[u8]) {
    text.extend_from_slice(word);
}

/// A space and the number.
fn number(text: &mut Vec<u8>, value: usize) {
    text.push(b' ');
    digits(text, value);
}

/// The digits of a number below 1000; no count, index, coefficient or refusal is larger.
fn digits(text: &mut Vec<u8>, value: usize) {
    if value >= 100 {
        text.push(b'0' + (value / 100) as u8);
    }
    if value >= 10 {
        text.push(b'0' + (value / 10 % 10) as u8);
    }
    text.push(b'0' + (value % 10) as u8);
}
