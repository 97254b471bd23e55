//! Writes jobs of the earlier layout, whose faults had no parts, in the layout of faults with parts: fault c gets part
//! c.
//!
//! `relayout < OLD.job > NEW.job` takes the bytes of a job, `relayout --text < OLD > NEW` a text, in which it writes
//! the lines `job HH HH ..` and `job NAME HHHH..` anew and leaves all others as they are.

use std::io::{self, Read, Write};
use std::process::ExitCode;

fn main() -> ExitCode {
    let is_text = std::env::args().nth(1).is_some_and(|word| word == "--text");
    let mut input = Vec::new();
    if let Err(error) = io::stdin().read_to_end(&mut input) {
        return failed(&error.to_string());
    }
    let output = if is_text { text(&input) } else { job(&input).ok_or("not a job of the earlier layout".to_string()) };
    match output.and_then(|bytes| io::stdout().write_all(&bytes).map_err(|error| error.to_string())) {
        Ok(()) => ExitCode::SUCCESS,
        Err(why) => failed(&why),
    }
}

fn failed(why: &str) -> ExitCode {
    eprintln!("relayout: {why}");
    ExitCode::FAILURE
}

/// The text with its jobs in the new layout.
fn text(input: &[u8]) -> Result<Vec<u8>, String> {
    let input = std::str::from_utf8(input).map_err(|error| error.to_string())?;
    let mut output = String::new();
    for line in input.split_inclusive('\n') {
        match line.trim_end_matches('\n').strip_prefix("job ") {
            None => output += line,
            Some(rest) => {
                let rest = job_text(rest).ok_or_else(|| format!("no job of the earlier layout: {line}"))?;
                output += &format!("job {rest}\n");
            }
        }
    }
    Ok(output.into_bytes())
}

/// What follows the word `job`: bytes parted by spaces, or a name and the bytes in one word.
fn job_text(rest: &str) -> Option<String> {
    let digits = |bytes: &[u8]| bytes.iter().map(|byte| format!("{byte:02x}")).collect::<Vec<_>>();
    match rest.split_once(' ') {
        Some((name, hex)) if name.len() != 2 => Some(format!("{name} {}", digits(&job(&bytes(hex)?)?).concat())),
        _ => Some(digits(&job(&bytes(&rest.replace(' ', ""))?)?).join(" ")),
    }
}

fn bytes(hex: &str) -> Option<Vec<u8>> {
    let byte = |place| u8::from_str_radix(hex.get(place..place + 2)?, 16).ok();
    (0..hex.len()).step_by(2).map(byte).collect()
}

/// The job in the new layout: behind line b of fault c the number c in six bits. Bytes that followed the job's end
/// follow it still, and no bytes stay none. Nothing for a job that is cut short or has a spare bit 1.
fn job(old: &[u8]) -> Option<Vec<u8>> {
    if old.is_empty() {
        return Some(Vec::new());
    }
    let bits: Vec<u8> = old.iter().flat_map(|byte| (0..8).rev().map(move |bit| byte >> bit & 1)).collect();
    let field = |from: usize, width: usize| {
        bits.get(from..from + width).map(|bits| bits.iter().fold(0, |value, bit| 2 * value + usize::from(*bit)))
    };
    let outputs = 4 + 7 + 17 * field(4, 7)?;
    let fault_count = outputs + 2 + 7 * (field(outputs, 2)? + 1);
    let faults = fault_count + 6;
    let end = faults + 16 * field(fault_count, 6)?;
    let whole = end.next_multiple_of(8);
    if bits.get(end..whole)?.contains(&1) {
        return None;
    }
    let mut new = bits[..faults].to_vec();
    for (fault, part) in bits[faults..end].chunks(16).zip(1u8..) {
        new.extend_from_slice(fault);
        new.extend((0..6).rev().map(|bit| part >> bit & 1));
    }
    let byte = |bits: &[u8]| bits.iter().enumerate().fold(0, |byte, (place, bit)| byte | bit << (7 - place));
    Some(new.chunks(8).map(byte).chain(old[whole / 8..].iter().copied()).collect())
}

#[cfg(test)]
mod tests {
    use super::*;

    /// Document 01's examples, by their bytes in both layouts.
    const EXAMPLES: [(&str, &str); 5] = [
        ("20 20 00 10 10 60 00 08 00 08 10 20", "20 20 00 10 10 60 00 00 a0 00 04 81 02 18"), // job A
        ("", ""),                                                                             // P1
        ("10 00 00 00", "10 00 00 00"),                                                       // P2
        ("10 00 00 00 00", "10 00 00 00 00"),                                                 // P3
        ("20 20 00 10 10 30 00 20", "20 20 00 10 10 30 00 20 80"),                            // P10
    ];

    #[test]
    fn document_examples() {
        for (old, new) in EXAMPLES.map(|(old, new)| (old.replace(' ', ""), new.replace(' ', ""))) {
            assert_eq!(job(&bytes(&old).unwrap()), bytes(&new), "{old}");
        }
    }

    #[test]
    fn texts() {
        let text = |input: &str| String::from_utf8(text(input.as_bytes()).unwrap()).unwrap();
        let (old, new) = EXAMPLES[0];
        assert_eq!(text(&format!("# job A\njob {old}\ntables\n")), format!("# job A\njob {new}\ntables\n"));
        assert_eq!(text("job P10 2020001010300020\nrecord 10 00 00"), "job P10 202000101030002080\nrecord 10 00 00");
    }

    #[test]
    fn no_jobs() {
        // Cut in the fault count, in an output line, in a fault; and with a spare bit.
        for old in [&[0x10, 0, 0][..], &[0x10, 0x18, 0], &[0x10, 0, 0, 0x40, 0], &[0x10, 0, 0, 0x01]] {
            assert_eq!(job(old), None, "{old:02x?}");
        }
        assert!(text(b"job 10 00\n").is_err());
    }
}
