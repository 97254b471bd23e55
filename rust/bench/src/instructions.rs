//! Instructions of both libraries, counted by valgrind, where it is there. They don't depend on the machine's load.
//!
//! This program is run twice under valgrind, with one turn of calls more the second time; the difference is the turn's.

use crate::lines::{Case, Library, Line, Memory, LINES};
use std::env;
use std::process::Command;

/// The word that makes this program a counted one. A line's place, a library, a number of turns, and jobs follow it.
const COUNTED: &str = "counted";
const PROVED: &str = "proved";
const REFERENCE: &str = "reference";

/// Makes the calls that were asked for, if this is a counted program.
pub fn counted() -> bool {
    let words: Vec<String> = env::args().skip(1).collect();
    let [first, line, library, turns, jobs @ ..] = &words[..] else { return false };
    if first != COUNTED {
        return false;
    }
    let number = |word: &String| word.parse::<usize>().expect("a number");
    let library = if library == PROVED { Library::Proved } else { Library::Reference };
    let cases: Vec<Case> = jobs.iter().map(|job| Case::new(from_hex(job))).collect();
    let mut memory = Memory::new();
    for _ in 0..number(turns) {
        cases.iter().for_each(|case| LINES[number(line)].run(library, case, &mut memory));
    }
    true
}

pub fn has_valgrind() -> bool {
    Command::new("valgrind").arg("--version").output().is_ok_and(|output| output.status.success())
}

/// The proved library's instructions by the reference's; nothing if they can't be counted.
pub fn ratio(line: Line, cases: &[Case]) -> Option<f64> {
    let turn = |library| Some(count(line, library, 2, cases)?.checked_sub(count(line, library, 1, cases)?)? as f64);
    Some(turn(PROVED)? / turn(REFERENCE)?)
}

/// The instructions of a counted program.
fn count(line: Line, library: &str, turns: usize, cases: &[Case]) -> Option<u64> {
    let place = LINES.iter().position(|other| *other == line)?;
    let output = Command::new("valgrind")
        .args(["--tool=callgrind", "--callgrind-out-file=/dev/null"])
        .arg(env::current_exe().ok()?)
        .args([COUNTED, &place.to_string(), library, &turns.to_string()])
        .args(cases.iter().map(|case| to_hex(&case.bytes)))
        .output()
        .ok()?;
    let text = String::from_utf8_lossy(&output.stderr).into_owned();
    let (_, after) = text.split_once("Collected :")?;
    after.split_whitespace().next()?.parse().ok()
}

fn to_hex(bytes: &[u8]) -> String {
    bytes.iter().map(|byte| format!("{byte:02x}")).collect()
}

fn from_hex(text: &str) -> Vec<u8> {
    let byte = |place| u8::from_str_radix(&text[place..place + 2], 16).expect("a byte");
    (0..text.len()).step_by(2).map(byte).collect()
}
