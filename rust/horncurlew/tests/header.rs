//! C programs over include/horncurlew.h, compiled by the C compiler that Rust's own linking calls.

use horncurlew::Refusal;
use std::fs;
use std::path::Path;
use std::process::{Command, Output};

/// Compiles a program of this folder, runs it and gives what it printed.
fn run(name: &str) -> Output {
    let package = Path::new(env!("CARGO_MANIFEST_DIR"));
    let program = Path::new(env!("CARGO_TARGET_TMPDIR")).join(name);
    let compiled = Command::new("cc")
        .args(["-std=c99", "-Wall", "-Wextra", "-Wpedantic", "-Wstrict-prototypes", "-Werror", "-o"])
        .arg(&program)
        .arg("-I")
        .arg(package.join("../../include"))
        .arg(package.join("tests").join(name).with_extension("c"))
        .arg(package.join("../../crates/horncurlew/out/libhorncurlew.a"))
        .output()
        .expect("the C compiler runs");
    assert!(compiled.status.success(), "{}", String::from_utf8_lossy(&compiled.stderr));
    Command::new(program).output().expect("the program runs")
}

#[test]
fn every_operation() {
    let output = run("header");
    assert!(output.status.success(), "{}", String::from_utf8_lossy(&output.stdout));
}

#[test]
fn every_field_and_argument() {
    let output = run("exports");
    assert!(output.status.success(), "{}", String::from_utf8_lossy(&output.stdout));
}

/// The number that a line of the header gives a name, behind these words.
fn value(header: &str, words: &str) -> usize {
    let found = header.lines().find_map(|line| line.trim_start().strip_prefix(words)?.strip_prefix(' '));
    let rest = found.unwrap_or_else(|| panic!("the header has no {words}"));
    rest.split([' ', ',']).next().expect("a word").parse().expect("a number")
}

/// As BytesEnd and HORNCURLEW_BYTES_END.
fn name(refusal: Refusal) -> String {
    let mut name = "HORNCURLEW".to_string();
    for letter in format!("{refusal:?}").chars() {
        if letter.is_uppercase() {
            name.push('_');
        }
        name.push(letter.to_ascii_uppercase());
    }
    name
}

/// What the header defines is what the safe crate has.
#[test]
fn numbers() {
    let file = Path::new(env!("CARGO_MANIFEST_DIR")).join("../../include/horncurlew.h");
    let header = fs::read_to_string(file).expect("the header");
    for (name, number) in [
        ("VERSION", horncurlew::VERSION),
        ("STACK", horncurlew::STACK),
        ("SMALL_STACK", horncurlew::SMALL_STACK),
        ("MOST_OUTPUTS", horncurlew::MOST_OUTPUTS),
        ("LONGEST_JOB", horncurlew::LONGEST_JOB),
        ("LARGEST_TABLE", horncurlew::LARGEST_TABLE),
        ("MOST_WORK", horncurlew::MOST_WORK),
        ("MOST_ENTRIES", horncurlew::MOST_ENTRIES),
        ("LARGEST_REPORT", horncurlew::LARGEST_REPORT),
    ] {
        assert_eq!(value(&header, &format!("#define HORNCURLEW_{name}")), number, "{name}");
    }
    for refusal in Refusal::ALL {
        assert_eq!(Some(value(&header, &format!("{} =", name(refusal)))), refusal.number(), "{refusal:?}");
    }
}

#[test]
fn report() {
    let output = run("header_report");
    assert!(output.status.success());
    assert_eq!(output.stdout, b"inputs 2 gates 1 faults 3\nsignature 1:0 3:0\n0 0 1\n1 0 0\n2 0 2\n3 1 2\n");
}
