//! How much stack a call needs, against what include/horncurlew.h gives it.

use differential::jobs::{any_job, chained_job, encode, full_job};
use differential::random::Random;
use horncurlew::{choose, Kind, Purpose, MOST_WORK};
use std::collections::BTreeMap;
use std::io::Write;
use std::path::{Path, PathBuf};
use std::process::{Command, Stdio};

/// Compiles stack.c, which measures one job. All symbols are bound at the start, so that no call pays for it.
fn program() -> PathBuf {
    let package = Path::new(env!("CARGO_MANIFEST_DIR"));
    let program = Path::new(env!("CARGO_TARGET_TMPDIR")).join("stack");
    let compiled = Command::new("cc")
        .args(["-std=c99", "-Wall", "-Wextra", "-Werror", "-pthread", "-Wl,-z,now", "-o"])
        .arg(&program)
        .arg("-I")
        .arg(package.join("../../include"))
        .arg(package.join("tests/stack.c"))
        .arg(package.join("../../crates/horncurlew/out/libhorncurlew.a"))
        .output()
        .expect("the C compiler runs");
    assert!(compiled.status.success(), "{}", String::from_utf8_lossy(&compiled.stderr));
    program
}

/// The lines that the program prints for a job.
fn measured(program: &Path, job: &[u8]) -> String {
    let mut child = Command::new(program).stdin(Stdio::piped()).stdout(Stdio::piped()).spawn().expect("it runs");
    child.stdin.take().expect("a pipe").write_all(job).expect("it reads a job");
    let output = child.wait_with_output().expect("it ends");
    assert!(output.status.success(), "{} for {job:02x?}", output.status);
    String::from_utf8(output.stdout).expect("text")
}

/// A job of which choosing takes a long list, going a call deeper for each entry.
fn long_signature() -> Vec<u8> {
    let job = chained_job(8, 7);
    let choice = choose(&job, Purpose::Isolating, Kind::Rm, 0, &mut [0; MOST_WORK]).expect("distinct circuits");
    assert_eq!((choice.counts.faults, choice.signature.entries().len()), (63, 60));
    job
}

#[test]
fn as_the_header_says() {
    let program = program();
    let mut random = Random::new(40);
    let mut jobs = vec![Vec::new(), long_signature()];
    jobs.extend((0..12).map(|_| full_job(&mut random, 8, 64, 4, 63)));
    jobs.push(full_job(&mut random, 8, 64, 1, 63));
    // Of which the report's work is enough.
    jobs.extend((0..4).map(|_| full_job(&mut random, 7, 64, 4, 63)));
    jobs.extend((0..4).map(|_| encode(&any_job(&mut random, 8, 64, 63))));
    jobs.push(jobs[2][..100].to_vec());
    let mut most: BTreeMap<String, (usize, usize)> = BTreeMap::new();
    for job in &jobs {
        for line in measured(&program, job).lines() {
            let words: Vec<&str> = line.split(' ').collect();
            let (needed, promised) = (words[1].parse().expect("bytes"), words[2].parse().expect("bytes"));
            let entry = most.entry(words[0].to_string()).or_insert((0, promised));
            entry.0 = entry.0.max(needed);
        }
    }
    assert_eq!(most.len(), 9, "the exported functions");
    for (function, (needed, promised)) in &most {
        println!("horncurlew_{function}: {needed} of {promised} bytes");
    }
    for (function, (needed, promised)) in most {
        assert!(needed <= promised, "horncurlew_{function} needs {needed} bytes of stack, and is given {promised}");
    }
}
