//! The built report program: every byte that it prints, and what it says where it can't read or print.

use differential::jobs::{chained_job, full_job, numbered, Circuit};
use differential::random::Random;
use reference::{Fault, FaultEntry, Gate, Job, LONGEST_JOB, MOST_FAULTS, MOST_GATES};
use std::fs::{self, File};
use std::io::{Read, Write};
use std::path::{Path, PathBuf};
use std::process::{Child, Command, Stdio};
use std::thread;
use std::time::{Duration, Instant};

fn root() -> PathBuf {
    Path::new(env!("CARGO_MANIFEST_DIR")).join("../..")
}

fn program() -> PathBuf {
    let program = root().join("crates/report/out/report");
    assert!(program.exists(), "{} isn't there: build it with `rt run` in crates/report", program.display());
    program
}

/// What a run wrote to standard output and to standard error.
#[derive(Debug, PartialEq)]
struct Output {
    printed: String,
    said: String,
}

impl Output {
    fn new(printed: &[u8], said: &str) -> Output {
        Output { printed: String::from_utf8_lossy(printed).into_owned(), said: said.to_string() }
    }
}

const NO_INPUT: &str = "report: standard input can't be read\n";
const NO_OUTPUT: &str = "report: standard output can't be written\n";

fn start(command: &mut Command, input: Stdio, output: Stdio) -> Child {
    command.stdin(input).stdout(output).stderr(Stdio::piped()).spawn().expect("the report program runs")
}

/// What the program wrote, once it has ended. It doesn't wait for its input's end once it has read enough.
fn ended(mut child: Child) -> Output {
    let limit = Instant::now() + Duration::from_secs(60);
    let status = loop {
        if let Some(status) = child.try_wait().expect("its state") {
            break status;
        }
        if Instant::now() > limit {
            child.kill().expect("it is stopped");
            panic!("the report program doesn't end");
        }
        thread::sleep(Duration::from_millis(1));
    };
    assert!(status.success(), "the report program ended with {status}");
    let (mut printed, mut said) = (Vec::new(), String::new());
    if let Some(mut output) = child.stdout.take() {
        output.read_to_end(&mut printed).expect("what it printed");
    }
    child.stderr.take().expect("a pipe").read_to_string(&mut said).expect("what it said");
    Output::new(&printed, &said)
}

/// A run on bytes that come in pieces, with a wait between them.
fn run_in_pieces(bytes: &[u8], piece: usize, wait: Duration) -> Output {
    let mut child = start(&mut Command::new(program()), Stdio::piped(), Stdio::piped());
    let mut input = child.stdin.take().expect("a pipe");
    for piece in bytes.chunks(piece) {
        // It reads no more than it needs, and may have ended.
        if input.write_all(piece).is_err() {
            break;
        }
        thread::sleep(wait);
    }
    drop(input);
    ended(child)
}

fn expect(bytes: &[u8], text: &[u8], name: &str) {
    let output = run_in_pieces(bytes, usize::MAX, Duration::ZERO);
    assert_eq!(output, Output::new(text, ""), "{name}: {bytes:02x?}");
}

fn written(job: &Job) -> Vec<u8> {
    let mut bytes = [0; LONGEST_JOB];
    let length = reference::write(job, &mut bytes).expect("a job that can be written");
    bytes[..length].to_vec()
}

/// The record of these gates and faults, fault c with part c.
fn job(inputs: u8, gates: &[Gate], output: u8, faults: &[Fault]) -> Job {
    let mut job = Job {
        inputs,
        gate_count: gates.len() as u8,
        gates: [Gate::Buf(0); MOST_GATES],
        output_count: 1,
        outputs: [output, 0, 0, 0],
        fault_count: faults.len() as u8,
        faults: [FaultEntry::UNUSED; MOST_FAULTS],
    };
    job.gates[..gates.len()].copy_from_slice(gates);
    for ((place, fault), part) in job.faults.iter_mut().zip(faults).zip(1..) {
        *place = FaultEntry { fault: *fault, part };
    }
    job
}

/// The job, written by the reference.
fn rewritten(bytes: &[u8]) -> Vec<u8> {
    written(&reference::read(bytes).expect("a valid job"))
}

/// A job of the largest counts for which the program's work is enough: one input less than the most.
fn longest_job() -> Vec<u8> {
    rewritten(&full_job(&mut Random::new(31), 7, 64, 4, 63))
}

#[test]
fn example_files() {
    let folder = root().join("examples");
    let mut count = 0;
    for file in fs::read_dir(&folder).expect("the folder of examples") {
        let job = file.expect("an entry of the folder").path();
        if job.extension().is_some_and(|extension| extension == "job") {
            let text = fs::read(job.with_extension("report")).expect("the report beside the job");
            let bytes = fs::read(&job).expect("the job");
            expect(&bytes, &text, &job.display().to_string());
            assert_eq!(reference::report(&bytes), text, "the reference's report of {}", job.display());
            count += 1;
        }
    }
    assert!(count >= 8, "only {count} examples in {}", folder.display());
}

#[test]
fn document_examples() {
    expect(&[], b"refused 1\n", "P1");
    expect(&[0x10, 0, 0, 0], b"inputs 1 gates 0 faults 0\nsignature\n0\n", "P2");
    expect(&[0x10, 0, 0, 0, 0], b"refused 9\n", "P3");
    // P3's bytes before there were several outputs are P2's now, and P2's end inside the fault count.
    expect(&[0x10, 0, 0], b"refused 1\n", "P2 in the layout of one output");
    expect(&[0x20, 0x20, 0x00, 0x10, 0x10, 0x30, 0x00, 0x20, 0x80], b"refused 15 0 1\n", "P10");
    // Its bytes before there were parts end inside the part.
    expect(&[0x20, 0x20, 0x00, 0x10, 0x10, 0x30, 0x00, 0x20], b"refused 1\n", "P10 in the layout without parts");
}

/// A pipe may give fewer bytes at a time than the program asks for.
#[test]
fn input_in_pieces() {
    let bytes = longest_job();
    let text = reference::report(&bytes);
    for (piece, milliseconds) in [(1, 1), (2, 0), (7, 2), (100, 50), (315, 50)] {
        let output = run_in_pieces(&bytes, piece, Duration::from_millis(milliseconds));
        assert_eq!(output, Output::new(&text, ""), "pieces of {piece} bytes");
    }
}

/// A byte after the end is refused, however many follow.
#[test]
fn bytes_after_the_end() {
    let longest = longest_job();
    assert_eq!(longest.len(), LONGEST_JOB);
    expect(&longest, &reference::report(&longest), "the longest job");
    expect(&longest[..LONGEST_JOB - 1], b"refused 1\n", "the longest job without its last byte");
    for job in [longest, vec![0x10, 0, 0, 0]] {
        for (byte, count) in [(0, 1), (1, 1), (0xff, 1), (0, 2), (0, 5000), (0, 1 << 20)] {
            let mut bytes = job.clone();
            bytes.resize(job.len() + count, byte);
            expect(&bytes, b"refused 9\n", "bytes after the end");
        }
    }
}

/// It answers without an end of its input.
#[test]
fn input_without_end() {
    let zeros = File::open("/dev/zero").expect("a file without end");
    let child = start(&mut Command::new(program()), zeros.into(), Stdio::piped());
    assert_eq!(ended(child), Output::new(b"refused 2\n", ""));

    let mut child = start(&mut Command::new(program()), Stdio::piped(), Stdio::piped());
    let mut input = child.stdin.take().expect("a pipe");
    input.write_all(&longest_job()).expect("it reads a job");
    while input.write_all(&[0; 4096]).is_ok() {}
    assert_eq!(ended(child), Output::new(b"refused 9\n", ""));

    // Nothing more comes, and the pipe stays as it is.
    let mut child = start(&mut Command::new(program()), Stdio::piped(), Stdio::piped());
    let mut input = child.stdin.take().expect("a pipe");
    input.write_all(&longest_job()).and_then(|()| input.write_all(&[0])).expect("it reads a job and a byte");
    assert_eq!(ended(child), Output::new(b"refused 9\n", ""));
    drop(input);
}

#[test]
fn input_that_fails() {
    let directory = File::open("/").expect("a directory");
    let child = start(&mut Command::new(program()), directory.into(), Stdio::piped());
    assert_eq!(ended(child), Output::new(b"", NO_INPUT), "a directory");

    let unreadable = File::options().write(true).open("/dev/null").expect("a file");
    let child = start(&mut Command::new(program()), unreadable.into(), Stdio::piped());
    assert_eq!(ended(child), Output::new(b"", NO_INPUT), "a file that is open for writing only");

    let mut closed = Command::new("sh");
    let child = start(closed.arg("-c").arg("exec \"$0\" <&-").arg(program()), Stdio::null(), Stdio::piped());
    assert_eq!(ended(child), Output::new(b"", NO_INPUT), "closed");

    // An empty input can be read.
    let child = start(&mut Command::new(program()), Stdio::null(), Stdio::piped());
    assert_eq!(ended(child), Output::new(b"refused 1\n", ""), "empty");
}

#[test]
fn output_that_fails() {
    let job = || File::open(root().join("examples/job_a.job")).expect("the job");
    let full = File::options().write(true).open("/dev/full").expect("a full file");
    let child = start(&mut Command::new(program()), job().into(), full.into());
    assert_eq!(ended(child), Output::new(b"", NO_OUTPUT), "full");

    let mut closed = Command::new("sh");
    let child = start(closed.arg("-c").arg("exec \"$0\" >&-").arg(program()), job().into(), Stdio::null());
    assert_eq!(ended(child), Output::new(b"", NO_OUTPUT), "closed");
}

/// Jobs of the largest counts.
#[test]
fn full_jobs() {
    let mut random = Random::new(30);
    for inputs in [4, 6, 8] {
        for outputs in 1..=4 {
            let bytes = full_job(&mut random, inputs, 64, outputs, 63);
            expect(&bytes, &reference::report(&bytes), "a full job");
        }
    }
}

/// The work is enough for 32 circuits of 8 inputs and four outputs, and for 64 of 7 inputs. 10 comes before 15.
#[test]
fn edge_of_the_work() {
    let mut random = Random::new(32);
    for (inputs, faults, enough) in [(8, 31, true), (8, 32, false), (7, 63, true)] {
        let bytes = full_job(&mut random, inputs, 64, 4, faults);
        let text = reference::report(&bytes);
        assert_eq!(text == b"refused 10\n", !enough, "{inputs} inputs, {faults} faults");
        expect(&bytes, &text, "distinct circuits at the edge of the work");
        let line = Circuit { inputs, gates: Vec::new(), outputs: vec![0; 4] };
        let alike = line.bytes(&numbered(vec![[1, 0, 0]; faults]));
        let text = if enough { "refused 15 1 2\n" } else { "refused 10\n" };
        expect(&alike, text.as_bytes(), "alike circuits at the edge of the work");
        let one_part = line.bytes(&vec![[1, 0, 0, 7]; faults]);
        expect(&one_part, &reference::report(&one_part), "equal faults of one part at the edge of the work");
    }
}

/// The XOR of all products of two inputs. Each fault takes one product away, or the first few, so that each product
/// has its own index in the signature.
#[test]
fn long_report() {
    let pairs = (1..8).flat_map(|b| (0..b).map(move |a| (a, b)));
    let mut gates: Vec<Gate> = pairs.map(|(a, b)| Gate::And(a, b)).collect();
    let products: Vec<u8> = (8..8 + gates.len() as u8).collect();
    let mut sums = vec![products[0]];
    for product in &products[1..] {
        gates.push(Gate::Xor(sums[sums.len() - 1], *product));
        sums.push(7 + gates.len() as u8);
    }
    let faults: Vec<Fault> = products.iter().chain(&sums[1..]).map(|line| Fault::Stuck(*line, false)).collect();
    let bytes = written(&job(8, &gates, 7 + gates.len() as u8, &faults));
    let text = reference::report(&bytes);
    assert!(text.len() > 2048, "only {} bytes", text.len());
    expect(&bytes, &text, "a long report");

    let bytes = chained_job(7, 8);
    let text = reference::report(&bytes);
    assert!(text.len() > 6144, "only {} bytes", text.len());
    expect(&bytes, &text, "a long report of four outputs");
}

/// Gates and faults, a kind and two lines each, whose report is the longest that a search among jobs of one output has
/// found; the last gate is the output, and every other is read. (That none is longer than `horncurlew::LARGEST_REPORT`
/// is proved.)
const SEARCHED_GATES: &str = "\
    4 1 6, 4 6 8, 0 9 1, 3 5 10, 5 5 2, 4 7 2, 3 11 2, 4 9 8, 4 12 2, 4 4 6, 2 13 7, 0 18 5, 5 11 2, 0 15 3, 3 15 3, \
    2 17 10, 5 14 19, 4 13 16, 3 25 17, 3 12 25, 4 22 18, 4 7 27, 4 23 14, 2 2 0, 2 27 3, 0 0 28, 4 21 30, 5 26 15, \
    3 35 24, 4 8 16, 5 0 25, 5 32 28, 5 3 7, 3 22 34, 4 38 39, 3 41 10, 4 40 32, 4 0 14, 0 35 43, 1 1 12, 5 23 36, \
    0 20 34, 7 43 43, 0 48 49, 5 51 31, 0 18 45, 4 47 32, 1 7 32, 1 5 29, 0 52 21, 2 2 46, 4 23 1, 0 50 55, 1 53 33, \
    4 35 58, 1 62 37, 1 54 63, 5 59 61, 0 65 57, 3 42 64, 4 60 44, 0 67 56, 0 68 69, 5 70 66";
const SEARCHED_FAULTS: &str = "\
    2 4 6, 1 5 5, 1 27 27, 3 0 1, 3 3 7, 1 48 48, 3 3 6, 3 0 4, 2 2 3, 3 0 5, 0 24 24, 0 37 37, 1 16 16, 2 3 4, \
    3 1 6, 3 5 7, 2 2 5, 3 4 5, 0 2 2, 0 14 14, 3 1 2, 1 26 26, 2 1 4, 0 55 55, 1 43 43, 0 9 9, 0 12 12, 2 1 2, \
    1 50 50, 0 5 5, 2 5 6, 1 8 8, 0 17 17, 0 40 40, 3 1 3, 1 23 23, 0 59 59, 1 41 41, 3 1 5, 1 46 46, 0 34 34, \
    0 33 33, 0 25 25, 3 3 4, 3 4 6, 3 2 5, 1 60 60, 0 8 8, 0 30 30, 2 2 6, 0 45 45, 0 52 52, 3 2 4, 1 22 22, 3 3 5, \
    1 32 32, 3 0 7, 3 6 7, 2 0 4, 1 38 38, 1 39 39, 0 15 15, 1 13 13";

fn triples(text: &str) -> Vec<[u8; 3]> {
    let number = |word: &str| word.parse().expect("a number");
    let triple = |words: &str| <[u8; 3]>::try_from(words.split_whitespace().map(number).collect::<Vec<u8>>());
    text.split(',').map(|words| triple(words).expect("three numbers")).collect()
}

#[test]
fn longest_report() {
    let circuit = Circuit { inputs: 8, gates: triples(SEARCHED_GATES), outputs: vec![71] };
    let bytes = rewritten(&circuit.bytes(&numbered(triples(SEARCHED_FAULTS))));
    let text = reference::report(&bytes);
    assert_eq!(text.len(), 10_102);
    expect(&bytes, &text, "the longest report");
}
