//! The report's text against the reference's.

use differential::jobs::{encode, full_job, loose_job, numbered, sized_job, small_job, Circuit};
use differential::random::Random;
use horncurlew::{NoReport, LARGEST_REPORT, MOST_WORK};

/// The work that the report program lends.
const PROGRAM_WORK: usize = 32768;

/// Compares the text, and all of the work and the room, with work and room of these lengths.
fn compare(random: &mut Random, bytes: &[u8], work: usize, room: usize) {
    let before = (random.numbers(work + 16), random.bytes(room + 16));
    let (mut numbers, mut out) = before.clone();
    let length = horncurlew::report(bytes, &mut numbers[8..8 + work], &mut out[8..8 + room]);
    let (mut expected_numbers, mut expected) = before;
    let mut expected_length = Err(NoReport::Room);
    if room >= LARGEST_REPORT {
        let text = reference::report_with(bytes, &mut expected_numbers[8..8 + work]);
        expected[8..8 + text.len()].copy_from_slice(&text);
        expected_length = Ok(text.len());
    }
    assert_eq!(length, expected_length, "length of the report of {bytes:02x?}, work {work}, room {room}");
    assert!(out == expected, "another report of {bytes:02x?}, work {work}, room {room}");
    assert!(numbers == expected_numbers, "other work after the report of {bytes:02x?}, work {work}, room {room}");
}

#[test]
fn texts_of_jobs() {
    let mut random = Random::new(20);
    for turn in 0..4000 {
        let fields = match turn % 20 {
            0 => sized_job(&mut random),
            10 => loose_job(&mut random),
            _ => small_job(&mut random),
        };
        let mut bytes = encode(&fields);
        if turn % 3 == 0 {
            let bit = random.below(8 * bytes.len());
            bytes[bit / 8] ^= 0x80 >> (bit % 8);
        }
        if turn % 17 == 0 {
            bytes.truncate(random.below(bytes.len()));
        }
        if turn % 19 == 0 {
            let count = random.below(300);
            bytes.extend(random.bytes(count));
        }
        let work = match turn % 7 {
            0 => random.below(200),
            1 => PROGRAM_WORK,
            2 => MOST_WORK,
            _ => 4096,
        };
        compare(&mut random, &bytes, work, LARGEST_REPORT + turn % 3);
    }
}

#[test]
fn texts_of_full_jobs() {
    let mut random = Random::new(21);
    for inputs in [4, 5, 6, 7, 8] {
        for outputs in 1..=4 {
            let bytes = full_job(&mut random, inputs, 64, outputs, 63);
            let work = (64 * outputs) << inputs;
            compare(&mut random, &bytes, PROGRAM_WORK, LARGEST_REPORT);
            compare(&mut random, &bytes, work - 1, LARGEST_REPORT);
            compare(&mut random, &bytes, work, LARGEST_REPORT);
        }
    }
}

/// The text with the work that the program lends.
fn program_text(bytes: &[u8]) -> String {
    let (mut work, mut out) = (vec![0; PROGRAM_WORK], [0; LARGEST_REPORT]);
    let length = horncurlew::report(bytes, &mut work, &mut out).expect("room");
    String::from_utf8_lossy(&out[..length]).into_owned()
}

/// The program's work is enough for 32 circuits of 8 inputs and four outputs, for 42 with three, for 64 with two, and
/// for 64 of 7 inputs and four outputs. 10 comes before 15.
#[test]
fn texts_at_the_edge_of_the_work() {
    let mut random = Random::new(23);
    for (inputs, outputs, faults, enough) in
        [(8, 4, 31, true), (8, 4, 32, false), (8, 3, 41, true), (8, 3, 42, false), (8, 2, 63, true), (7, 4, 63, true)]
    {
        let bytes = full_job(&mut random, inputs, 64, outputs, faults);
        let text = program_text(&bytes);
        let first_line = if enough { format!("inputs {inputs} gates 64 faults {faults}") } else { "refused 10".into() };
        assert_eq!(text.lines().next(), Some(&first_line[..]), "{inputs} inputs, {outputs} outputs, {faults} faults");
        assert_eq!(text.as_bytes(), reference::report(&bytes));
        compare(&mut random, &bytes, PROGRAM_WORK, LARGEST_REPORT);

        let line = Circuit { inputs, gates: Vec::new(), outputs: vec![0; outputs] };
        let alike = line.bytes(&numbered(vec![[1, 0, 0]; faults]));
        assert_eq!(program_text(&alike), if enough { "refused 15 1 2\n" } else { "refused 10\n" });
        compare(&mut random, &alike, PROGRAM_WORK, LARGEST_REPORT);
        // The same faults of one part.
        let one_part = line.bytes(&vec![[1, 0, 0, 7]; faults]);
        let first_lines = format!("inputs {inputs} gates 0 faults {faults}\nsignature 0:0\n0 0\n1 1\n");
        assert!(program_text(&one_part).starts_with(if enough { &first_lines } else { "refused 10\n" }));
        compare(&mut random, &one_part, PROGRAM_WORK, LARGEST_REPORT);
    }
}

#[test]
fn too_little_room() {
    let mut random = Random::new(22);
    for turn in 0..60 {
        let bytes = encode(&small_job(&mut random));
        for room in [0, 1, 10, 100, random.below(LARGEST_REPORT), LARGEST_REPORT - 1] {
            compare(&mut random, &bytes[..bytes.len() - turn % 2], PROGRAM_WORK, room);
            compare(&mut random, &bytes, 0, room);
        }
    }
}
