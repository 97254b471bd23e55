//! The vectors of published.txt: what the papers print and what the definitions give for their circuits.

use reference::{choose, locate, read, report, spectrum, table, undo, Chosen, Entry, Kind, Located, Purpose};

/// The most numbers that a job's work has.
const MOST_WORK: usize = 64 * 4 * 256;

fn bytes(text: &str) -> Vec<u8> {
    (0..text.len() / 2).map(|i| u8::from_str_radix(&text[2 * i..2 * i + 2], 16).unwrap()).collect()
}

fn kind(text: &str) -> Kind {
    match text {
        "rm" => Kind::Rm,
        "mrm" => Kind::Mrm,
        other => panic!("{other}"),
    }
}

fn numbers(words: &[&str]) -> Vec<u16> {
    words.iter().map(|word| word.parse().unwrap()).collect()
}

fn number(word: &str) -> usize {
    word.parse().unwrap()
}

/// Entries as index, colon, output.
fn entries(words: &[&str]) -> Vec<Entry> {
    let entry = |word: &&str| {
        let (index, output) = word.split_once(':').unwrap();
        Entry { index: index.parse().unwrap(), output: output.parse().unwrap() }
    };
    words.iter().map(entry).collect()
}

fn check_spectrum(inputs: usize, packed: &[u8], kind: Kind, polarity: usize, coefficients: &[u16]) {
    let mut out = vec![0; 1 << inputs];
    assert_eq!(spectrum(inputs, packed, kind, polarity, &mut out), Ok(()));
    assert_eq!(out, coefficients);
    let mut back = vec![0xff; packed.len()];
    assert_eq!(undo(inputs, coefficients, kind, polarity, &mut back), Ok(()));
    assert_eq!(back, packed);
}

fn check_signature(job: &[u8], purpose: Purpose, kind: Kind, polarity: usize, expected: &[&str]) {
    let mut work = vec![0; MOST_WORK];
    match (choose(job, purpose, kind, polarity, &mut work), expected) {
        (Chosen::Alike(lower, higher), ["alike", pair @ ..]) => {
            assert_eq!([lower as u16, higher as u16], *numbers(pair));
        }
        (Chosen::Signature { count, entries: found, .. }, _) => assert_eq!(found[..count], entries(expected)),
        (other, _) => panic!("{other:?}, not {expected:?}"),
    }
}

/// The circuit differs from the good one at these entries and no others.
fn check_shows(job: &[u8], kind: Kind, polarity: usize, circuit: usize, expected: &[Entry]) {
    let mut work = vec![0; MOST_WORK];
    locate(job, kind, polarity, &[], &[], &[], &mut work);
    let (inputs, outputs) = read(job).map(|job| (job.inputs, u16::from(job.output_count))).unwrap();
    let all = (0..1 << inputs).flat_map(|index| (0..outputs).map(move |output| Entry { index, output }));
    let coefficient = |circuit: usize, entry: &Entry| {
        let row = circuit * usize::from(outputs) + usize::from(entry.output);
        work[(row << inputs) + usize::from(entry.index)]
    };
    let differs = |entry: &Entry| coefficient(0, entry) != coefficient(circuit, entry);
    assert_eq!(all.filter(differs).collect::<Vec<_>>(), expected);
}

fn check_locate(job: &[u8], kind: Kind, polarity: usize, rest: &[&str]) {
    let parts: Vec<&[&str]> = rest.split(|word| *word == "/").collect();
    let expected = match parts[2] {
        ["none"] => Located::Nowhere,
        ["part", part, lowest] => Located::Part(number(part), number(lowest)),
        ["several", lowest, count] => Located::Several(number(lowest), number(count)),
        other => panic!("{other:?}"),
    };
    let mut work = vec![0; MOST_WORK];
    let (indices, outputs): (Vec<u16>, Vec<u16>) = entries(parts[0]).iter().map(|e| (e.index, e.output)).unzip();
    assert_eq!(locate(job, kind, polarity, &indices, &outputs, &numbers(parts[1]), &mut work), expected);
}

#[test]
fn published_vectors() {
    let mut job = Vec::new();
    let mut count = 0;
    for line in include_str!("published.txt").lines() {
        let words: Vec<&str> = line.split(' ').collect();
        match words[..] {
            ["#", ..] => continue,
            ["job", _, hex] => job = bytes(hex),
            ["spectrum", inputs, packed, k, polarity, ..] => {
                check_spectrum(number(inputs), &bytes(packed), kind(k), number(polarity), &numbers(&words[5..]));
            }
            ["undo", inputs, k, polarity, ..] => {
                let mut out = [0; 32];
                let answer = undo(number(inputs), &numbers(&words[4..]), kind(k), number(polarity), &mut out);
                assert_eq!(answer, Err(14));
            }
            ["tables", ..] => {
                let outputs = usize::from(read(&job).unwrap().output_count);
                for (place, packed) in words[1..].iter().enumerate() {
                    let mut out = vec![0; packed.len() / 2];
                    assert_eq!(table(&job, place / outputs, place % outputs, &mut out), Ok(()));
                    assert_eq!(out, bytes(packed), "{line}");
                }
                assert_eq!(table(&job, (words.len() - 1) / outputs, 0, &mut [0; 32]), Err(11));
                assert_eq!(table(&job, 0, outputs, &mut [0; 32]), Err(20));
            }
            ["isolating", k, polarity, ..] => {
                check_signature(&job, Purpose::Isolating, kind(k), number(polarity), &words[3..]);
            }
            ["detecting", k, polarity, ..] => {
                check_signature(&job, Purpose::Detecting, kind(k), number(polarity), &words[3..]);
            }
            ["report", ..] => {
                let text = line["report ".len()..].replace('/', "\n") + "\n";
                assert_eq!(String::from_utf8(report(&job)).unwrap(), text);
            }
            ["shows", k, polarity, circuit, ..] => {
                check_shows(&job, kind(k), number(polarity), number(circuit), &entries(&words[4..]));
            }
            ["locate", k, polarity, ..] => check_locate(&job, kind(k), number(polarity), &words[3..]),
            _ => panic!("{line}"),
        }
        count += 1;
    }
    assert_eq!(count, 599);
}
