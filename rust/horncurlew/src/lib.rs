//! Reed-Muller signatures of a small logic circuit: the proved library, in Rust's own terms.
//!
//! A job holds a circuit of 1 to 8 inputs, up to 64 gates and 1 to 4 outputs, and a list of up to 63 single faults,
//! each with the number, 1 to 63, of the part that is mended for it; several faults may have one part. From its bytes
//! come the packed tables of the good circuit and of the faulty ones at each output, their spectra, a signature of few
//! coefficients that tells circuits of different parts apart, and the part whose circuits give some readings. N is 2 to
//! the power of the number of inputs. Circuit 0 is the good one and has part 0, circuit c is the one with fault c and
//! has its part. Outputs number from 0 in the order of the job's fields.
//!
//! The library allocates nothing: the caller lends the memory for results. A refused call writes nothing, but for
//! circuits that are alike, which leaves the spectra in the lent work. A call that succeeds writes the places that it
//! names from the start, and no others. Numbers of refusals are the documents'; [`Refusal`] names them.
//!
//! ```
//! use horncurlew::{choose, locate, Entry, Kind, Location, Purpose};
//!
//! // An AND of two inputs; its line 0 stuck at 0, line 0 at 1, line 1 at 1, each a part of its own: 1, 2, 3.
//! let job = [0x20, 0x20, 0x00, 0x10, 0x10, 0x60, 0x00, 0x00, 0xa0, 0x00, 0x04, 0x81, 0x02, 0x18];
//! let mut work = [0; 16];
//! let choice = choose(&job, Purpose::Isolating, Kind::Mrm, 0, &mut work).unwrap();
//! let entries = choice.signature.entries();
//! assert_eq!(entries, [Entry { index: 1, output: 0 }, Entry { index: 3, output: 0 }]);
//! let location = locate(&job, Kind::Mrm, 0, entries, &[0, 2], &mut work);
//! assert_eq!(location, Ok(Location::Part { part: 2, lowest: 2 }));
//! ```

#![deny(unsafe_code)]
#![warn(missing_docs)]

#[allow(unsafe_code)]
mod ffi;
mod refusal;

pub use refusal::Refusal;
use std::error::Error;
use std::fmt;

/// The version of the library that this crate was written for. It is compared with the linked library's before the
/// first call; if they differ the library is never called, and every call gives an error that says so.
pub const VERSION: usize = ffi::VERSION;
/// The most bytes of stack that a call needs, as measured.
pub const STACK: usize = 65536;
/// The most bytes of stack that a call other than [`choose`], [`locate`], [`locate_lists`] and [`report`] needs.
pub const SMALL_STACK: usize = 16384;
/// The most bytes that a job can have.
pub const LONGEST_JOB: usize = 316;
/// The most outputs that a job can have.
pub const MOST_OUTPUTS: usize = 4;
/// The most work that choosing and locating need: 64 circuits of 4 outputs of 256 coefficients.
pub const MOST_WORK: usize = 65536;
/// The most bytes that a packed table can have.
pub const LARGEST_TABLE: usize = 32;
/// The most entries that a signature can have.
pub const MOST_ENTRIES: usize = ffi::MOST_ENTRIES;
/// The room that a report needs, whatever the job.
pub const LARGEST_REPORT: usize = 16736;

/// The kinds of spectrum.
#[derive(Clone, Copy, Debug, PartialEq, Eq, Hash)]
#[repr(u8)]
pub enum Kind {
    /// Reed-Muller: sums modulo 2.
    Rm = 0,
    /// Modified Reed-Muller: plain sums.
    Mrm = 1,
}

/// Which pairs of circuits a signature must tell apart.
#[derive(Clone, Copy, Debug, PartialEq, Eq, Hash)]
#[repr(u8)]
pub enum Purpose {
    /// Every two circuits whose parts differ. Faults of one part need no telling apart, equal or not.
    Isolating = 0,
    /// The good circuit and each faulty one.
    Detecting = 1,
}

/// The counts of a job.
#[derive(Clone, Copy, Debug, PartialEq, Eq, Hash)]
pub struct Counts {
    /// The number of inputs, 1 to 8.
    pub inputs: usize,
    /// The number of gates, up to 64.
    pub gates: usize,
    /// The number of outputs, 1 to 4.
    pub outputs: usize,
    /// The number of faults, up to 63.
    pub faults: usize,
}

/// What a signature names: the coefficient of an index at an output. Its text is index, colon, output.
#[derive(Clone, Copy, Debug, PartialEq, Eq, Hash)]
pub struct Entry {
    /// The index of the coefficient. One that isn't below N is refused where it is used.
    pub index: u16,
    /// The number of the output, from 0. One that the job doesn't have is refused where it is used.
    pub output: u16,
}

impl fmt::Display for Entry {
    fn fmt(&self, f: &mut fmt::Formatter) -> fmt::Result {
        write!(f, "{}:{}", self.index, self.output)
    }
}

/// The entries that a signature has, in the order of taking.
#[derive(Clone, Copy)]
pub struct Signature {
    count: usize,
    entries: [Entry; MOST_ENTRIES],
}

impl Signature {
    /// The entries.
    pub fn entries(&self) -> &[Entry] {
        &self.entries[..self.count]
    }
}

impl PartialEq for Signature {
    fn eq(&self, other: &Signature) -> bool {
        self.entries() == other.entries()
    }
}

impl Eq for Signature {}

impl fmt::Debug for Signature {
    fn fmt(&self, f: &mut fmt::Formatter) -> fmt::Result {
        f.debug_list().entries(self.entries()).finish()
    }
}

/// A signature that was chosen, and the counts of its job.
#[derive(Clone, Copy, Debug, PartialEq, Eq)]
pub struct Choice {
    /// The counts of the job.
    pub counts: Counts,
    /// The signature that was chosen.
    pub signature: Signature,
}

/// Why no signature was chosen.
#[derive(Clone, Copy, Debug, PartialEq, Eq)]
pub enum NoChoice {
    /// The first pair of circuits, of those to be told apart, that have equal tables at every output (refusal 15).
    Alike(usize, usize),
    /// Any other refusal.
    Refused(Refusal),
}

impl NoChoice {
    /// The number of the refusal; none if the library wasn't called.
    pub fn number(self) -> Option<usize> {
        match self {
            NoChoice::Alike(..) => Refusal::Alike.number(),
            NoChoice::Refused(cause) => cause.number(),
        }
    }
}

impl From<OtherVersion> for NoChoice {
    fn from(other: OtherVersion) -> NoChoice {
        NoChoice::Refused(other.into())
    }
}

impl fmt::Display for NoChoice {
    fn fmt(&self, f: &mut fmt::Formatter) -> fmt::Result {
        match self {
            NoChoice::Alike(first, second) => write!(f, "refused 15: circuits {first} and {second} are alike"),
            NoChoice::Refused(cause) => cause.fmt(f),
        }
    }
}

impl Error for NoChoice {}

/// The circuits that agree with readings.
#[derive(Clone, Copy, Debug, PartialEq, Eq)]
pub enum Location {
    /// One or more do, and all of them have one part.
    Part {
        /// Their part, 0 if it is the good circuit's.
        part: usize,
        /// The lowest circuit that does.
        lowest: usize,
    },
    /// Two or more do, and they have different parts.
    Several {
        /// The lowest circuit that does.
        lowest: usize,
        /// How many do.
        count: usize,
    },
    /// No circuit does.
    Nowhere,
}

/// Why no report was written.
#[derive(Clone, Copy, Debug, PartialEq, Eq)]
#[non_exhaustive]
pub enum NoReport {
    /// The lent room is below [`LARGEST_REPORT`].
    Room,
    /// The library wasn't called: its version isn't the one that this crate was written for.
    Version(OtherVersion),
}

impl From<OtherVersion> for NoReport {
    fn from(other: OtherVersion) -> NoReport {
        NoReport::Version(other)
    }
}

impl fmt::Display for NoReport {
    fn fmt(&self, f: &mut fmt::Formatter) -> fmt::Result {
        match self {
            NoReport::Room => write!(f, "a report needs room for {LARGEST_REPORT} bytes"),
            NoReport::Version(other) => other.fmt(f),
        }
    }
}

impl Error for NoReport {}

/// The linked library has this version, which isn't [`VERSION`].
#[derive(Clone, Copy, Debug, PartialEq, Eq, Hash)]
pub struct OtherVersion(usize);

impl OtherVersion {
    /// The version of the linked library.
    pub const fn library(self) -> usize {
        self.0
    }
}

impl fmt::Display for OtherVersion {
    fn fmt(&self, f: &mut fmt::Formatter) -> fmt::Result {
        let library = self.0;
        write!(
            f,
            "the linked library horncurlew has version {library}, and this crate is for version {VERSION}: \
             build both from one source"
        )
    }
}

impl Error for OtherVersion {}

fn done(number: usize) -> Result<(), Refusal> {
    match number {
        0 => Ok(()),
        number => Err(Refusal::of(number)),
    }
}

/// Whether the bytes are a job, and its counts.
///
/// Refusals, as the fields come: at each field 1 if the bytes end in it; 2; 3; for each gate 4, 5; for each output 6,
/// before the next is read; 19, before the fault count is read; for each fault, once its four fields are read, 7, 8,
/// 21; after the last field 9.
pub fn check(bytes: &[u8]) -> Result<Counts, Refusal> {
    let answer = ffi::library()?.check(bytes);
    done(answer.number)?;
    Ok(Counts { inputs: answer.inputs, gates: answer.gates, outputs: answer.outputs, faults: answer.faults })
}

/// Reads a job and writes it again; the number of bytes written. At most [`LONGEST_JOB`] are needed.
///
/// Refusals, the first that applies: reading's, as in [`check`]; 10.
pub fn rewrite(bytes: &[u8], out: &mut [u8]) -> Result<usize, Refusal> {
    let answer = ffi::library()?.rewrite(bytes, out);
    done(answer.number)?;
    Ok(answer.length)
}

/// Writes the packed table of a circuit of a job at an output: (N + 7) / 8 bytes.
///
/// Refusals, the first that applies: reading's, as in [`check`]; 11; 20; 10.
pub fn table(bytes: &[u8], circuit: usize, output: usize, out: &mut [u8]) -> Result<(), Refusal> {
    done(ffi::library()?.table(bytes, circuit, output, out))
}

/// Writes the N coefficients of a packed table.
///
/// Refusals, the first that applies: 2; 12; 13; 10.
pub fn spectrum(inputs: usize, table: &[u8], kind: Kind, polarity: usize, out: &mut [u16]) -> Result<(), Refusal> {
    done(ffi::library()?.spectrum(inputs, table, kind as u8, polarity, out))
}

/// Writes the packed table that has this spectrum.
///
/// Refusals, the first that applies: 2; 13; 14; 10.
pub fn undo(inputs: usize, numbers: &[u16], kind: Kind, polarity: usize, out: &mut [u8]) -> Result<(), Refusal> {
    done(ffi::library()?.undo(inputs, numbers, kind as u8, polarity, out))
}

/// Chooses the signature of a job. `work` then holds coefficient j of circuit c at an output at place ((c x outputs) +
/// output) x N + j, for circuits that are alike too. It needs N places for each output of each circuit, at most
/// [`MOST_WORK`].
///
/// Refusals, the first that applies: reading's, as in [`check`]; 13; 10; 15, which is [`NoChoice::Alike`] with its
/// pair.
pub fn choose(
    bytes: &[u8],
    purpose: Purpose,
    kind: Kind,
    polarity: usize,
    work: &mut [u16],
) -> Result<Choice, NoChoice> {
    let answer = ffi::library()?.choose(bytes, purpose as u8, kind as u8, polarity, work);
    match answer.number {
        0 => Ok(Choice {
            counts: Counts {
                inputs: answer.inputs,
                gates: answer.gates,
                outputs: answer.outputs,
                faults: answer.faults,
            },
            signature: Signature {
                count: answer.count,
                entries: std::array::from_fn(|place| Entry {
                    index: answer.entry_indices[place],
                    output: answer.entry_outputs[place],
                }),
            },
        }),
        15 => Err(NoChoice::Alike(answer.first, answer.second)),
        number => Err(NoChoice::Refused(Refusal::of(number))),
    }
}

/// Finds the circuits whose coefficients at the entries are the readings, in order, and their part where all of them
/// have one. Entries may come in any order and more than once. `work` then holds the spectra as in [`choose`], and
/// needs the same room.
///
/// The library takes indices and outputs apart: this call makes the two lists of the entries, on the heap, and
/// [`locate_lists`] takes them as they are.
///
/// Refusals, the first that applies: reading's, as in [`check`]; 13; 16, for any of the entries; 20, for any of the
/// entries; 17; 10.
pub fn locate(
    bytes: &[u8],
    kind: Kind,
    polarity: usize,
    entries: &[Entry],
    readings: &[u16],
    work: &mut [u16],
) -> Result<Location, Refusal> {
    let (indices, outputs): (Vec<u16>, Vec<u16>) = entries.iter().map(|entry| (entry.index, entry.output)).unzip();
    locate_lists(bytes, kind, polarity, &indices, &outputs, readings, work)
}

/// Does as [`locate`] with entries whose indices and outputs are in two lists; 17 also where these differ in length.
pub fn locate_lists(
    bytes: &[u8],
    kind: Kind,
    polarity: usize,
    indices: &[u16],
    outputs: &[u16],
    readings: &[u16],
    work: &mut [u16],
) -> Result<Location, Refusal> {
    let answer = ffi::library()?.locate(bytes, kind as u8, polarity, indices, outputs, readings, work);
    done(answer.number)?;
    Ok(match answer.found {
        0 => Location::Nowhere,
        1 => Location::Part { part: answer.part, lowest: answer.circuit },
        _ => Location::Several { lowest: answer.circuit, count: answer.agreeing },
    })
}

/// Writes the text that the report program prints for these bytes, and gives its length. A refusal is a text too; work
/// that is too short is one of them. `out` needs [`LARGEST_REPORT`] bytes; with fewer nothing is written, to the work
/// neither.
///
/// Refusals, in the text, the first that applies: those of [`choose`] but for 13.
pub fn report(bytes: &[u8], work: &mut [u16], out: &mut [u8]) -> Result<usize, NoReport> {
    let answer = ffi::library()?.report(bytes, work, out);
    match answer.written {
        0 => Err(NoReport::Room),
        _ => Ok(answer.length),
    }
}
