//! The exported functions, as include/horncurlew.h declares them, each behind a safe one over slices.
//!
//! The safe functions belong to [`Library`], which is to be had once the versions are compared: a library of another
//! version may have other structs and parameters, and is never called.
//!
//! Each passes the pointers and lengths of slices that it was lent for the call. They are valid and aligned, and a
//! mutable one overlaps no other; this is all that the library asks. It keeps no pointer and has no state, so that
//! calls from several threads are free of each other. The pointer of an empty slice points nowhere; the library doesn't
//! follow it.

use crate::OtherVersion;
use std::sync::OnceLock;

/// The version of the library that this module was written for: HORNCURLEW_VERSION of the header.
pub(crate) const VERSION: usize = 4;

/// The most entries that a signature can have: one less than there are circuits.
pub(crate) const MOST_ENTRIES: usize = 63;

#[repr(C)]
pub(crate) struct JobAnswer {
    pub(crate) number: usize,
    pub(crate) inputs: usize,
    pub(crate) gates: usize,
    pub(crate) outputs: usize,
    pub(crate) faults: usize,
}

#[repr(C)]
pub(crate) struct LengthAnswer {
    pub(crate) number: usize,
    pub(crate) length: usize,
}

#[repr(C)]
pub(crate) struct ChoiceAnswer {
    pub(crate) number: usize,
    pub(crate) first: usize,
    pub(crate) second: usize,
    pub(crate) inputs: usize,
    pub(crate) gates: usize,
    pub(crate) outputs: usize,
    pub(crate) faults: usize,
    pub(crate) count: usize,
    pub(crate) entry_indices: [u16; MOST_ENTRIES],
    pub(crate) entry_outputs: [u16; MOST_ENTRIES],
}

#[repr(C)]
pub(crate) struct LocationAnswer {
    pub(crate) number: usize,
    pub(crate) found: usize,
    pub(crate) part: usize,
    pub(crate) circuit: usize,
    pub(crate) agreeing: usize,
}

#[repr(C)]
pub(crate) struct ReportAnswer {
    pub(crate) written: usize,
    pub(crate) length: usize,
}

extern "C" {
    fn horncurlew_version() -> usize;
    fn horncurlew_check(bytes: *const u8, bytes_length: usize) -> JobAnswer;
    fn horncurlew_rewrite(bytes: *const u8, bytes_length: usize, out: *mut u8, out_length: usize) -> LengthAnswer;
    fn horncurlew_table(
        bytes: *const u8,
        bytes_length: usize,
        circuit: usize,
        output: usize,
        out: *mut u8,
        out_length: usize,
    ) -> usize;
    fn horncurlew_spectrum(
        inputs: usize,
        table: *const u8,
        table_length: usize,
        kind: u8,
        polarity: usize,
        out: *mut u16,
        out_length: usize,
    ) -> usize;
    fn horncurlew_undo(
        inputs: usize,
        numbers: *const u16,
        numbers_length: usize,
        kind: u8,
        polarity: usize,
        out: *mut u8,
        out_length: usize,
    ) -> usize;
    fn horncurlew_choose(
        bytes: *const u8,
        bytes_length: usize,
        purpose: u8,
        kind: u8,
        polarity: usize,
        work: *mut u16,
        work_length: usize,
    ) -> ChoiceAnswer;
    fn horncurlew_locate(
        bytes: *const u8,
        bytes_length: usize,
        kind: u8,
        polarity: usize,
        indices: *const u16,
        indices_length: usize,
        outputs: *const u16,
        outputs_length: usize,
        readings: *const u16,
        readings_length: usize,
        work: *mut u16,
        work_length: usize,
    ) -> LocationAnswer;
    fn horncurlew_report(
        bytes: *const u8,
        bytes_length: usize,
        work: *mut u16,
        work_length: usize,
        out: *mut u8,
        out_length: usize,
    ) -> ReportAnswer;
}

/// The linked library, of the version that this module was written for.
#[derive(Clone, Copy, Debug, PartialEq, Eq)]
pub(crate) struct Library(());

/// The linked library. Its version is compared at the first call.
#[inline]
pub(crate) fn library() -> Result<Library, OtherVersion> {
    static COMPARED: OnceLock<Result<Library, OtherVersion>> = OnceLock::new();
    // SAFETY: the function takes nothing, and has given one number since version 1.
    *COMPARED.get_or_init(|| compare(unsafe { horncurlew_version() }))
}

fn compare(version: usize) -> Result<Library, OtherVersion> {
    match version {
        VERSION => Ok(Library(())),
        version => Err(OtherVersion(version)),
    }
}

impl Library {
    #[inline]
    pub(crate) fn check(self, bytes: &[u8]) -> JobAnswer {
        // SAFETY: the slices' own pointers and lengths; see the module's comment.
        unsafe { horncurlew_check(bytes.as_ptr(), bytes.len()) }
    }

    #[inline]
    pub(crate) fn rewrite(self, bytes: &[u8], out: &mut [u8]) -> LengthAnswer {
        // SAFETY: as in `check`.
        unsafe { horncurlew_rewrite(bytes.as_ptr(), bytes.len(), out.as_mut_ptr(), out.len()) }
    }

    #[inline]
    pub(crate) fn table(self, bytes: &[u8], circuit: usize, output: usize, out: &mut [u8]) -> usize {
        // SAFETY: as in `check`.
        unsafe { horncurlew_table(bytes.as_ptr(), bytes.len(), circuit, output, out.as_mut_ptr(), out.len()) }
    }

    #[inline]
    pub(crate) fn spectrum(self, inputs: usize, table: &[u8], kind: u8, polarity: usize, out: &mut [u16]) -> usize {
        // SAFETY: as in `check`.
        unsafe { horncurlew_spectrum(inputs, table.as_ptr(), table.len(), kind, polarity, out.as_mut_ptr(), out.len()) }
    }

    #[inline]
    pub(crate) fn undo(self, inputs: usize, numbers: &[u16], kind: u8, polarity: usize, out: &mut [u8]) -> usize {
        // SAFETY: as in `check`.
        unsafe { horncurlew_undo(inputs, numbers.as_ptr(), numbers.len(), kind, polarity, out.as_mut_ptr(), out.len()) }
    }

    #[inline]
    pub(crate) fn choose(self, bytes: &[u8], purpose: u8, kind: u8, polarity: usize, work: &mut [u16]) -> ChoiceAnswer {
        // SAFETY: as in `check`.
        unsafe {
            horncurlew_choose(bytes.as_ptr(), bytes.len(), purpose, kind, polarity, work.as_mut_ptr(), work.len())
        }
    }

    #[inline]
    #[allow(clippy::too_many_arguments, reason = "the library's own")]
    pub(crate) fn locate(
        self,
        bytes: &[u8],
        kind: u8,
        polarity: usize,
        indices: &[u16],
        outputs: &[u16],
        readings: &[u16],
        work: &mut [u16],
    ) -> LocationAnswer {
        // SAFETY: as in `check`.
        unsafe {
            horncurlew_locate(
                bytes.as_ptr(),
                bytes.len(),
                kind,
                polarity,
                indices.as_ptr(),
                indices.len(),
                outputs.as_ptr(),
                outputs.len(),
                readings.as_ptr(),
                readings.len(),
                work.as_mut_ptr(),
                work.len(),
            )
        }
    }

    #[inline]
    pub(crate) fn report(self, bytes: &[u8], work: &mut [u16], out: &mut [u8]) -> ReportAnswer {
        // SAFETY: as in `check`.
        unsafe {
            horncurlew_report(bytes.as_ptr(), bytes.len(), work.as_mut_ptr(), work.len(), out.as_mut_ptr(), out.len())
        }
    }
}

#[cfg(test)]
mod tests {
    use super::*;
    use crate::{NoChoice, NoReport, Refusal};

    const JOB_A: [u8; 14] = [0x20, 0x20, 0x00, 0x10, 0x10, 0x60, 0x00, 0x00, 0xa0, 0x00, 0x04, 0x81, 0x02, 0x18];

    fn compared() -> Library {
        library().expect("the version that this module was written for")
    }

    /// A library of another version is not to be had, and the error says why.
    #[test]
    fn other_versions() {
        assert_eq!(compare(VERSION), Ok(Library(())));
        assert_eq!(library(), Ok(Library(())));
        for version in [0, VERSION - 1, VERSION + 1, VERSION + 256, usize::MAX] {
            let other = compare(version).expect_err("another version");
            let words = format!(
                "the linked library horncurlew has version {version}, and this crate is for version 4: \
                 build both from one source"
            );
            assert_eq!(other.to_string(), words);
            assert_eq!(other.library(), version);
            assert_eq!(Refusal::from(other).to_string(), words);
            assert_eq!(Refusal::from(other).number(), None);
            assert_eq!(NoChoice::from(other).to_string(), words);
            assert_eq!(NoChoice::from(other).number(), None);
            assert_eq!(NoReport::from(other).to_string(), words);
        }
    }

    /// Any number but 0 is MRM, and detecting.
    #[test]
    fn numbers_of_kinds_and_purposes() {
        let choice = |purpose, kind| {
            let answer = compared().choose(&JOB_A, purpose, kind, 0, &mut [0; 16]);
            answer.entry_indices[..3].to_vec()
        };
        assert_eq!(choice(0, 0), [1, 2, 3]);
        for other in [1, 2, 3, 0x80, 0xff] {
            assert_eq!(choice(0, other), [1, 3, 0]);
            assert_eq!(choice(other, 0), [3, 0, 0]);
            assert_eq!(choice(other, other), [3, 0, 0]);
        }
        for other in [1, 2, 0xff] {
            let mut out = [0; 8];
            assert_eq!(compared().spectrum(3, &[0x5d], other, 5, &mut out), 0);
            assert_eq!(out, [1, 2, 2, 3, 2, 3, 4, 5]);
            let mut table = [0; 1];
            assert_eq!(compared().undo(3, &out, other, 5, &mut table), 0);
            assert_eq!(table, [0x5d]);
            let several = compared().locate(&JOB_A, other, 0, &[3], &[0], &[2], &mut [0; 16]);
            assert_eq!((several.found, several.agreeing), (2, 2));
        }
    }

    /// What a call doesn't use of its answer is 0.
    #[test]
    fn unused_places() {
        let unused = |answer: &ChoiceAnswer| {
            let after = |entries: &[u16; MOST_ENTRIES]| entries[answer.count..].iter().all(|number| *number == 0);
            after(&answer.entry_indices) && after(&answer.entry_outputs)
        };
        let refused = compared().check(&[0x20, 0x20, 0x00]);
        assert_eq!((refused.number, refused.inputs, refused.gates), (1, 0, 0));
        assert_eq!((refused.outputs, refused.faults), (0, 0));
        let refused = compared().rewrite(&JOB_A, &mut [0; 13]);
        assert_eq!((refused.number, refused.length), (10, 0));
        for (polarity, number) in [(0, 0), (4, 13)] {
            let answer = compared().choose(&JOB_A, 0, 1, polarity, &mut [0; 16]);
            assert_eq!((answer.number, answer.first, answer.second), (number, 0, 0));
            assert!(unused(&answer));
        }
        let job_p10 = [0x20, 0x20, 0x00, 0x10, 0x10, 0x30, 0x00, 0x20, 0x80];
        let alike = compared().choose(&job_p10, 0, 1, 0, &mut [0; 8]);
        assert_eq!((alike.number, alike.first, alike.second, alike.count), (15, 0, 1, 0));
        assert_eq!((alike.inputs, alike.gates, alike.outputs, alike.faults), (0, 0, 0, 0));
        assert!(unused(&alike));
        let located = |indices: &[u16], readings: &[u16]| {
            let answer = compared().locate(&JOB_A, 1, 0, indices, &vec![0; indices.len()], readings, &mut [0; 16]);
            [answer.number, answer.found, answer.part, answer.circuit, answer.agreeing]
        };
        assert_eq!(located(&[3], &[3]), [0, 0, 0, 0, 0]);
        assert_eq!(located(&[1, 3], &[1, 2]), [0, 1, 3, 3, 0]);
        assert_eq!(located(&[3], &[2]), [0, 2, 0, 2, 2]);
        assert_eq!(located(&[4], &[3]), [16, 0, 0, 0, 0]);
    }
}
