//! The report's text through the safe crate.

use horncurlew::{report, NoReport, LARGEST_REPORT, MOST_WORK};

const JOB_A: [u8; 14] = [0x20, 0x20, 0x00, 0x10, 0x10, 0x60, 0x00, 0x00, 0xa0, 0x00, 0x04, 0x81, 0x02, 0x18];

fn text(bytes: &[u8], work: usize) -> String {
    let mut out = [0; LARGEST_REPORT];
    let length = report(bytes, &mut vec![0; work], &mut out).unwrap();
    String::from_utf8(out[..length].to_vec()).unwrap()
}

#[test]
fn texts() {
    assert_eq!(text(&JOB_A, 16), "inputs 2 gates 1 faults 3\nsignature 1:0 3:0\n0 0 1\n1 0 0\n2 0 2\n3 1 2\n");
    assert_eq!(text(&[0x10, 0, 0, 0], MOST_WORK), "inputs 1 gates 0 faults 0\nsignature\n0\n");
    assert_eq!(text(&[], MOST_WORK), "refused 1\n");
    assert_eq!(text(&[0x10, 0, 0, 0, 0], MOST_WORK), "refused 9\n");
    assert_eq!(text(&[0x20, 0x20, 0x00, 0x10, 0x10, 0x30, 0x00, 0x20, 0x80], MOST_WORK), "refused 15 0 1\n");
    assert_eq!(text(&JOB_A, 15), "refused 10\n");
}

#[test]
fn no_room() {
    let (mut work, mut out) = ([7; 16], [0x5a; LARGEST_REPORT]);
    for room in [0, 1, 64, LARGEST_REPORT - 1] {
        assert_eq!(report(&JOB_A, &mut work, &mut out[..room]), Err(NoReport::Room));
    }
    assert_eq!(work, [7; 16]);
    assert_eq!(out, [0x5a; LARGEST_REPORT]);
}
