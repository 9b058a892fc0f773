//! The rule on cells written out by hand.
use vectors::rule::{Cell, read};

/// Key 7 and a declared payload length, then the payload's parts.
fn cell(declared: u8, parts: &[&[u8]]) -> Vec<u8> {
    [&[7, 0, 0, 0, declared, 0, 0, 0], parts.concat().as_slice()].concat()
}

const HEAD: &[u8] = &[0x81, 5, 0, 0, 0, 0, 0, 0, 0];
const STAMP: &[u8] = &[1, 12, 0, 0, 0, 0, 0, 0, 0];
const POINTER: &[u8] = &[1, 3, 0, 0, 0, 4, 0];

#[test]
fn cells() {
    let live = Cell {
        key: 7,
        creator: 5,
        stamp: None,
        pointer: None,
        start: 19,
        len: 2,
        next: 21,
    };
    assert_eq!(read(&cell(13, &[HEAD, &[0, 0, 0, 0]]), 0), Ok(live));
    let full = Cell {
        key: 7,
        creator: 5,
        stamp: Some(12),
        pointer: Some((3, 4)),
        start: 34,
        len: 1,
        next: 35,
    };
    let bytes = [&[9], cell(26, &[HEAD, STAMP, POINTER, &[8, 8]]).as_slice()].concat();
    assert_eq!(read(&bytes, 1), Ok(full));
}

fn assert_kind(kind: u8, cases: &[(&str, Vec<u8>)]) {
    for (name, bytes) in cases {
        assert_eq!(read(bytes, 0), Err(kind), "{name}");
    }
}

#[test]
fn wrong_bytes() {
    let format = [&[0x80], &HEAD[1..]].concat();
    let cases = [
        ("alone", cell(11, &[&format, &[0, 0]])),
        ("past the end", cell(99, &[&format[..1]])),
        ("and a flag", cell(11, &[&format, &[2, 0]])),
    ];
    assert_kind(1, &cases);
    let cases = [
        ("stamp", cell(11, &[HEAD, &[2, 0]])),
        ("stamp, past the end", cell(99, &[HEAD, &[2]])),
        ("pointer, live cell", cell(11, &[HEAD, &[0, 2]])),
        ("pointer, stamped cell", cell(19, &[HEAD, STAMP, &[2]])),
    ];
    assert_kind(2, &cases);
}

#[test]
fn short_and_past() {
    let cases = [
        ("declared length 0", cell(0, &[])),
        (
            "flag not in the declared length",
            cell(10, &[HEAD, &[0, 2]]),
        ),
        ("past the end", cell(12, &[HEAD, &[0, 0]])),
        ("stamp too short", cell(17, &[HEAD, STAMP])),
        ("pointer too short", cell(16, &[HEAD, &[0], POINTER])),
    ];
    assert_kind(3, &cases);
    for at in [12, 19, 20, 1 << 63, u64::MAX] {
        assert_eq!(read(&cell(11, &[HEAD, &[0, 0]]), at), Err(3), "{at:x}");
    }
}

#[test]
fn data_limit() {
    for (len, past, kind) in [(4051, 0, None), (4052, 0, Some(4)), (4052, 1, Some(3))] {
        let mut bytes = cell(0, &[HEAD, &[0, 0], &vec![0; len - past]]);
        bytes[4..8].copy_from_slice(&(11 + len as u32).to_le_bytes());
        assert_eq!(read(&bytes, 0).err(), kind, "{len}, {past} missing");
    }
}
