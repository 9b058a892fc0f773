//! Where aerodb's code does something else than the port: what DIFFERENCES cites.
use aerodb_opaque::oracle::Oracle;
use std::panic::{AssertUnwindSafe, catch_unwind};
use wire::page::leaf;
use wire::*;

fn cell(payload: &[u8]) -> Vec<u8> {
    let mut cell = 7i32.to_le_bytes().to_vec();
    cell.extend((payload.len() as u32).to_le_bytes());
    cell.extend(payload);
    cell
}

fn versions_of(page: &[u8; PAGE]) -> Ans {
    Oracle::from_bytes(page, 1, 0).run(&Op::All)
}

fn payload(stamp: &[u8], pointer: &[u8], data: &[u8]) -> Vec<u8> {
    [&[FORMAT, 5, 0, 0, 0, 0, 0, 0, 0], stamp, pointer, data].concat()
}

fn v(creator: u64, deleter: Option<u64>, ptr: Option<(u32, u16)>, data: &[u8]) -> Version {
    Version {
        key: 7,
        creator,
        deleter,
        ptr,
        data: data.to_vec(),
    }
}

/// The Rust reads these; the port refuses each as unreadable.
#[test]
fn laxer_reader() {
    let long = vec![9; 4052];
    let stamp = [2, 12, 0, 0, 0, 0, 0, 0, 0];
    let pointer = [255, 3, 0, 0, 0, 4, 0];
    let cases = [
        (
            "legacy row",
            vec![0x80, 1, 2],
            v(0, None, None, &[0x80, 1, 2]),
        ),
        ("no payload", vec![], v(0, None, None, &[])),
        (
            "stamp flag 2",
            payload(&stamp, &[0], &[]),
            v(5, Some(12), None, &[]),
        ),
        (
            "pointer flag 255",
            payload(&[0], &pointer, &[]),
            v(5, None, Some((3, 4)), &[]),
        ),
        (
            "data of 4052",
            payload(&[0], &[0], &long),
            v(5, None, None, &long),
        ),
    ];
    for (name, payload, read) in cases {
        let answer = versions_of(&leaf(1, &cell(&payload)));
        assert_eq!(answer, Ans::List(vec![read]), "{name}");
    }
}

/// What it reads by a laxer rule it writes back by the strict one, when
/// anything else in the leaf changes.
#[test]
fn lax_reading_is_rewritten() {
    let page = leaf(1, &cell(&[0x80, 1, 2]));
    let mut o = Oracle::from_bytes(&page, 1, 0);
    assert_eq!(o.run(&Op::Insert(8, vec![])), Ans::Done);
    let rewritten = Version::live(7, 0, vec![0x80, 1, 2]).cell();
    assert_eq!(o.page(0)[12..12 + rewritten.len()], rewritten);
}

/// Payloads that end too soon are errors here too.
#[test]
fn short_payloads() {
    let full = payload(&[1, 12, 0, 0, 0, 0, 0, 0, 0], &[1, 3, 0, 0, 0, 4, 0], &[]);
    for n in 1..full.len() {
        let answer = versions_of(&leaf(1, &cell(&full[..n])));
        assert_eq!(answer, Ans::Refused(BAD_TREE), "{n} bytes");
    }
    let mut past = cell(&full);
    past[4..8].copy_from_slice(&4077u32.to_le_bytes());
    assert_eq!(versions_of(&leaf(1, &past)), Ans::Refused(BAD_TREE));
}

/// A leaf out of order is read as it is, and sorted when it is next written.
#[test]
fn order_is_not_judged() {
    let [high, low, new] = [9, 3, 5].map(|key| Version::live(key, 0, vec![]));
    let page = leaf(2, &[high.cell(), low.cell()].concat());
    let mut o = Oracle::from_bytes(&page, 1, 0);
    let listed = Ans::List(vec![high.clone(), low.clone()]);
    assert_eq!(o.run(&Op::All), listed);
    assert_eq!(o.run(&Op::InsertVersion(new.clone())), Ans::Done);
    assert_eq!(o.run(&Op::All), Ans::List(vec![low, new, high]));
}

/// An active list in any order is sorted by the Rust; the port refuses it.
#[test]
fn active_list_is_sorted() {
    let page = leaf(1, &Version::live(7, 3, vec![]).cell());
    let lookup = Op::Lookup(
        7,
        Snap {
            xmax: 20,
            active: vec![12, 3, 12],
            current: None,
        },
    );
    let mut o = Oracle::from_bytes(&page, 1, 0);
    assert_eq!(o.run(&lookup), Ans::Refused(BAD_SNAPSHOT));
    o.bare = true;
    assert_eq!(o.run(&lookup), Ans::Refused(ABSENT));
}

/// Data over the limit that the Rust has taken cannot be stamped, and a cell
/// that fits no page is refused too; either refusal leaves one more page in use.
#[test]
fn refused_cells_take_a_page() {
    let alone = |data: usize| Version::live(7, 0, vec![0; data]);
    let kept = leaf(1, &alone(4065).cell());
    for (page, op) in [
        (kept, Op::PlainStamp(7, 12)),
        (leaf(0, &[]), Op::InsertVersion(alone(4066))),
    ] {
        let mut o = Oracle::from_bytes(&page, 1, 0);
        o.bare = true;
        assert_eq!(o.run(&op), Ans::Refused(UNDIVIDABLE));
        assert_eq!((o.page(0) == page, o.in_use()), (true, 2));
    }
}

/// What a listing of a tree whose root is this page 1 panics with, if it does.
fn panic_of(page: &[u8; PAGE]) -> Option<String> {
    let mut o = Oracle::from_bytes(&[[0; PAGE], *page].concat(), 2, 1);
    o.pager.fuel.set(100_000);
    let panic = catch_unwind(AssertUnwindSafe(|| o.run(&Op::All))).err()?;
    let text = panic.downcast_ref::<String>().cloned();
    text.or_else(|| panic.downcast_ref::<&str>().map(|s| s.to_string()))
}

/// A path or chain that loops is walked without end (here: until the page
/// accesses run out); a cell that begins past the page's end is a panic.
#[test]
fn damaged_pools() {
    let full = leaf(1, &Version::live(1, 0, vec![0; 4065]).cell());
    assert_eq!(panic_of(&full), None);
    // Bytes to set: the type and the first child; the next leaf; the cell count.
    let cases: [(&[(usize, u8)], &str); 3] = [
        (&[(0, 0), (12, 1)], "out of fuel"),
        (&[(8, 1)], "out of fuel"),
        (&[(6, 2)], "out of range"),
    ];
    for (bytes, panic) in cases {
        let mut page = full;
        for &(at, byte) in bytes {
            page[at] = byte;
        }
        let text = panic_of(&page).unwrap_or_default();
        assert!(text.contains(panic), "{bytes:?}: {text}");
    }
}
