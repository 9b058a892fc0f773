//! The P cases and the numbers beside them, run on aerodb's code with opaque data.
use aerodb_opaque::oracle::Oracle;
use aerodb_opaque::storage::btree::max_row_data_size;
use aerodb_opaque::storage::row::MVCC_ROW_PAYLOAD_FORMAT_VERSION;
use wire::page::{Header, cell_sizes, children, header};
use wire::*;

/// An empty tree whose root leaf is page `root`, the pages below it in use.
fn tree(root: u32) -> Oracle {
    let mut o = Oracle::new(600);
    for _ in 0..=root {
        assert_eq!(o.run(&Op::Create), Ans::Done);
    }
    o
}

/// A live version by creator 0 whose cell takes `size` bytes.
fn sized(key: i32, size: usize) -> Op {
    Op::InsertVersion(Version::live(key, 0, vec![0; size - 19]))
}

fn fill(o: &mut Oracle, sizes: &[usize]) {
    for (key, &size) in sizes.iter().enumerate() {
        assert_eq!(o.run(&sized(key as i32, size)), Ans::Done);
    }
}

fn seen(creator: u64, deleter: u64) -> Version {
    Version {
        deleter: Some(deleter),
        ..Version::live(1, creator, vec![])
    }
}

fn at_20() -> Snap {
    Snap {
        xmax: 20,
        active: vec![12],
        current: Some(15),
    }
}

#[test]
fn format_byte_and_data_limit() {
    assert_eq!(MVCC_ROW_PAYLOAD_FORMAT_VERSION, FORMAT);
    assert_eq!(max_row_data_size(), MAX_DATA);
}

/// Key 7, creator 5, live, data 00 00: the 27 bytes of the listing's record.
#[test]
fn record_of_a_listing() {
    let mut o = tree(0);
    o.run(&Op::InsertVersion(Version::live(7, 5, vec![0, 0])));
    let Ans::List(listed) = o.run(&Op::All) else {
        panic!("no listing");
    };
    let record = [
        "17000000",
        "0100",
        "07000000",
        "0d000000",
        "81",
        "0500000000000000",
        "00",
        "00",
        "0000",
    ];
    assert_eq!(text::hex(&records::of_versions(&listed)), record.concat());
    assert_eq!(o.page(0)[12..33], listed[0].cell());
}

#[test]
fn p1_empty_tree() {
    let mut o = tree(0);
    let cases = [
        (Op::Find(1), Ans::Refused(ABSENT)),
        (Op::All, Ans::List(vec![])),
        (Op::Visible(at_20()), Ans::List(vec![])),
        (Op::Vacuum(u64::MAX), Ans::Count(0)),
    ];
    for (op, answer) in cases {
        assert_eq!(o.run(&op), answer, "{op:?}");
    }
}

/// The limit is the caller's: the Rust's tree itself takes what fits in a page.
#[test]
fn p2_data_limit() {
    let overflow = Ans::Refused(UNDIVIDABLE);
    let cases = [
        (4051, Ans::Done, Ans::Done),
        (4052, Ans::Refused(BAD_DATA), Ans::Done),
        (4065, Ans::Refused(BAD_DATA), Ans::Done),
        (4066, Ans::Refused(BAD_DATA), overflow),
    ];
    for (data, judged, bare) in cases {
        assert_eq!(tree(0).run(&sized(1, 19 + data)), judged, "{data}");
        let mut o = tree(0);
        o.bare = true;
        assert_eq!(o.run(&sized(1, 19 + data)), bare, "{data}, bare");
    }
}

/// One cell per leaf: 511 leaves are 510 keys, and the next leaf divides the
/// root, which is pinned for the second time.
#[test]
fn p3_internal_page() {
    let mut o = tree(3);
    fill(&mut o, &[2100; 511]);
    assert_eq!((o.root(), o.in_use()), (3, 516));
    assert_eq!(header(&o.page(3)).count, 510);
    assert_eq!(o.run(&sized(511, 2100)), Ans::Done);
    assert_eq!((o.root(), o.in_use()), (3, 520));
    // Page, keys, bytes 8 to 11: root, relocated left half, right half, spent top.
    for (n, count, next) in [(3, 1, 4), (519, 255, 4), (517, 255, 0), (518, 1, 0)] {
        let h = header(&o.page(n));
        assert_eq!((h.leaf, h.count, h.next), (false, count, next), "page {n}");
    }
    assert_eq!(children(&o.page(3)), [519, 517]);
}

#[test]
fn p4_cut_of_equal_cells() {
    let mut o = tree(0);
    fill(&mut o, &[19; 214]);
    assert_eq!(cell_sizes(&o.page(0)).iter().sum::<usize>(), 4066);
    assert_eq!(o.run(&sized(214, 19)), Ans::Done);
    let counts = [0, 1].map(|n| header(&o.page(n)).count);
    assert_eq!(counts, [107, 108]);
}

/// The Rust writes the left side before it finds that the right does not fit:
/// two of three cells are gone. Undone, nothing has changed.
#[test]
fn p5_undividable() {
    let mut o = tree(0);
    assert_eq!(o.run(&sized(1, 2000)), Ans::Done);
    assert_eq!(o.run(&sized(3, 100)), Ans::Done);
    let before = o.pool();
    assert_eq!(o.run(&sized(2, 4070)), Ans::Refused(UNDIVIDABLE));
    assert_eq!((o.pool() == before, o.in_use()), (true, 1));

    o.bare = true;
    assert_eq!(o.run(&sized(2, 4070)), Ans::Refused(UNDIVIDABLE));
    assert_eq!(cell_sizes(&o.page(0)), [2000]);
    assert_eq!((o.root(), o.in_use()), (0, 2));
    assert_eq!((header(&o.page(0)).next, header(&o.page(1)).count), (0, 0));
}

#[test]
fn p6_stamp_that_divides() {
    let mut o = tree(0);
    fill(&mut o, &[2042, 2042]);
    assert_eq!(o.run(&Op::PlainStamp(0, 12)), Ans::Done);
    assert_eq!(cell_sizes(&o.page(0)), [2050]);
    assert_eq!(cell_sizes(&o.page(1)), [2042]);
    assert_eq!((o.root(), o.in_use()), (2, 3));
}

#[test]
fn p7_p8_claim() {
    // Deleter, its state in the list (0: unlisted), conflict, claim.
    let cases = [
        (12, 0, true, Ans::Refused(CONFLICT)),
        (15, 0, false, Ans::Refused(ABSENT)),
        (9, 1, false, Ans::Done),
    ];
    for (deleter, state, conflict, claim) in cases {
        let mut o = tree(0);
        o.run(&Op::InsertVersion(seen(5, deleter)));
        if state > 0 {
            o.set_statuses(&[(deleter, state)]);
        }
        let told = o.run(&Op::Conflict(1, 5, at_20()));
        assert_eq!(told, Ans::Flag(conflict), "deleter {deleter}");
        assert_eq!(o.run(&Op::Claim(1, at_20())), claim, "deleter {deleter}");
    }
}

#[test]
fn p9_tie_of_creators() {
    let mut o = tree(0);
    let [first, last] = [1, 2].map(|byte| Version::live(1, 5, vec![byte]));
    for v in [&first, &last] {
        o.run(&Op::InsertVersion(v.clone()));
    }
    let listed = Ans::List(vec![first.clone()]);
    assert_eq!(o.run(&Op::Lookup(1, at_20())), Ans::Found(last.clone()));
    assert_eq!(o.run(&Op::Visible(at_20())), listed);
    assert_eq!(o.run(&Op::Stamp(1, at_20(), 15)), Ans::Done);
    let stamped = Version {
        deleter: Some(15),
        ..last
    };
    assert_eq!(o.run(&Op::Versions(1)), Ans::List(vec![first, stamped]));
}

/// Leaf or not, is-root, parent, cell count, bytes 8 to 11.
fn told(leaf: bool, is_root: u8, parent: u32, count: u16, next: u32) -> Header {
    Header {
        leaf,
        is_root,
        parent,
        count,
        next,
    }
}

fn assert_headers(o: &Oracle, pages: &[(u32, Header)]) {
    for (n, expected) in pages {
        assert_eq!(header(&o.page(*n)), *expected, "page {n}");
    }
}

#[test]
fn p10_pinned_root() {
    let mut o = tree(3);
    fill(&mut o, &[2042; 3]);
    assert_eq!((o.root(), o.in_use()), (3, 7));
    // Root, new leaf, spent top, relocated leaf.
    let pages = [
        (3, told(false, 1, 0, 1, 4)),
        (4, told(true, 0, 3, 2, 0)),
        (5, told(false, 1, 0, 1, 0)),
        (6, told(true, 0, 3, 1, 4)),
    ];
    assert_headers(&o, &pages);
    assert_eq!(children(&o.page(3)), [6, 4]);
    assert_eq!(children(&o.page(5)), [3, 4]);
    assert_eq!(o.run(&Op::PageNumbers), Ans::Pages(vec![3, 4, 6]));
    // The pages below are trees of their own.
    o.open(0);
    assert_eq!(o.run(&Op::PageNumbers), Ans::Pages(vec![0]));
}

/// Root 0 moves once; the root it moves to is pinned from then on.
#[test]
fn root_zero_moves() {
    let mut o = tree(0);
    fill(&mut o, &[2042; 3]);
    assert_eq!((o.root(), o.in_use()), (2, 3));
    let pages = [
        (0, told(true, 1, 2, 1, 1)),
        (1, told(true, 0, 2, 2, 0)),
        (2, told(false, 1, 0, 1, 0)),
    ];
    assert_headers(&o, &pages);
}

/// Which pages a call stores to: a stamp that changes nothing does store, a
/// refusal, a removal of nothing and an idle vacuum do not.
#[test]
fn stores() {
    let mut o = tree(0);
    o.run(&Op::Insert(1, vec![]));
    let cases: [(Op, &[u32]); 6] = [
        (Op::Insert(1, vec![]), &[]),
        (Op::Remove(2), &[]),
        (Op::Vacuum(9), &[]),
        (Op::Stamp(1, at_20(), 30), &[0]),
        (Op::Stamp(1, at_20(), 30), &[0]),
        (Op::Remove(1), &[0]),
    ];
    for (op, pages) in cases {
        o.run(&op);
        assert_eq!(o.touched().unwrap(), pages, "{op:?}");
    }
}
