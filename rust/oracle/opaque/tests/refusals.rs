//! The refusals that `Oracle` adds to the Rust: 3, 4, 10 and 11. (5 and 9 are in numbers.rs.)
use aerodb_opaque::oracle::Oracle;
use wire::page::leaf;
use wire::*;

fn live(key: i32, data: usize) -> Op {
    Op::InsertVersion(Version::live(key, 0, vec![0; data]))
}

fn snap(active: &[u64], current: Option<u64>) -> Snap {
    Snap {
        xmax: 20,
        active: active.to_vec(),
        current,
    }
}

#[test]
fn bad_snapshot_and_statuses() {
    let mut o = Oracle::new(4);
    o.run(&Op::Create);
    let cases = [
        (Op::Claim(1, snap(&[], None)), BAD_SNAPSHOT),
        (Op::Claim(1, snap(&[], Some(0))), BAD_SNAPSHOT),
        (Op::Visible(snap(&[3, 3], None)), BAD_SNAPSHOT),
        (Op::Conflict(1, 0, snap(&[4, 3], None)), BAD_SNAPSHOT),
        (Op::Lookup(1, snap(&[3, 4], None)), BAD_STATUSES),
        (Op::Insert(1, vec![0; 4052]), BAD_STATUSES),
        (live(1, 4052), BAD_DATA),
    ];
    for statuses in [[(5, 1), (5, 2)], [(6, 1), (5, 2)], [(5, 1), (6, 4)]] {
        o.set_statuses(&statuses);
        for (op, number) in &cases {
            assert_eq!(o.run(op), Ans::Refused(*number), "{statuses:?} {op:?}");
        }
        assert_eq!(o.run(&Op::All), Ans::List(vec![]));
    }
}

/// Root leaf 0 needs two pages to divide, root leaf 1 needs three.
#[test]
fn no_pages() {
    for (root, capacity, answer) in [
        (0, 2, Ans::Refused(NO_PAGES)),
        (0, 3, Ans::Done),
        (1, 4, Ans::Refused(NO_PAGES)),
        (1, 5, Ans::Done),
    ] {
        let mut o = Oracle::new(capacity);
        for op in vec![Op::Create; root + 1] {
            o.run(&op);
        }
        o.run(&live(1, 2100));
        let before = o.pool();
        assert_eq!(o.run(&live(2, 2100)), answer, "root {root} of {capacity}");
        let refused = answer != Ans::Done;
        assert_eq!(o.pool() == before, refused, "root {root} of {capacity}");
    }
}

/// An internal page of 510 keys, all 0, whose last child is `child`.
fn full_internal(parent: u8, child: u8) -> [u8; PAGE] {
    const OTHER: u8 = 5;
    let mut page = [0; PAGE];
    page[2] = parent;
    page[6..8].copy_from_slice(&510u16.to_le_bytes());
    for at in (12..PAGE).step_by(8) {
        page[at] = OTHER;
    }
    page[PAGE - 4] = child;
    page
}

/// Root 1, pages 2 and 3 below it and leaf 4 are full; one level fewer may grow.
#[test]
fn too_deep() {
    let mut lowest = leaf(1, &Version::live(1, 0, vec![0; 2100]).cell());
    lowest[2] = 3;
    let mut pool = [0; PAGE].to_vec();
    for (parent, child) in [(0, 2), (1, 3), (2, 4)] {
        pool.extend(full_internal(parent, child));
    }
    pool.extend(lowest);
    pool.extend(leaf(0, &[]));
    let mut o = Oracle::from_bytes(&pool, 6, 1);
    // Refused before the pages are counted: there is none left.
    assert_eq!(o.run(&live(2, 2100)), Ans::Refused(TOO_DEEP));
    assert!(o.pool() == pool);

    // Three levels, root 2.
    pool[2 * PAGE + 2] = 0;
    pool.resize(16 * PAGE, 0);
    let mut o = Oracle::from_bytes(&pool, 6, 2);
    assert_eq!(o.run(&live(2, 2100)), Ans::Done);
    assert_eq!((o.root(), o.in_use()), (2, 11));
}
