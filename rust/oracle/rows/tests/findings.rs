//! What aerodb's own row.rs adds: data is a `RowData` to it and is not opaque.
use aerodb_rows::oracle::Oracle;
use wire::page::{cell_sizes, header, leaf};
use wire::*;

fn holding(data: &[u8]) -> Oracle {
    let cell = Version::live(7, 5, data.to_vec()).cell();
    let mut pool = leaf(1, &cell).to_vec();
    pool.resize(4 * PAGE, 0);
    Oracle::from_bytes(&pool, 1, 0)
}

/// Data that is no `RowData` makes every call fail that reads the leaf.
#[test]
fn unreadable_data() {
    let calls = [
        Op::Find(1),
        Op::Insert(1, vec![0, 0]),
        Op::Remove(1),
        Op::Vacuum(9),
        Op::All,
    ];
    let unknown_code = [1, 0, 12];
    let cases: [(&str, &[u8]); 4] = [
        ("no byte", &[]),
        ("one byte", &[0]),
        ("unknown code", &unknown_code),
        ("column missing", &[1, 0]),
    ];
    for (name, data) in cases {
        for op in &calls {
            let answer = holding(data).run(op);
            assert_eq!(answer, Ans::Refused(BAD_TREE), "{name}: {op:?}");
        }
    }
}

/// Data that is read, but written back as something else when the leaf is next written.
#[test]
fn data_rewritten() {
    let cases: [(&str, &[u8], &[u8]); 3] = [
        ("bytes after the last column", &[0, 0, 9, 9], &[0, 0]),
        ("Boolean 7", &[1, 0, 3, 7], &[1, 0, 3, 1]),
        (
            "Text that is not UTF-8",
            &[1, 0, 2, 1, 0, 0, 0, 0xff],
            &[1, 0, 2, 3, 0, 0, 0, 0xef, 0xbf, 0xbd],
        ),
    ];
    for (name, before, after) in cases {
        let mut o = holding(before);
        assert_eq!(o.run(&Op::Insert(8, vec![0, 0])), Ans::Done, "{name}");
        let cell = Version::live(7, 5, after.to_vec()).cell();
        assert_eq!(o.page(0)[12..12 + cell.len()], cell, "{name}");
    }
}

/// The smallest cell has the two bytes of a `RowData` without columns, so that
/// P4's cells are fewer here.
#[test]
fn p4_with_rows() {
    let mut o = Oracle::new(4);
    o.run(&Op::Create);
    let insert = |key| Op::Insert(key, vec![0, 0]);
    for key in 0..194 {
        assert_eq!(o.run(&insert(key)), Ans::Done);
    }
    assert_eq!(cell_sizes(&o.page(0)).iter().sum::<usize>(), 4074);
    assert_eq!(o.run(&insert(194)), Ans::Done);
    assert_eq!([0, 1].map(|n| header(&o.page(n)).count), [97, 98]);
}
