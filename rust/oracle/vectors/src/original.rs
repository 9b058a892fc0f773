//! What aerodb's own code writes and reads, in the variant with opaque data.
use crate::rule::Cell;
use aerodb_opaque::oracle::Oracle;
use wire::page::{cell_sizes, leaf};
use wire::{Ans, Engine, MAX_DATA, Op, PAGE, Version};

/// Where a leaf's cells begin.
const CELLS: usize = 12;

/// The cell of a version, out of the page in which the Rust has stored it.
pub fn written(v: &Version) -> Vec<u8> {
    let mut o = Oracle::new(1);
    for op in [Op::Create, Op::InsertVersion(v.clone())] {
        assert_eq!(o.run(&op), Ans::Done, "{v:?}");
    }
    let page = o.page(0);
    let [size] = cell_sizes(&page)[..] else {
        panic!("one cell expected");
    };
    let (cell, tail) = page[CELLS..].split_at(size);
    assert!(tail.iter().all(|&b| b == 0), "{v:?}");
    cell.to_vec()
}

/// The cell that the Rust reads when the bytes from `at` on are the first of a
/// leaf, if it would write the same bytes for it: it also reads cells that no
/// version writes, and past the end of the bytes it finds the page's zeros.
pub fn read(bytes: &[u8], at: u64) -> Option<Cell> {
    let at = usize::try_from(at).ok()?;
    let rest = bytes.get(at..)?;
    let page = leaf(1, &rest[..rest.len().min(PAGE - CELLS)]);
    let Ans::List(versions) = Oracle::from_bytes(&page, 1, 0).run(&Op::All) else {
        return None;
    };
    let v = versions.first().filter(|v| v.data.len() <= MAX_DATA)?;
    let cell = written(v);
    let next = at + cell.len();
    rest.starts_with(&cell).then(|| Cell {
        key: v.key,
        creator: v.creator,
        stamp: v.deleter,
        pointer: v.ptr,
        start: next - v.data.len(),
        len: v.data.len(),
        next,
    })
}
