//! The recorded list of cell cases: versions with the cells that are written
//! for them, and bytes with what a reader answers.
mod cases;
mod original;
pub mod rule;

use cases::{Given, Group};
use std::collections::HashSet;
use wire::Version;
use wire::text::hex;

const ABOUT: &str = "\
# Cell cases: versions with the leaf cell that is written for each (w), and bytes with what a
# reader answers for the cell at an offset (r). Made in the folder rust, by aerodb's own code, with
#   cargo run --offline --release -p vectors > ../crates/test_cells/stdin
#
# w SOURCE KEY CREATOR STAMP POINTER DATA CELL
# r SOURCE BYTES AT cell KEY CREATOR STAMP POINTER START LEN NEXT
# r SOURCE BYTES AT bad KIND
#
# Numbers and byte strings are hexadecimal; - is an absent stamp or pointer, or no bytes. KEY is the
# two's complement in eight digits, POINTER is PAGE.SLOT, START is where the data begins in BYTES,
# NEXT where the cell ends. KIND: 1 unknown format byte, 2 flag above 1, 3 short payload, or one past
# the end of BYTES, 4 data over 4051 bytes; the lowest that holds on the bytes present.
#
# SOURCE rust: aerodb's code gives this. A written cell is taken out of the page that it stored; a
# cell read is what its page reader finds, and what it would write again as the same bytes.
# SOURCE rule: aerodb's code has no such answer, since its errors have no kinds and since it reads
# some of these bytes as a cell; the answer is that of the format's rule.
";

fn absent() -> String {
    "-".into()
}

/// KEY CREATOR STAMP POINTER.
fn fields(key: i32, creator: u64, stamp: Option<u64>, pointer: Option<(u32, u16)>) -> String {
    let stamp = stamp.map_or_else(absent, |by| format!("{by:x}"));
    let pointer = pointer.map_or_else(absent, |(page, slot)| format!("{page:x}.{slot:x}"));
    format!("{key:08x} {creator:x} {stamp} {pointer}")
}

fn write_line(v: &Version) -> String {
    let cell = original::written(v);
    assert_eq!(cell, v.cell(), "the Rust writes another cell: {v:?}");
    let fields = fields(v.key, v.creator, v.deleter, v.ptr);
    format!("w rust {fields} {} {}", hex(&v.data), hex(&cell))
}

fn read_line(given: &Given) -> String {
    let bytes = hex(&given.bytes);
    let at = given.at;
    let answer = rule::read(&given.bytes, at);
    let read = original::read(&given.bytes, at);
    assert_eq!(answer.as_ref().ok(), read.as_ref(), "{bytes} at {at:x}");
    match answer {
        Ok(c) => {
            let fields = fields(c.key, c.creator, c.stamp, c.pointer);
            let places = format!("{:x} {:x} {:x}", c.start, c.len, c.next);
            format!("r rust {bytes} {at:x} cell {fields} {places}")
        }
        Err(kind) => format!("r rule {bytes} {at:x} bad {kind:x}"),
    }
}

/// A title, then the group's lines that are not in the list yet.
fn group_lines<T>(
    group: Group<T>,
    line: impl Fn(&T) -> String,
    seen: &mut HashSet<String>,
) -> Vec<String> {
    let lines = group.cases.iter().map(line);
    let fresh = lines.filter(|l| seen.insert(l.clone()));
    let title = format!("# {}", group.title);
    std::iter::once(title)
        .chain(fresh.collect::<Vec<_>>())
        .collect()
}

/// The whole list, the same at every run.
pub fn list() -> String {
    let mut seen = HashSet::new();
    let mut lines = Vec::new();
    for group in cases::written() {
        lines.extend(group_lines(group, write_line, &mut seen));
    }
    for group in cases::read() {
        lines.extend(group_lines(group, read_line, &mut seen));
    }
    let count = |start| lines.iter().filter(|l| l.starts_with(start)).count();
    let (w, rust, rule) = (count("w rust "), count("r rust "), count("r rule "));
    format!(
        "{ABOUT}#\n# Lines: {w} w rust, {rust} r rust, {rule} r rule.\n{}\n",
        lines.join("\n")
    )
}
