//! Pages written by hand.
use wire::{PAGE, Version};

pub type Page = [u8; PAGE];

fn header(kind: u8, parent: u32, count: usize, next: u32) -> Page {
    let mut page = [0; PAGE];
    page[0] = kind;
    page[2..6].copy_from_slice(&parent.to_le_bytes());
    page[6..8].copy_from_slice(&(count as u16).to_le_bytes());
    page[8..12].copy_from_slice(&next.to_le_bytes());
    page
}

pub fn leaf(parent: u32, next: u32, rows: &[Version]) -> Page {
    let mut page = header(1, parent, rows.len(), next);
    let cells: Vec<u8> = rows.iter().flat_map(Version::cell).collect();
    page[12..12 + cells.len()].copy_from_slice(&cells);
    page
}

/// An internal page: the first child, then keys with the child right of each.
pub fn inner(parent: u32, first: u32, rest: &[(i32, u32)]) -> Page {
    let mut page = header(0, parent, rest.len(), 0);
    page[12..16].copy_from_slice(&first.to_le_bytes());
    for (i, (key, child)) in rest.iter().enumerate() {
        let at = 16 + 8 * i;
        page[at..at + 4].copy_from_slice(&key.to_le_bytes());
        page[at + 4..at + 8].copy_from_slice(&child.to_le_bytes());
    }
    page
}
