//! A page's bytes taken apart, for the tests.
use crate::PAGE;

#[derive(Debug, Clone, Copy, PartialEq, Eq)]
pub struct Header {
    pub leaf: bool,
    pub is_root: u8,
    pub parent: u32,
    pub count: u16,
    /// Bytes 8 to 11: the next leaf, or what has been left there.
    pub next: u32,
}

fn u32_at(page: &[u8], at: usize) -> u32 {
    u32::from_le_bytes(page[at..at + 4].try_into().unwrap())
}

pub fn header(page: &[u8; PAGE]) -> Header {
    Header {
        leaf: page[0] == 1,
        is_root: page[1],
        parent: u32_at(page, 2),
        count: u16::from_le_bytes([page[6], page[7]]),
        next: u32_at(page, 8),
    }
}

/// Sizes in bytes of a leaf's cells.
pub fn cell_sizes(page: &[u8; PAGE]) -> Vec<usize> {
    let mut at = 12;
    let mut sizes = Vec::new();
    for _ in 0..header(page).count {
        let size = 8 + u32_at(page, at + 4) as usize;
        sizes.push(size);
        at += size;
    }
    sizes
}

/// Child page numbers of an internal page.
pub fn children(page: &[u8; PAGE]) -> Vec<u32> {
    let count = header(page).count as usize;
    (0..=count).map(|i| u32_at(page, 12 + 8 * i)).collect()
}

/// Page `n` of a pool.
pub fn of_pool(pool: &[u8], n: u32) -> &[u8; PAGE] {
    let at = n as usize * PAGE;
    pool[at..at + PAGE].try_into().unwrap()
}

/// The leaves of a sound tree, left to right.
pub fn leaves(pool: &[u8], root: u32) -> Vec<u32> {
    let mut n = root;
    while !header(of_pool(pool, n)).leaf {
        n = children(of_pool(pool, n))[0];
    }
    let next = |n: &u32| Some(header(of_pool(pool, *n)).next).filter(|&n| n != 0);
    std::iter::successors(Some(n), next).collect()
}

/// A leaf, root and alone, with a cell count and the bytes of its cells.
pub fn leaf(count: u8, cells: &[u8]) -> [u8; PAGE] {
    let mut page = [0; PAGE];
    page[0] = 1;
    page[1] = 1;
    page[6] = count;
    page[12..12 + cells.len()].copy_from_slice(cells);
    page
}
