//! What every engine under test speaks: numbers and byte strings only. The
//! variants of the Rust implement `Engine`, and so can any other engine that
//! is to be run against them.

pub mod page;
pub mod random;
pub mod records;
pub mod text;

pub const PAGE: usize = 4096;
pub const MAX_DATA: usize = 4051;

/// The byte that begins a version's payload.
pub const FORMAT: u8 = 0x81;

#[derive(Debug, Clone, PartialEq, Eq)]
pub struct Version {
    pub key: i32,
    pub creator: u64,
    pub deleter: Option<u64>,
    /// Page and slot.
    pub ptr: Option<(u32, u16)>,
    pub data: Vec<u8>,
}

impl Version {
    pub fn live(key: i32, creator: u64, data: Vec<u8>) -> Self {
        Version {
            key,
            creator,
            deleter: None,
            ptr: None,
            data,
        }
    }

    fn payload(&self) -> Vec<u8> {
        let mut p = vec![FORMAT];
        p.extend(self.creator.to_le_bytes());
        p.push(self.deleter.is_some() as u8);
        p.extend(self.deleter.iter().flat_map(|d| d.to_le_bytes()));
        p.push(self.ptr.is_some() as u8);
        if let Some((page, slot)) = self.ptr {
            p.extend(page.to_le_bytes());
            p.extend(slot.to_le_bytes());
        }
        p.extend(&self.data);
        p
    }

    /// Bytes of the leaf cell: key, payload length, payload.
    pub fn cell(&self) -> Vec<u8> {
        let payload = self.payload();
        let mut cell = self.key.to_le_bytes().to_vec();
        cell.extend((payload.len() as u32).to_le_bytes());
        cell.extend(payload);
        cell
    }

    /// The version whose `cell` these bytes are.
    pub fn of_cell(cell: &[u8]) -> Self {
        let mut rest = cell;
        let key = i32::from_le_bytes(take(&mut rest));
        let _length: [u8; 4] = take(&mut rest);
        let _format: [u8; 1] = take(&mut rest);
        let creator = u64::from_le_bytes(take(&mut rest));
        let stamped = take(&mut rest) == [1];
        let deleter = stamped.then(|| u64::from_le_bytes(take(&mut rest)));
        let pointed = take(&mut rest) == [1];
        let ptr = pointed.then(|| {
            let page = u32::from_le_bytes(take(&mut rest));
            (page, u16::from_le_bytes(take(&mut rest)))
        });
        Version {
            key,
            creator,
            deleter,
            ptr,
            data: rest.to_vec(),
        }
    }
}

/// The first `N` bytes, which `rest` loses.
fn take<const N: usize>(rest: &mut &[u8]) -> [u8; N] {
    let (first, after) = rest.split_first_chunk().expect("a whole cell");
    *rest = after;
    *first
}

#[derive(Debug, Clone, PartialEq, Eq)]
pub struct Snap {
    pub xmax: u64,
    pub active: Vec<u64>,
    pub current: Option<u64>,
}

impl Snap {
    pub fn ok(&self) -> bool {
        self.active.len() <= 4096 && self.active.is_sorted_by(|a, b| a < b)
    }
}

/// Entries are (transaction, state); state 1 active, 2 committed, 3 aborted.
pub fn statuses_ok(s: &[(u64, u8)]) -> bool {
    s.len() <= 65_536
        && s.is_sorted_by(|a, b| a.0 < b.0)
        && s.iter().all(|e| (1..=3).contains(&e.1))
}

#[derive(Debug, Clone, PartialEq, Eq)]
pub enum Ans {
    /// Done with a new state (root and pages in use are read from the engine).
    Done,
    Flag(bool),
    Found(Version),
    List(Vec<Version>),
    Pages(Vec<u32>),
    Count(u64),
    /// One of the numbers below.
    Refused(u8),
}

pub const BAD_TREE: u8 = 2;
pub const BAD_SNAPSHOT: u8 = 3;
pub const BAD_STATUSES: u8 = 4;
pub const BAD_DATA: u8 = 5;
pub const DUPLICATE: u8 = 6;
pub const CONFLICT: u8 = 7;
pub const ABSENT: u8 = 8;
pub const UNDIVIDABLE: u8 = 9;
pub const NO_PAGES: u8 = 10;
pub const TOO_DEEP: u8 = 11;

/// One call with everything it needs except pool, state, statuses and the
/// current transaction of plain calls, which the engine holds.
#[derive(Debug, Clone, PartialEq, Eq)]
pub enum Op {
    Create,
    Insert(i32, Vec<u8>),
    InsertVersion(Version),
    /// `mark_deleted_visible`: key, snapshot, deleter.
    Stamp(i32, Snap, u64),
    /// `mark_deleted`: key, deleter.
    PlainStamp(i32, u64),
    /// `delete`.
    PlainDelete(i32),
    Claim(i32, Snap),
    /// `has_write_conflict`: key, seen creator, snapshot.
    Conflict(i32, u64, Snap),
    /// `remove_all_versions`.
    Remove(i32),
    /// `find`.
    Find(i32),
    /// `find_visible`.
    Lookup(i32, Snap),
    /// `versions_of`.
    Versions(i32),
    /// `all_versions`.
    All,
    /// `scan_visible`.
    Visible(Snap),
    /// `vacuum_deleted_versions` with a bound.
    Vacuum(u64),
    PageNumbers,
    /// The bounded scans of `RowCursor`: skip, limit, descending.
    Scan(u64, Option<u64>, bool),
}

pub trait Engine {
    fn name(&self) -> &'static str;
    fn root(&self) -> u32;
    fn in_use(&self) -> u32;
    fn capacity(&self) -> u32;
    /// Copy of page `n`, which is any below the capacity.
    fn page(&self, n: u32) -> [u8; PAGE];
    fn open(&mut self, root: u32);
    fn set_statuses(&mut self, s: &[(u64, u8)]);
    fn set_current(&mut self, current: Option<u64>);
    fn run(&mut self, op: &Op) -> Ans;

    /// Pages that the last call stored to, ascending, where that is known.
    fn touched(&self) -> Option<Vec<u32>> {
        None
    }

    fn pool(&self) -> Vec<u8> {
        (0..self.capacity()).flat_map(|n| self.page(n)).collect()
    }
}
