//! Erbulonge for a Rust server: a versioned B+tree in one lent pool of 4096-byte
//! pages. Every call takes any pool, state and lists, judges them itself, and
//! ends with a value or a [`Refusal`]. A refused call changes nothing.
//!
//! A call that changes the tree takes the pool mutably and gives the state to go
//! on with. Here two transactions want the same row, and neither had finished
//! when the other's snapshot was taken:
//!
//! ```
//! use erbulonge::{Refusal, Snapshot, State, Statuses};
//!
//! let mut pool = vec![0; 64 * 4096];
//! let none = Statuses::default();
//! let tree = State { root: 0, used: 0 }.create(&mut pool)?;
//! let tree = tree.insert(&mut pool, 7, Some(5), &none, b"room 7, 9:00")?;
//!
//! let first = Snapshot { xmax: 22, active: &[21], current: Some(20) };
//! let second = Snapshot { xmax: 22, active: &[20], current: Some(21) };
//! assert_eq!(tree.find_visible(&pool, 7, &first, &none)?.data(&pool), b"room 7, 9:00");
//! let tree = tree.claim(&mut pool, 7, &first, &none)?;
//!
//! // The second still sees the row, and its claim is refused.
//! assert_eq!(tree.find_visible(&pool, 7, &second, &none)?.deleter, Some(20));
//! assert_eq!(tree.claim(&mut pool, 7, &second, &none), Err(Refusal::Conflict));
//! # Ok::<(), Refusal>(())
//! ```

pub mod calls;
#[cfg(feature = "engine")]
pub mod engine;

/// Which tree of the pool: its root page, and how many pages of the pool are in
/// use. It goes in by value; a call that changes it gives a new one.
#[derive(Debug, Clone, Copy, PartialEq, Eq)]
pub struct State {
    pub root: u32,
    pub used: u32,
}

/// What a transaction sees: everything finished below `xmax` that is not in
/// `active` (strictly rising, at most 4096), and what `current` did itself.
#[derive(Debug, Clone, Copy)]
pub struct Snapshot<'a> {
    pub xmax: u64,
    pub active: &'a [u64],
    pub current: Option<u64>,
}

/// The status list: transaction `ids[i]` is in `states[i]`, which is 1 active, 2
/// committed or 3 aborted. Strictly rising, at most 65,536; a transaction that
/// is not listed counts as committed.
#[derive(Debug, Clone, Copy, Default)]
pub struct Statuses<'a> {
    pub ids: &'a [u64],
    pub states: &'a [u8],
}

/// A version that a lookup found. Its data stays in the pool.
#[derive(Debug, Clone, Copy, PartialEq, Eq)]
pub struct Found {
    pub creator: u64,
    pub deleter: Option<u64>,
    /// Page and slot.
    pub pointer: Option<(u32, u16)>,
    /// Where the data begins, counted from the pool's first byte.
    pub start: usize,
    pub len: usize,
}

impl Found {
    /// The version's data, in the pool that was searched.
    pub fn data<'p>(&self, pool: &'p [u8]) -> &'p [u8] {
        &pool[self.start..self.start + self.len]
    }
}

/// A version as it is to be stored. Its data may have 4051 bytes.
#[derive(Debug, Clone, Copy)]
pub struct NewVersion<'a> {
    pub creator: u64,
    pub deleter: Option<u64>,
    /// Page and slot.
    pub pointer: Option<(u32, u16)>,
    pub data: &'a [u8],
}

/// Why a call was refused, by the rules' names and numbers.
#[derive(Debug, Clone, Copy, PartialEq, Eq)]
#[repr(u8)]
pub enum Refusal {
    /// The pool is not 1 to 65,536 whole pages, or has fewer than are in use.
    BadPool = 1,
    /// A page that the call read is damaged.
    BadTree = 2,
    /// The active list is over 4096 or does not rise; a claim has no current
    /// transaction, or 0.
    BadSnapshot = 3,
    /// The status list is over 65,536, does not rise, or has a state not 1 to 3.
    BadStatuses = 4,
    /// Data over 4051 bytes.
    BadData = 5,
    /// The key has a visible version already.
    Duplicate = 6,
    /// Another transaction changed the key first.
    Conflict = 7,
    /// Nothing visible to find, stamp or claim.
    Absent = 8,
    /// A leaf would overflow and no cut gives two sides that fit.
    Undividable = 9,
    /// The pool has too few pages left.
    NoPages = 10,
    /// The tree has four levels and would need a fifth.
    TooDeep = 11,
    /// The output is too short for the listing.
    Short = 12,
}

impl Refusal {
    const ALL: [Refusal; 12] = [
        Refusal::BadPool,
        Refusal::BadTree,
        Refusal::BadSnapshot,
        Refusal::BadStatuses,
        Refusal::BadData,
        Refusal::Duplicate,
        Refusal::Conflict,
        Refusal::Absent,
        Refusal::Undividable,
        Refusal::NoPages,
        Refusal::TooDeep,
        Refusal::Short,
    ];

    pub fn number(self) -> u8 {
        self as u8
    }
}

/// What every call gives: Done with its value, or a refusal.
pub type Answer<T> = Result<T, Refusal>;

/// 0 is Done, and then the words are `value`'s.
fn answer<T>(
    number: u8,
    words: &calls::Words,
    value: impl FnOnce(&calls::Words) -> T,
) -> Answer<T> {
    match number {
        0 => Ok(value(words)),
        n => Err(Refusal::ALL[n as usize - 1]),
    }
}

fn flag(words: &calls::Words) -> bool {
    words[0] == 1
}

/// Bytes written, or versions dropped.
fn count(words: &calls::Words) -> usize {
    words[0] as usize
}

fn state(words: &calls::Words) -> State {
    State {
        root: words[0] as u32,
        used: words[1] as u32,
    }
}

fn found(words: &calls::Words) -> Found {
    let [creator, stamped, deleter, pointed, page, slot, start, len] = *words;
    Found {
        creator,
        deleter: (stamped == 1).then_some(deleter),
        pointer: (pointed == 1).then_some((page as u32, slot as u16)),
        start: start as usize,
        len: len as usize,
    }
}

impl State {
    /// A new empty tree on the next page of the pool, which becomes its root.
    /// Refusals: BadPool, NoPages.
    pub fn create(self, pool: &mut [u8]) -> Answer<State> {
        let mut words = [0; 8];
        let number = calls::create(pool, self, &mut words);
        answer(number, &words, state)
    }

    /// Whether the tree is well-formed. Refusals: BadPool.
    pub fn check(self, pool: &[u8]) -> Answer<bool> {
        let mut words = [0; 8];
        let number = calls::check(pool, self, &mut words);
        answer(number, &words, flag)
    }

    /// The newest version of a key that the snapshot sees. Refusals: BadPool,
    /// BadSnapshot, BadStatuses, BadTree, Absent.
    pub fn find_visible(
        self,
        pool: &[u8],
        key: i32,
        snapshot: &Snapshot,
        statuses: &Statuses,
    ) -> Answer<Found> {
        let mut words = [0; 8];
        let number = calls::find_visible(pool, self, key, snapshot, statuses, &mut words);
        answer(number, &words, found)
    }

    /// The newest version of a key among all that are finished or `current`'s
    /// own. Refusals: BadPool, BadStatuses, BadTree, Absent.
    pub fn find(
        self,
        pool: &[u8],
        key: i32,
        current: Option<u64>,
        statuses: &Statuses,
    ) -> Answer<Found> {
        let mut words = [0; 8];
        let number = calls::find(pool, self, key, current, statuses, &mut words);
        answer(number, &words, found)
    }

    /// Whether the key was changed after the snapshot by another transaction,
    /// given the creator of the version that was seen. Refusals: BadPool,
    /// BadSnapshot, BadTree.
    pub fn has_write_conflict(
        self,
        pool: &[u8],
        key: i32,
        snapshot: &Snapshot,
        seen: u64,
    ) -> Answer<bool> {
        let mut words = [0; 8];
        let number = calls::has_write_conflict(pool, self, key, snapshot, seen, &mut words);
        answer(number, &words, flag)
    }

    /// Every version of a key, as records at the start of `out`; gives their
    /// length. Refusals: BadPool, BadTree, Short.
    pub fn versions_of(self, pool: &[u8], key: i32, out: &mut [u8]) -> Answer<usize> {
        let mut words = [0; 8];
        let number = calls::versions_of(pool, self, key, out, &mut words);
        answer(number, &words, count)
    }

    /// Every version of the tree, as records. Refusals: BadPool, BadTree, Short.
    pub fn all_versions(self, pool: &[u8], out: &mut [u8]) -> Answer<usize> {
        let mut words = [0; 8];
        let number = calls::all_versions(pool, self, out, &mut words);
        answer(number, &words, count)
    }

    /// The newest version of every key that the snapshot sees, by rising keys,
    /// as records. Refusals: BadPool, BadSnapshot, BadStatuses, BadTree, Short.
    pub fn scan_visible(
        self,
        pool: &[u8],
        snapshot: &Snapshot,
        statuses: &Statuses,
        out: &mut [u8],
    ) -> Answer<usize> {
        let mut words = [0; 8];
        let number = calls::scan_visible(pool, self, snapshot, statuses, out, &mut words);
        answer(number, &words, count)
    }

    /// The numbers of the tree's pages, as records of 10 bytes. Refusals:
    /// BadPool, BadTree, Short.
    pub fn page_numbers(self, pool: &[u8], out: &mut [u8]) -> Answer<usize> {
        let mut words = [0; 8];
        let number = calls::page_numbers(pool, self, out, &mut words);
        answer(number, &words, count)
    }

    /// A new version of a key that has none to see, created by `current`, or by
    /// 0. It looks as [`State::find`] does. Refusals: BadPool, BadStatuses,
    /// BadData, BadTree, Duplicate, Undividable, TooDeep, NoPages.
    pub fn insert(
        self,
        pool: &mut [u8],
        key: i32,
        current: Option<u64>,
        statuses: &Statuses,
        data: &[u8],
    ) -> Answer<State> {
        let mut words = [0; 8];
        let number = calls::insert(pool, self, key, current, statuses, data, &mut words);
        answer(number, &words, state)
    }

    /// One more version of a key, as it is given. Refusals: BadPool, BadData,
    /// BadTree, Undividable, TooDeep, NoPages.
    pub fn insert_version(self, pool: &mut [u8], key: i32, version: &NewVersion) -> Answer<State> {
        let mut words = [0; 8];
        let number = calls::insert_version(pool, self, key, version, &mut words);
        answer(number, &words, state)
    }

    /// The version that [`State::find_visible`] finds gets the deleter's stamp.
    /// Refusals: BadPool, BadSnapshot, BadStatuses, BadTree, Absent, TooDeep,
    /// NoPages.
    pub fn mark_deleted_visible(
        self,
        pool: &mut [u8],
        key: i32,
        snapshot: &Snapshot,
        statuses: &Statuses,
        deleter: u64,
    ) -> Answer<State> {
        let mut words = [0; 8];
        let number =
            calls::mark_deleted_visible(pool, self, key, snapshot, statuses, deleter, &mut words);
        answer(number, &words, state)
    }

    /// The version that [`State::find`] finds gets the deleter's stamp.
    /// Refusals: BadPool, BadStatuses, BadTree, Absent, TooDeep, NoPages.
    pub fn mark_deleted(
        self,
        pool: &mut [u8],
        key: i32,
        current: Option<u64>,
        statuses: &Statuses,
        deleter: u64,
    ) -> Answer<State> {
        let mut words = [0; 8];
        let number = calls::mark_deleted(pool, self, key, current, statuses, deleter, &mut words);
        answer(number, &words, state)
    }

    /// The version that [`State::find`] finds gets the stamp of `current`, or of
    /// 0. Refusals: BadPool, BadStatuses, BadTree, Absent, TooDeep, NoPages.
    pub fn delete(
        self,
        pool: &mut [u8],
        key: i32,
        current: Option<u64>,
        statuses: &Statuses,
    ) -> Answer<State> {
        let mut words = [0; 8];
        let number = calls::delete(pool, self, key, current, statuses, &mut words);
        answer(number, &words, state)
    }

    /// The version that the snapshot sees gets the stamp of its current
    /// transaction, unless another transaction changed the key after the
    /// snapshot. Refusals: BadPool, BadSnapshot, BadStatuses, BadTree, Absent,
    /// Conflict, TooDeep, NoPages.
    pub fn claim(
        self,
        pool: &mut [u8],
        key: i32,
        snapshot: &Snapshot,
        statuses: &Statuses,
    ) -> Answer<State> {
        let mut words = [0; 8];
        let number = calls::claim(pool, self, key, snapshot, statuses, &mut words);
        answer(number, &words, state)
    }

    /// Drops every version of a key; gives how many. The state stays. Refusals:
    /// BadPool, BadTree.
    pub fn remove_all_versions(self, pool: &mut [u8], key: i32) -> Answer<usize> {
        let mut words = [0; 8];
        let number = calls::remove_all_versions(pool, self, key, &mut words);
        answer(number, &words, count)
    }

    /// Drops the versions whose creator is aborted or whose deleter is below
    /// `bound` and listed as committed, and clears the stamps of aborted
    /// deleters; gives how many it dropped. The state stays. Refusals: BadPool,
    /// BadStatuses, BadTree.
    pub fn vacuum_deleted_versions(
        self,
        pool: &mut [u8],
        statuses: &Statuses,
        bound: u64,
    ) -> Answer<usize> {
        let mut words = [0; 8];
        let number = calls::vacuum_deleted_versions(pool, self, statuses, bound, &mut words);
        answer(number, &words, count)
    }
}
