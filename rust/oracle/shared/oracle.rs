//! The calls of `wire::Engine` over aerodb's B-tree: a pool of pages in memory,
//! a status table and a current transaction.
//!
//! `run` surrounds each call of the Rust with what is the port's own: the
//! refusals of snapshot, statuses and data before it, those of depth and pool
//! after it, and the undoing of a refused call. A `bare` oracle leaves all of
//! that out and is the Rust as it is.
use crate::storage::btree::{BTree, max_row_data_size};
use crate::storage::page::*;
use crate::storage::pager::{PageData, Pager};
use crate::storage::row::{Row, RowData, RowVersionRef};
use crate::transaction::{Snapshot, TransactionStatus, TransactionTable, is_visible};
use std::io;
use wire::*;

pub struct Oracle {
    pub pager: Pager,
    /// The Rust as it is: no refusals of the port's own and no undoing.
    pub bare: bool,
    root: u32,
    capacity: u32,
    statuses_bad: bool,
}

/// The Rust's data type; the bytes must be ones that it writes again unchanged.
fn to_data(bytes: &[u8]) -> RowData {
    let data = RowData::deserialize(bytes).expect("data of this variant must be a RowData");
    assert_eq!(data.serialize(), bytes, "not a canonical RowData");
    data
}

fn to_row(v: &Version) -> Row {
    Row {
        key: v.key,
        data: to_data(&v.data),
        created_tx: v.creator,
        deleted_tx: v.deleter,
        version_ptr: v.ptr.map(|(page_num, slot_index)| RowVersionRef {
            page_num,
            slot_index,
        }),
    }
}

fn from_row(r: &Row) -> Version {
    Version {
        key: r.key,
        creator: r.created_tx,
        deleter: r.deleted_tx,
        ptr: r.version_ptr.map(|p| (p.page_num, p.slot_index)),
        data: r.data.serialize(),
    }
}

fn to_snapshot(s: &Snap) -> Snapshot {
    match s.current {
        Some(c) => Snapshot::new_for_transaction(c, s.xmax, s.active.clone()),
        None => Snapshot::new(s.xmax, s.active.clone()),
    }
}

fn to_status(state: u8) -> TransactionStatus {
    match state {
        1 => TransactionStatus::Active,
        2 => TransactionStatus::Committed(0),
        _ => TransactionStatus::Aborted,
    }
}

/// The refusal that an error of the Rust stands for.
fn number(e: &io::Error) -> u8 {
    let text = e.to_string();
    if text.starts_with("Duplicate key") {
        DUPLICATE
    } else if text.starts_with("Leaf overflow") {
        UNDIVIDABLE
    } else {
        BAD_TREE
    }
}

fn stamped(found: bool) -> Ans {
    if found {
        Ans::Done
    } else {
        Ans::Refused(ABSENT)
    }
}

fn found(row: Option<Row>) -> Ans {
    row.map_or(Ans::Refused(ABSENT), |r| Ans::Found(from_row(&r)))
}

fn list(rows: Vec<Row>) -> Ans {
    Ans::List(rows.iter().map(from_row).collect())
}

/// Whether a call's answer depends on the status table.
fn reads_statuses(op: &Op) -> bool {
    match op {
        Op::Insert(..) | Op::Stamp(..) | Op::PlainStamp(..) | Op::PlainDelete(..) => true,
        Op::Claim(..) | Op::Find(..) | Op::Lookup(..) | Op::Visible(..) | Op::Vacuum(..) => true,
        Op::Create | Op::InsertVersion(..) | Op::Conflict(..) | Op::Remove(..) => false,
        Op::Versions(..) | Op::All | Op::PageNumbers | Op::Scan(..) => false,
    }
}

impl Oracle {
    /// A zeroed pool of `capacity` pages, none in use, no tree yet.
    pub fn new(capacity: u32) -> Self {
        Self::from_bytes(&vec![0; capacity as usize * PAGE_SIZE], 0, 0)
    }

    pub fn from_bytes(pool: &[u8], in_use: u32, root: u32) -> Self {
        let pages: Vec<PageData> = pool
            .chunks_exact(PAGE_SIZE)
            .map(|page| page.try_into().unwrap())
            .collect();
        Oracle {
            capacity: pages.len() as u32,
            pager: Pager::with_pool(pages, in_use),
            bare: !Pager::UNDOES,
            root,
            statuses_bad: false,
        }
    }

    /// Run `f` on the Rust's tree and keep the root it ends with.
    fn with_tree<R>(&mut self, f: impl FnOnce(&mut BTree<'_>) -> io::Result<R>) -> io::Result<R> {
        let mut tree = BTree::open_root(&self.pager, self.root)?;
        let result = f(&mut tree);
        self.root = tree.root_page();
        result
    }

    /// The Rust's own test of one version, in the tree or not, by the status table that is set.
    pub fn sees(&self, v: &Version, s: &Snap) -> bool {
        let (row, snapshot) = (to_row(v), to_snapshot(s));
        self.pager
            .with_transaction_table(|table| is_visible(&row, &snapshot, table))
    }

    /// What the Rust's catalog does for a new tree, on the next page.
    fn create(&mut self) -> io::Result<()> {
        let n = self.pager.allocate_page()?;
        self.pager.with_page_mut(n, |data| {
            set_node_type(data, NODE_LEAF);
            set_is_root(data, true);
            set_parent(data, 0);
            set_cell_count(data, 0);
        })?;
        self.root = n;
        Ok(())
    }

    fn claim(&mut self, key: i32, s: &Snap) -> io::Result<Ans> {
        let Some(current) = s.current else {
            return Ok(Ans::Refused(BAD_SNAPSHOT));
        };
        let snapshot = to_snapshot(s);
        self.with_tree(|t| {
            let Some(seen) = t.find_visible(key, &snapshot)? else {
                return Ok(Ans::Refused(ABSENT));
            };
            if t.has_write_conflict(key, seen.created_tx, &snapshot)? {
                return Ok(Ans::Refused(CONFLICT));
            }
            Ok(stamped(t.mark_deleted_visible(key, &snapshot, current)?))
        })
    }

    fn scan(&mut self, skip: u64, limit: Option<u64>, descending: bool) -> io::Result<Ans> {
        let (skip, limit) = (skip as usize, limit.map(|l| l as usize));
        let rows = self.with_tree(|t| {
            Ok(if descending {
                t.scan_rows_desc_with_bounds(skip, limit)
            } else {
                t.scan_rows_with_bounds(skip, limit).collect()
            })
        })?;
        Ok(list(rows))
    }

    fn call(&mut self, op: &Op) -> io::Result<Ans> {
        let done = |()| Ans::Done;
        let count = |n: usize| Ans::Count(n as u64);
        match op {
            Op::Create => self.create().map(done),
            Op::Insert(k, d) => self.with_tree(|t| t.insert(*k, to_data(d))).map(done),
            Op::InsertVersion(v) => self.with_tree(|t| t.insert_version(to_row(v))).map(done),
            Op::Stamp(k, s, d) => self
                .with_tree(|t| t.mark_deleted_visible(*k, &to_snapshot(s), *d))
                .map(stamped),
            Op::PlainStamp(k, d) => self.with_tree(|t| t.mark_deleted(*k, *d)).map(stamped),
            Op::PlainDelete(k) => self.with_tree(|t| t.delete(*k)).map(stamped),
            Op::Claim(k, s) => self.claim(*k, s),
            Op::Conflict(k, c, s) => self
                .with_tree(|t| t.has_write_conflict(*k, *c, &to_snapshot(s)))
                .map(Ans::Flag),
            Op::Remove(k) => self.with_tree(|t| t.remove_all_versions(*k)).map(count),
            Op::Find(k) => self.with_tree(|t| t.find(*k)).map(found),
            Op::Lookup(k, s) => self
                .with_tree(|t| t.find_visible(*k, &to_snapshot(s)))
                .map(found),
            Op::Versions(k) => self.with_tree(|t| t.versions_of(*k)).map(list),
            Op::All => self.with_tree(|t| t.all_versions()).map(list),
            Op::Visible(s) => self
                .with_tree(|t| t.scan_visible(&to_snapshot(s)))
                .map(list),
            Op::Vacuum(bound) => {
                let table = self.pager.transaction_table();
                self.with_tree(|t| t.vacuum_deleted_versions(*bound, &table))
                    .map(count)
            }
            Op::PageNumbers => self.with_tree(|t| t.page_numbers()).map(Ans::Pages),
            Op::Scan(skip, limit, descending) => self.scan(*skip, *limit, *descending),
        }
    }

    /// Refusals 3, 4 and 5, which come before the tree is read.
    fn refused_before(&self, op: &Op) -> Option<u8> {
        let snapshot_bad = match op {
            Op::Claim(_, s) => !s.ok() || matches!(s.current, None | Some(0)),
            Op::Stamp(_, s, _) | Op::Conflict(_, _, s) | Op::Lookup(_, s) | Op::Visible(s) => {
                !s.ok()
            }
            _ => false,
        };
        let data_bad = match op {
            Op::Insert(_, data) => data.len() > max_row_data_size(),
            Op::InsertVersion(v) => v.data.len() > max_row_data_size(),
            _ => false,
        };
        if snapshot_bad {
            Some(BAD_SNAPSHOT)
        } else if self.statuses_bad && reads_statuses(op) {
            Some(BAD_STATUSES)
        } else {
            data_bad.then_some(BAD_DATA)
        }
    }

    /// Refusals 11 and 10, judged by what the call has made of the pool.
    fn refused_after(&self, in_use: u32) -> Option<u8> {
        // The first page that a division allocates is the new leaf.
        if self.pager.num_pages() > in_use && self.levels(in_use) > 4 {
            Some(TOO_DEEP)
        } else {
            (self.pager.num_pages() > self.capacity).then_some(NO_PAGES)
        }
    }

    /// Levels from page `n` up to the root, by parent links.
    fn levels(&self, mut n: u32) -> usize {
        let mut levels = 1;
        while n != self.root && n < self.pager.num_pages() && levels < 8 {
            n = get_parent(&self.pager.image(n));
            levels += 1;
        }
        levels
    }

    fn answer(&mut self, op: &Op) -> Ans {
        self.call(op).unwrap_or_else(|e| Ans::Refused(number(&e)))
    }

    fn judged(&mut self, op: &Op) -> Ans {
        if let Some(n) = self.refused_before(op) {
            return Ans::Refused(n);
        }
        let in_use = self.pager.num_pages();
        match (self.answer(op), self.refused_after(in_use)) {
            (Ans::Refused(n), _) | (_, Some(n)) => Ans::Refused(n),
            (answer, None) => answer,
        }
    }
}

impl Engine for Oracle {
    fn name(&self) -> &'static str {
        module_path!()
    }

    fn root(&self) -> u32 {
        self.root
    }

    fn in_use(&self) -> u32 {
        self.pager.num_pages()
    }

    fn capacity(&self) -> u32 {
        self.capacity
    }

    fn page(&self, n: u32) -> [u8; PAGE] {
        self.pager.image(n)
    }

    fn open(&mut self, root: u32) {
        self.root = root;
    }

    fn set_statuses(&mut self, s: &[(u64, u8)]) {
        self.statuses_bad = !statuses_ok(s);
        let table: TransactionTable = s.iter().map(|&(t, state)| (t, to_status(state))).collect();
        self.pager.set_transaction_table(table);
    }

    fn set_current(&mut self, current: Option<u64>) {
        self.pager.set_transaction(current);
    }

    fn run(&mut self, op: &Op) -> Ans {
        self.pager.begin(!self.bare);
        if self.bare {
            return self.answer(op);
        }
        let root = self.root;
        let answer = self.judged(op);
        if matches!(answer, Ans::Refused(_)) {
            self.pager.undo(self.capacity);
            self.root = root;
        }
        answer
    }

    fn touched(&self) -> Option<Vec<u32>> {
        self.pager.touched()
    }
}
