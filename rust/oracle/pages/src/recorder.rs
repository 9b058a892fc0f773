//! Runs calls on the Rust and writes the list: what was called, on which leaf,
//! and every page that the Rust stored to, as it stood after the case.
use crate::data::Data;
use crate::pieces;
use crate::tally::{Kind, Tally};
use aerodb_opaque::oracle::Oracle;
use std::collections::BTreeSet;
use wire::page::{cell_sizes, children, header};
use wire::*;

/// Pages of a pool, here and in the program.
pub const PAGES: u32 = 520;

/// Transactions and their states: 1 active, 2 committed, 3 aborted.
pub const STATUSES: [(u64, u8); 5] = [(3, 3), (4, 2), (6, 1), (8, 3), (9, 2)];

/// The active list of every snapshot; there is no current transaction.
pub const ACTIVE: [u64; 1] = [7];

pub struct Recorder {
    pub list: String,
    pub tally: Tally,
    oracle: Oracle,
    /// The pool as it stood before the call at hand.
    seen: Vec<u8>,
    /// The pool as the list has told it so far.
    told: Vec<u8>,
    stored: BTreeSet<u32>,
    data: Vec<Data>,
    count: u64,
}

/// A version but for its data.
#[derive(Clone, Copy)]
pub struct Head {
    pub key: i32,
    pub creator: u64,
    pub deleter: Option<u64>,
    pub ptr: Option<(u32, u16)>,
}

impl Head {
    pub fn live(key: i32, creator: u64) -> Self {
        Head {
            key,
            creator,
            deleter: None,
            ptr: None,
        }
    }

    fn text(&self) -> String {
        let deleter = self.deleter.map_or("-".into(), |d| format!("{d:x}"));
        let ptr = self.ptr.map_or("-".into(), |(p, s)| format!("{p:x}.{s:x}"));
        format!("{:x} {:x} {deleter} {ptr}", self.key, self.creator)
    }
}

pub fn page(pool: &[u8], n: u32) -> &[u8; PAGE] {
    pool[n as usize * PAGE..][..PAGE].try_into().unwrap()
}

/// A leaf that is not what it was, but for its parent.
fn is_other(before: &[u8; PAGE], after: &[u8; PAGE]) -> bool {
    before[0] == 1 && before[6..] != after[6..]
}

impl Recorder {
    pub fn new() -> Self {
        Recorder {
            list: String::new(),
            tally: Tally::new(),
            oracle: Oracle::new(0),
            seen: Vec::new(),
            told: Vec::new(),
            stored: BTreeSet::new(),
            data: Vec::new(),
            count: 0,
        }
    }

    /// A tree with one empty leaf, page `root`, in a pool of zeros.
    pub fn history(&mut self, root: u32) {
        let zeros = vec![0; PAGES as usize * PAGE];
        self.oracle = Oracle::from_bytes(&zeros, root, 0);
        self.oracle.set_statuses(&STATUSES);
        self.seen = zeros.clone();
        self.told = zeros;
        self.list.push_str(&format!("n {root:x}\n"));
        self.call(&Op::Create);
        self.look();
        self.tally.note(Kind::Created);
        self.end();
    }

    /// Runs the call, and says which pages it stored to and had in use before.
    fn call(&mut self, op: &Op) -> (Vec<u32>, u32) {
        let in_use = self.oracle.in_use();
        match self.oracle.run(op) {
            Ans::Done => {}
            Ans::Count(n) => self.count += n,
            Ans::Refused(UNDIVIDABLE | ABSENT) => return (Vec::new(), in_use),
            other => panic!("{other:?}: {op:?}"),
        }
        let touched = self.oracle.touched().expect("the journal is kept");
        self.stored.extend(&touched);
        (touched, in_use)
    }

    /// Takes the pool as it stands for the one that was seen last.
    fn look(&mut self) {
        for &n in &self.stored {
            let at = n as usize * PAGE;
            self.seen[at..at + PAGE].copy_from_slice(&self.oracle.page(n));
        }
    }

    /// The one leaf that the call changed or divided; if there is none, the root if that is a leaf.
    fn changed(&self, touched: &[u32], in_use: u32) -> Option<u32> {
        let changed =
            |n: &u32| *n < in_use && is_other(page(&self.seen, *n), &self.oracle.page(*n));
        let found: Vec<u32> = touched.iter().copied().filter(changed).collect();
        assert!(found.len() < 2, "{found:?}");
        found.first().copied().or_else(|| self.only_leaf())
    }

    fn only_leaf(&self) -> Option<u32> {
        let root = self.oracle.root();
        header(&self.oracle.page(root)).leaf.then_some(root)
    }

    pub fn insert(&mut self, head: Head, data: Data) {
        let version = Version {
            key: head.key,
            creator: head.creator,
            deleter: head.deleter,
            ptr: head.ptr,
            data: data.bytes(),
        };
        let (touched, in_use) = self.call(&Op::InsertVersion(version));
        let Some(leaf) = self.changed(&touched, in_use) else {
            return;
        };
        let (head, len, seed) = (head.text(), data.len, data.seed);
        self.list
            .push_str(&format!("i {leaf:x} {head} {len:x} {seed:x}\n"));
        self.data.push(data);
        self.tally
            .note_either(!touched.is_empty(), Kind::Inserted, Kind::Undividable);
        self.look();
    }

    pub fn stamp(&mut self, key: i32, xmax: u64, deleter: u64) {
        let snap = Snap {
            xmax,
            active: ACTIVE.to_vec(),
            current: None,
        };
        let (touched, in_use) = self.call(&Op::Stamp(key, snap, deleter));
        let Some(leaf) = self.changed(&touched, in_use) else {
            return;
        };
        self.list
            .push_str(&format!("s {leaf:x} {key:x} {xmax:x} {deleter:x}\n"));
        self.tally
            .note_either(!touched.is_empty(), Kind::Stamped, Kind::NothingStamped);
        self.look();
    }

    pub fn remove(&mut self, key: i32) {
        let (touched, _) = self.call(&Op::Remove(key));
        // A line for each leaf: the first call drops all there is, and the others find nothing.
        for (i, leaf) in touched.iter().enumerate() {
            self.list.push_str(&format!("r {leaf:x} {key:x}\n"));
            self.tally
                .note_either(i == 0, Kind::Removed, Kind::NothingRemoved);
        }
        if let (true, Some(leaf)) = (touched.is_empty(), self.only_leaf()) {
            self.list.push_str(&format!("r {leaf:x} {key:x}\n"));
            self.tally.note(Kind::NothingRemoved);
        }
        self.look();
    }

    pub fn vacuum(&mut self, bound: u64) {
        let (leaves, before) = (self.leaves(), self.count);
        self.call(&Op::Vacuum(bound));
        let dropped = self.count > before;
        for (i, leaf) in leaves.into_iter().enumerate() {
            self.list.push_str(&format!("v {leaf:x} {bound:x}\n"));
            self.tally
                .note_either(i == 0 && dropped, Kind::Vacuumed, Kind::NothingVacuumed);
        }
        self.look();
    }

    /// The leaves from the first on.
    fn leaves(&self) -> Vec<u32> {
        let mut n = self.oracle.root();
        while !header(&self.oracle.page(n)).leaf {
            n = children(&self.oracle.page(n))[0];
        }
        let mut leaves = vec![n];
        while header(&self.oracle.page(n)).next != 0 {
            n = header(&self.oracle.page(n)).next;
            leaves.push(n);
        }
        leaves
    }

    /// Whether a leaf that is alone in its tree has room for so many bytes more.
    pub fn has_room(&self, more: usize) -> bool {
        let root = self.oracle.page(self.oracle.root());
        let sizes: usize = cell_sizes(&root).iter().sum();
        header(&root).leaf && 12 + sizes + more <= PAGE
    }

    /// Ends a case: tells each page that is not as it was told last.
    pub fn end(&mut self) {
        let mut pages: Vec<u32> = std::mem::take(&mut self.stored).into_iter().collect();
        pages.retain(|&n| self.oracle.page(n) != *page(&self.told, n));
        let mut rewritten = pages.clone();
        rewritten.retain(|&n| self.oracle.page(n)[12..] != page(&self.told, n)[12..]);
        let places = pieces::places(&self.told, &rewritten);
        for &n in pages.iter().rev() {
            let image = self.oracle.page(n);
            let text = pieces::tell(n, &image, &self.told, &places, &self.data);
            assert_eq!(pieces::image(&text, &self.told), image, "page {n}: {text}");
            self.list.push_str(&format!("p {n:x}{text}\n"));
            self.tally.note(Kind::Told);
            let at = n as usize * PAGE;
            self.told[at..at + PAGE].copy_from_slice(&image);
        }
        let told = |n: u32| self.oracle.page(n) == *page(&self.told, n);
        assert!((0..self.oracle.in_use()).all(told), "a page was left out");
        self.list.push_str(&format!("= {:x}\n", self.count));
        self.tally.note(Kind::Case);
        self.data.clear();
        self.count = 0;
    }
}
