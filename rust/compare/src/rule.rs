//! What document 01 says of the reading calls, read plainly: rows are collected
//! in lists and judged by sets and sorting, without a thought of cost. It shares
//! no code with the port or the oracle but the reader of one cell. Module writing
//! has the writing calls.
pub mod writing;

use crate::call::{Call, Given, Outcome};
use erbulonge::State;
use std::cmp::Reverse;
use std::collections::HashSet;
use std::ops::RangeInclusive;
use vectors::rule::{Cell, read};
use wire::page::{children, header, of_pool};
use wire::{ABSENT, BAD_SNAPSHOT, BAD_STATUSES, BAD_TREE, PAGE, Snap, records, statuses_ok};

pub const BAD_POOL: u8 = 1;
pub const SHORT: u8 = 12;
const LEVELS: usize = 4;
const MAX_KEYS: u16 = 510;

type Judged<T> = Result<T, u8>;

/// A cell with its page and its bytes.
struct Row<'a> {
    page: u32,
    cell: Cell,
    bytes: &'a [u8],
}

enum Value {
    Flag(bool),
    /// The eight words of a version.
    Found([u64; 8]),
    Listing(Vec<u8>),
}

struct Tree<'a> {
    pool: &'a [u8],
    state: State,
}

fn require(holds: bool, refusal: u8) -> Judged<()> {
    if holds { Ok(()) } else { Err(refusal) }
}

/// Section 2 and 3, page by page.
impl<'a> Tree<'a> {
    fn page(&self, n: u32) -> Judged<&'a [u8; PAGE]> {
        require(n < self.state.used, BAD_TREE)?;
        Ok(of_pool(self.pool, n))
    }

    fn is_leaf(&self, n: u32) -> Judged<bool> {
        match self.page(n)?[0] {
            0 => Ok(false),
            1 => Ok(true),
            _ => Err(BAD_TREE),
        }
    }

    fn next(&self, n: u32) -> Judged<u32> {
        Ok(header(self.page(n)?).next)
    }

    fn leaf(&self, n: u32) -> Judged<Vec<Row<'a>>> {
        require(self.is_leaf(n)?, BAD_TREE)?;
        let page = self.page(n)?;
        let mut rows: Vec<Row> = Vec::new();
        let mut at = 12;
        for _ in 0..header(page).count {
            let cell = read(page, at as u64).map_err(|_kind| BAD_TREE)?;
            let bytes = &page[at..cell.next];
            at = cell.next;
            rows.push(Row {
                page: n,
                cell,
                bytes,
            });
        }
        let ordered = rows.is_sorted_by_key(|r| (r.cell.key, r.cell.creator));
        require(ordered, BAD_TREE)?;
        Ok(rows)
    }

    /// Keys and children.
    fn inner(&self, n: u32) -> Judged<(Vec<i32>, Vec<u32>)> {
        require(!self.is_leaf(n)?, BAD_TREE)?;
        let page = self.page(n)?;
        let count = header(page).count;
        require((1..=MAX_KEYS).contains(&count), BAD_TREE)?;
        let key = |i: usize| i32::from_le_bytes(page[16 + 8 * i..20 + 8 * i].try_into().unwrap());
        let keys: Vec<i32> = (0..count as usize).map(key).collect();
        require(keys.is_sorted(), BAD_TREE)?;
        Ok((keys, children(page)))
    }

    /// The leaf below the root: at each page the first child whose separator
    /// the way goes left of, or the last.
    fn descend(&self, goes_left: impl Fn(i32) -> bool) -> Judged<u32> {
        let mut n = self.state.root;
        for level in 1..=LEVELS {
            if self.is_leaf(n)? {
                return Ok(n);
            }
            require(level < LEVELS, BAD_TREE)?;
            let (keys, children) = self.inner(n)?;
            let at = keys.iter().position(|&k| goes_left(k));
            n = children[at.unwrap_or(keys.len())];
        }
        unreachable!("the last level returns")
    }

    /// The rows of the chain, up to the leaf that holds a larger key.
    fn chain(&self, first: u32, key: Option<i32>) -> Judged<Vec<Row<'a>>> {
        let mut met = HashSet::new();
        let mut rows = Vec::new();
        let mut n = first;
        loop {
            require(met.insert(n), BAD_TREE)?;
            let leaf = self.leaf(n)?;
            let last = leaf.iter().any(|r| key.is_some_and(|k| r.cell.key > k));
            rows.extend(leaf);
            if last || self.next(n)? == 0 {
                return Ok(rows);
            }
            n = self.next(n)?;
        }
    }

    fn all(&self) -> Judged<Vec<Row<'a>>> {
        self.chain(self.descend(|_| true)?, None)
    }

    fn of_key(&self, key: i32) -> Judged<Vec<Row<'a>>> {
        let mut rows = self.chain(self.descend(|separator| key <= separator)?, Some(key))?;
        rows.retain(|r| r.cell.key == key);
        Ok(rows)
    }

    fn numbers(&self, n: u32, above: &[u32], listed: &mut Vec<u32>) -> Judged<()> {
        self.page(n)?;
        require(!above.contains(&n), BAD_TREE)?;
        if listed.contains(&n) {
            return Ok(());
        }
        if self.is_leaf(n)? {
            listed.push(n);
            return Ok(());
        }
        let line = [above, &[n]].concat();
        require(line.len() < LEVELS, BAD_TREE)?;
        let (_, children) = self.inner(n)?;
        listed.push(n);
        children
            .iter()
            .rev()
            .try_for_each(|&child| self.numbers(child, &line, listed))
    }
}

/// Section 3's first paragraph.
struct Check<'a> {
    tree: Tree<'a>,
    met: HashSet<u32>,
    /// Level and page of each leaf, left to right.
    leaves: Vec<(usize, u32)>,
}

impl<'a> Check<'a> {
    fn new(tree: Tree<'a>) -> Self {
        Check {
            tree,
            met: HashSet::new(),
            leaves: Vec::new(),
        }
    }

    fn subtree(
        &mut self,
        n: u32,
        parent: u32,
        level: usize,
        keys: RangeInclusive<i32>,
    ) -> Judged<()> {
        require(level <= LEVELS, BAD_TREE)?;
        require(header(self.tree.page(n)?).parent == parent, BAD_TREE)?;
        require(self.met.insert(n), BAD_TREE)?;
        if self.tree.is_leaf(n)? {
            self.leaves.push((level, n));
            let rows = self.tree.leaf(n)?;
            let within = rows.iter().all(|r| keys.contains(&r.cell.key));
            return require(within, BAD_TREE);
        }
        let (separators, children) = self.tree.inner(n)?;
        require(separators.iter().all(|k| keys.contains(k)), BAD_TREE)?;
        for (i, &child) in children.iter().enumerate() {
            let low = if i == 0 {
                *keys.start()
            } else {
                separators[i - 1]
            };
            let high = *separators.get(i).unwrap_or(keys.end());
            self.subtree(child, n, level + 1, low..=high)?;
        }
        Ok(())
    }

    fn whole(&mut self) -> Judged<()> {
        let root = self.tree.state.root;
        self.subtree(root, 0, 1, i32::MIN..=i32::MAX)?;
        let level = self.leaves[0].0;
        require(self.leaves.iter().all(|l| l.0 == level), BAD_TREE)?;
        for pair in self.leaves.windows(2) {
            let next = self.tree.next(pair[0].1)?;
            require(next == pair[1].1 && next != 0, BAD_TREE)?;
        }
        let last = self.leaves.last().unwrap().1;
        require(self.tree.next(last)? == 0, BAD_TREE)
    }
}

/// Section 4.
struct Rules<'a> {
    snap: &'a Snap,
    statuses: &'a [(u64, u8)],
}

impl Rules<'_> {
    fn is(&self, transaction: u64, state: u8) -> bool {
        self.statuses.contains(&(transaction, state))
    }

    fn finished_before(&self, t: u64) -> bool {
        let unfinished = self.snap.active.contains(&t) || self.is(t, 1) || self.is(t, 3);
        t == 0 || t < self.snap.xmax && !unfinished
    }

    fn current(&self, t: u64) -> bool {
        self.snap.current == Some(t)
    }

    fn visible(&self, c: &Cell) -> bool {
        if self.is(c.creator, 3) {
            return false;
        }
        if self.current(c.creator) {
            return !c.stamp.is_some_and(|d| self.current(d));
        }
        let gone = |d| self.current(d) || self.finished_before(d);
        self.finished_before(c.creator) && !c.stamp.is_some_and(gone)
    }

    fn changed_by_another(&self, t: u64) -> bool {
        (t >= self.snap.xmax || self.snap.active.contains(&t)) && !self.current(t)
    }

    fn conflicts(&self, seen: u64, c: &Cell) -> bool {
        if c.creator == seen {
            c.stamp.is_some_and(|d| self.changed_by_another(d))
        } else {
            self.changed_by_another(c.creator)
        }
    }

    fn lookup<'r, 'p>(&self, rows: &'r [Row<'p>]) -> Judged<&'r Row<'p>> {
        let seen = rows.iter().filter(|r| self.visible(&r.cell));
        // Of equals the last.
        seen.max_by_key(|r| r.cell.creator).ok_or(ABSENT)
    }

    fn conflict(&self, seen: u64, rows: &[Row]) -> bool {
        rows.iter().any(|r| self.conflicts(seen, &r.cell))
    }

    fn listed<'a>(&self, mut rows: Vec<Row<'a>>) -> Vec<Row<'a>> {
        rows.retain(|r| self.visible(&r.cell));
        // The sort is stable: of equals the first.
        rows.sort_by_key(|r| (r.cell.key, Reverse(r.cell.creator)));
        rows.dedup_by_key(|r| r.cell.key);
        rows
    }
}

fn words(row: &Row) -> [u64; 8] {
    let c = &row.cell;
    let (page, slot) = c.pointer.unwrap_or((0, 0));
    [
        c.creator,
        c.stamp.is_some() as u64,
        c.stamp.unwrap_or(0),
        c.pointer.is_some() as u64,
        page as u64,
        slot as u64,
        row.page as u64 * PAGE as u64 + c.start as u64,
        c.len as u64,
    ]
}

fn listing(rows: &[Row]) -> Value {
    Value::Listing(
        rows.iter()
            .flat_map(|r| records::of_cell(r.bytes))
            .collect(),
    )
}

/// Of the calls that take no snapshot.
fn plain(given: &Given) -> Snap {
    Snap {
        xmax: u64::MAX,
        active: Vec::new(),
        current: given.lists.current,
    }
}

/// Refusals 1, 3 and 4.
fn judge(
    given: &Given,
    snap: Option<&Snap>,
    takes_statuses: bool,
    statuses: &[(u64, u8)],
) -> Judged<()> {
    let whole = given.pool.len().is_multiple_of(PAGE);
    let pages = given.pool.len() / PAGE;
    let good = whole && (1..=65_536).contains(&pages) && given.state.used as usize <= pages;
    require(good, BAD_POOL)?;
    require(snap.is_none_or(Snap::ok), BAD_SNAPSHOT)?;
    let paired = given.lists.ids.len() == given.lists.states.len();
    let listed = paired && statuses_ok(statuses);
    require(!takes_statuses || listed, BAD_STATUSES)
}

fn value(given: &Given, call: &Call) -> Judged<Value> {
    let statuses = given.lists.pairs();
    judge(given, call.snapshot(), call.takes_statuses(), &statuses)?;
    let (pool, state) = (given.pool, given.state);
    let tree = Tree { pool, state };
    let plain = plain(given);
    let rules = Rules {
        snap: call.snapshot().unwrap_or(&plain),
        statuses: &statuses,
    };
    Ok(match call {
        Call::Check => Value::Flag(Check::new(tree).whole().is_ok()),
        Call::Lookup(key, _) | Call::Find(key) => {
            Value::Found(words(rules.lookup(&tree.of_key(*key)?)?))
        }
        Call::Conflict(key, seen, _) => Value::Flag(rules.conflict(*seen, &tree.of_key(*key)?)),
        Call::Versions(key) => listing(&tree.of_key(*key)?),
        Call::All => listing(&tree.all()?),
        Call::Visible(_) => listing(&rules.listed(tree.all()?)),
        Call::PageNumbers => {
            let mut listed = Vec::new();
            tree.numbers(state.root, &[], &mut listed)?;
            Value::Listing(records::of_pages(&listed))
        }
    })
}

/// Length of the listing that the call would write, or 0.
pub fn length(given: &Given, call: &Call) -> usize {
    match value(given, call) {
        Ok(Value::Listing(bytes)) => bytes.len(),
        _ => 0,
    }
}

/// What must come of the call.
pub fn outcome(given: &Given, call: &Call) -> Outcome {
    let mut o = Outcome::start(given.room);
    match value(given, call) {
        Err(number) => o.number = number,
        Ok(Value::Flag(yes)) => o.words[0] = yes as u64,
        Ok(Value::Found(words)) => o.words = words,
        Ok(Value::Listing(bytes)) if bytes.len() > given.room => o.number = SHORT,
        Ok(Value::Listing(bytes)) => {
            o.words[0] = bytes.len() as u64;
            o.out[..bytes.len()].copy_from_slice(&bytes);
        }
    }
    o
}
