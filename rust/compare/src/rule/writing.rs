//! What document 01 says of the writing calls, read plainly: a leaf's cells are a
//! list of byte strings, the refusals are worked out on the unchanged pool, and
//! then a copy of it is stored to, step by step as section 5 has them.
use super::*;
use crate::change::{self, Changed};
use wire::{BAD_DATA, CONFLICT, DUPLICATE, MAX_DATA, NO_PAGES, Op, TOO_DEEP, UNDIVIDABLE, Version};

/// Bytes for a leaf's cells.
const BODY: usize = PAGE - 12;

type Cells = Vec<Vec<u8>>;

/// A leaf that is to hold other cells.
struct Leaf {
    page: u32,
    cells: Cells,
}

/// What writing a leaf takes: the way up from it, and what divides there.
struct Plan {
    leaf: Leaf,
    path: Vec<u32>,
    overfull: bool,
    /// Internal pages that divide.
    divided: usize,
    grows: bool,
}

enum Done {
    Store(Plan),
    Rewrite(Vec<Leaf>, u64),
}

fn size(cells: &[Vec<u8>]) -> usize {
    cells.iter().map(Vec::len).sum()
}

/// "Cut where the larger side is smallest; the earliest cut wins."
fn cut(cells: &[Vec<u8>]) -> usize {
    let larger = |at: &usize| size(&cells[..*at]).max(size(&cells[*at..]));
    (1..cells.len()).min_by_key(larger).expect("two cells")
}

fn divides_well(cells: &[Vec<u8>]) -> bool {
    if cells.len() < 2 {
        return false;
    }
    let at = cut(cells);
    size(&cells[..at]) <= BODY && size(&cells[at..]) <= BODY
}

fn bytes(rows: &[Row]) -> Cells {
    rows.iter().map(|r| r.bytes.to_vec()).collect()
}

impl<'a> Tree<'a> {
    /// "Each parent must be internal and hold the child, the root's parent must be 0."
    fn climb(&self, leaf: u32) -> Judged<Vec<u32>> {
        let mut path = vec![leaf];
        loop {
            let n = path[path.len() - 1];
            let parent = header(self.page(n)?).parent;
            if n == self.state.root {
                require(parent == 0, BAD_TREE)?;
                return Ok(path);
            }
            require(path.len() < LEVELS, BAD_TREE)?;
            require(self.inner(parent)?.1.contains(&n), BAD_TREE)?;
            path.push(parent);
        }
    }

    /// How many internal pages divide. "Every child whose parent link the call would
    /// write must be a page in use": those that go to a right page and, where a root
    /// other than 0 divides, those that stay.
    fn divided(&self, path: &[u32]) -> Judged<usize> {
        for (i, pair) in path.windows(2).enumerate() {
            let (keys, children) = self.inner(pair[1])?;
            if keys.len() < MAX_KEYS as usize {
                return Ok(i);
            }
            let mut all: Vec<Option<u32>> = children.into_iter().map(Some).collect();
            let held = all.iter().position(|&c| c == Some(pair[0])).unwrap();
            // The page that this call makes.
            all.insert(held + 1, None);
            let root = self.state.root;
            let relinked = if pair[1] == root && root != 0 { 0 } else { 256 };
            let in_use = |c: &Option<u32>| c.is_none_or(|c| c < self.state.used);
            require(all[relinked..].iter().all(in_use), BAD_TREE)?;
        }
        Ok(path.len() - 1)
    }

    fn plan(&self, leaf: Leaf) -> Judged<Plan> {
        let path = self.climb(leaf.page)?;
        let overfull = size(&leaf.cells) > BODY;
        let divided = if overfull { self.divided(&path)? } else { 0 };
        let grows = overfull && divided == path.len() - 1;
        Ok(Plan {
            leaf,
            path,
            overfull,
            divided,
            grows,
        })
    }

    /// Refusals 9, 11 and 10.
    fn room(&self, plan: &Plan) -> Judged<()> {
        if !plan.overfull {
            return Ok(());
        }
        require(divides_well(&plan.leaf.cells), UNDIVIDABLE)?;
        require(!(plan.grows && plan.path.len() == LEVELS), TOO_DEEP)?;
        let top = match (plan.grows, self.state.root) {
            (false, _) => 0,
            (true, 0) => 1,
            (true, _) => 2,
        };
        let left = self.pool.len() / PAGE - self.state.used as usize;
        require(1 + plan.divided + top <= left, NO_PAGES)
    }

    /// "A new version goes after equals of its key and creator."
    fn placed(&self, v: &Version) -> Judged<Plan> {
        let page = self.descend(|separator| v.key < separator)?;
        let rows = self.leaf(page)?;
        let before = |r: &&Row| (r.cell.key, r.cell.creator) <= (v.key, v.creator);
        let mut cells = bytes(&rows);
        cells.insert(rows.iter().filter(before).count(), v.cell());
        self.plan(Leaf { page, cells })
    }

    fn stamped(&self, target: &Row, deleter: u64) -> Judged<Plan> {
        let page = target.page;
        let rows = self.leaf(page)?;
        let is_target = |r: &Row| r.cell.start == target.cell.start;
        let at = rows.iter().position(is_target).unwrap();
        let mut cells = bytes(&rows);
        let mut v = Version::of_cell(&cells[at]);
        v.deleter = Some(deleter);
        cells[at] = v.cell();
        self.plan(Leaf { page, cells })
    }

    /// The leaves of these rows of which `kept` makes something else, and how many
    /// rows it drops.
    fn rewritten(&self, rows: &[Row], kept: impl Fn(&Row) -> Option<Vec<u8>>) -> Judged<Done> {
        let mut leaves = Vec::new();
        let mut dropped = 0;
        for run in rows.chunk_by(|a, b| a.page == b.page) {
            let page = run[0].page;
            let all = self.leaf(page)?;
            let cells: Cells = all.iter().filter_map(&kept).collect();
            dropped += (all.len() - cells.len()) as u64;
            if cells != bytes(&all) {
                leaves.push(Leaf { page, cells });
            }
        }
        Ok(Done::Rewrite(leaves, dropped))
    }
}

impl Rules<'_> {
    /// Section 5: what vacuum makes of a row.
    fn vacuumed(&self, bound: u64, r: &Row) -> Option<Vec<u8>> {
        let gone = |d| d < bound && self.is(d, 2);
        if self.is(r.cell.creator, 3) || r.cell.stamp.is_some_and(gone) {
            return None;
        }
        let mut v = Version::of_cell(r.bytes);
        v.deleter = v.deleter.filter(|&d| !self.is(d, 3));
        Some(v.cell())
    }
}

fn done(given: &Given, op: &Op) -> Judged<Done> {
    let statuses = given.lists.pairs();
    let plain = plain(given);
    judge(given, None, false, &statuses)?;
    if let Op::Claim(_, s) = op {
        require(s.current.is_some_and(|t| t != 0), BAD_SNAPSHOT)?;
    }
    let snap = change::snapshot(op);
    judge(given, snap, change::takes_statuses(op), &statuses)?;
    if let Op::Insert(_, data) | Op::InsertVersion(Version { data, .. }) = op {
        require(data.len() <= MAX_DATA, BAD_DATA)?;
    }
    let (pool, state) = (given.pool, given.state);
    let tree = Tree { pool, state };
    let rules = Rules {
        snap: snap.unwrap_or(&plain),
        statuses: &statuses,
    };
    let current = given.lists.current.unwrap_or(0);
    let (key, deleter) = match op {
        Op::Insert(key, data) => {
            let plan = tree.placed(&Version::live(*key, current, data.clone()))?;
            let rows = tree.of_key(*key)?;
            require(rules.lookup(&rows).is_err(), DUPLICATE)?;
            tree.room(&plan)?;
            return Ok(Done::Store(plan));
        }
        Op::InsertVersion(v) => {
            let plan = tree.placed(v)?;
            tree.room(&plan)?;
            return Ok(Done::Store(plan));
        }
        Op::Remove(key) => {
            let rows = tree.of_key(*key)?;
            return tree.rewritten(&rows, |r| (r.cell.key != *key).then(|| r.bytes.to_vec()));
        }
        Op::Vacuum(bound) => {
            return tree.rewritten(&tree.all()?, |r| rules.vacuumed(*bound, r));
        }
        Op::Stamp(key, _, deleter) | Op::PlainStamp(key, deleter) => (*key, *deleter),
        Op::PlainDelete(key) => (*key, current),
        Op::Claim(key, s) => (*key, s.current.unwrap()),
        _ => unreachable!("no writing call: {op:?}"),
    };
    let rows = tree.of_key(key)?;
    let target = rules.lookup(&rows)?;
    let plan = tree.stamped(target, deleter)?;
    if matches!(op, Op::Claim(..)) {
        require(!rules.conflict(target.cell.creator, &rows), CONFLICT)?;
    }
    tree.room(&plan)?;
    Ok(Done::Store(plan))
}

/// The stores of section 5, in the source's order.
struct Store {
    pool: Vec<u8>,
    state: State,
    path: Vec<u32>,
}

impl Store {
    fn put(&mut self, n: u32, at: usize, bytes: &[u8]) {
        let at = n as usize * PAGE + at;
        self.pool[at..at + bytes.len()].copy_from_slice(bytes);
    }

    fn set_parent(&mut self, n: u32, parent: u32) {
        self.put(n, 2, &parent.to_le_bytes());
    }

    /// The next page of the pool, as zeros but for its type and is-root.
    fn allocate(&mut self, kind: u8, is_root: u8) -> u32 {
        let n = self.state.used;
        self.state.used += 1;
        self.put(n, 0, &[0; PAGE]);
        self.put(n, 0, &[kind, is_root]);
        n
    }

    /// "Zeroes bytes 12 to 4095, stores the cells one after another and sets the count."
    fn write(&mut self, n: u32, count: usize, body: &[u8]) {
        self.put(n, 12, &[0; BODY]);
        self.put(n, 12, body);
        self.put(n, 6, &(count as u16).to_le_bytes());
    }

    fn write_leaf(&mut self, n: u32, cells: &[Vec<u8>]) {
        self.write(n, cells.len(), &cells.concat());
    }

    fn write_inner(&mut self, n: u32, keys: &[i32], children: &[u32]) {
        let mut body = children[0].to_le_bytes().to_vec();
        for (key, child) in keys.iter().zip(&children[1..]) {
            body.extend(key.to_le_bytes());
            body.extend(child.to_le_bytes());
        }
        self.write(n, keys.len(), &body);
    }

    fn inner(&self, n: u32) -> (Vec<i32>, Vec<u32>) {
        let page = of_pool(&self.pool, n);
        let key = |i: usize| i32::from_le_bytes(page[16 + 8 * i..20 + 8 * i].try_into().unwrap());
        let keys = (0..header(page).count as usize).map(key).collect();
        (keys, children(page))
    }

    fn divide_leaf(&mut self, leaf: &Leaf) {
        let n = leaf.page;
        let (left, right) = leaf.cells.split_at(cut(&leaf.cells));
        let next = header(of_pool(&self.pool, n)).next;
        let new = self.allocate(1, 0);
        self.write_leaf(n, left);
        self.write_leaf(new, right);
        self.put(n, 8, &new.to_le_bytes());
        self.put(new, 8, &next.to_le_bytes());
        self.enter(0, Version::of_cell(&right[0]).key, new);
    }

    /// The page after number `level` of the path goes next to it, into the page above.
    fn enter(&mut self, level: usize, key: i32, new: u32) {
        let old = self.path[level];
        let Some(&above) = self.path.get(level + 1) else {
            return self.grow(old, key, new);
        };
        let (mut keys, mut children) = self.inner(above);
        let held = children.iter().position(|&c| c == old).unwrap();
        keys.insert(held, key);
        children.insert(held + 1, new);
        if keys.len() <= MAX_KEYS as usize {
            self.write_inner(above, &keys, &children);
            self.set_parent(old, above);
            self.set_parent(new, above);
            return;
        }
        self.set_parent(new, above);
        self.write_inner(above, &keys[..255], &children[..256]);
        let right = self.allocate(0, 0);
        self.write_inner(right, &keys[256..], &children[256..]);
        for &child in &children[256..] {
            self.set_parent(child, right);
        }
        self.enter(level + 1, keys[255], right);
    }

    fn grow(&mut self, old: u32, key: i32, new: u32) {
        let top = self.allocate(0, 1);
        self.write_inner(top, &[key], &[old, new]);
        self.set_parent(old, top);
        self.set_parent(new, top);
        if old == 0 {
            self.state.root = top;
        } else {
            self.pin(old, key, new);
        }
    }

    /// "Any other root keeps its number: the new top's content goes to it, its old
    /// image, is-root cleared, to one more page."
    fn pin(&mut self, root: u32, key: i32, new: u32) {
        let image = *of_pool(&self.pool, root);
        let moved = self.allocate(0, 0);
        self.put(moved, 0, &image);
        self.put(moved, 1, &[0]);
        self.set_parent(moved, root);
        if image[0] == 0 {
            for child in self.inner(moved).1 {
                self.set_parent(child, moved);
            }
        }
        self.put(root, 0, &[0, 1]);
        self.set_parent(root, 0);
        self.write_inner(root, &[key], &[moved, new]);
        self.set_parent(moved, root);
        self.set_parent(new, root);
    }
}

/// What must come of the call.
pub fn changed(given: &Given, op: &Op) -> Changed {
    let mut c = Changed::start(given.pool);
    let mut store = Store {
        pool: c.pool,
        state: given.state,
        path: Vec::new(),
    };
    match done(given, op) {
        Err(number) => c.number = number,
        Ok(Done::Rewrite(leaves, dropped)) => {
            for leaf in leaves {
                store.write_leaf(leaf.page, &leaf.cells);
            }
            c.words[0] = dropped;
        }
        Ok(Done::Store(plan)) => {
            store.path = plan.path;
            if plan.overfull {
                store.divide_leaf(&plan.leaf);
            } else {
                store.write_leaf(plan.leaf.page, &plan.leaf.cells);
            }
            c.words[0] = store.state.root as u64;
            c.words[1] = store.state.used as u64;
        }
    }
    c.pool = store.pool;
    c
}
