//! Well-formed trees of any shape, built page by page: one to four levels,
//! empty leaves, equal keys on both sides of a separator, pages in any order,
//! and random bytes wherever none is judged.
use crate::call::{Given, Lists};
use crate::draw;
use crate::pages::{self, Page};
use erbulonge::State;
use wire::random::Rng;
use wire::{MAX_DATA, PAGE, Version};

pub struct Built {
    pub pool: Vec<u8>,
    pub state: State,
    pub keys: Vec<i32>,
}

impl Built {
    /// A few pages more, or none, that are not in use.
    pub fn add_spare(&mut self, rng: &mut Rng) {
        let spare = draw::pick(rng, &[0, 1, 2, 3, 4, 5, 6]);
        self.pool.resize(self.pool.len() + spare * PAGE, 0xEE);
    }

    /// What a call on the tree is given, with no output.
    pub fn given<'a>(&'a self, lists: &'a Lists) -> Given<'a> {
        Given {
            pool: &self.pool,
            state: self.state,
            lists,
            room: 0,
        }
    }
}

enum Node {
    Leaf(Vec<Version>),
    /// Children, and the separators between them.
    Inner(Vec<Node>, Vec<i32>),
}

/// Where the next leaf's rows and separators come from, left to right.
struct Source<'a> {
    rng: &'a mut Rng,
    low: i32,
    widest: u64,
    /// Half of the leaves are full but for a few bytes.
    heavy: bool,
}

/// Bytes for a leaf's cells.
const BODY: usize = PAGE - 12;

impl Source<'_> {
    fn version(&mut self) -> Version {
        let rng = &mut *self.rng;
        self.low = self.low.saturating_add(rng.below(3) as i32);
        Version {
            key: self.low,
            creator: draw::transaction(rng),
            deleter: rng.chance(1, 3).then(|| draw::transaction(rng)),
            ptr: rng
                .chance(1, 4)
                .then(|| (rng.draw() as u32, rng.draw() as u16)),
            data: (0..rng.below(60)).map(|_| rng.draw() as u8).collect(),
        }
    }

    fn leaf(&mut self) -> Node {
        let count = draw::pick(self.rng, &[0, 1, 2, 3, 5, 8]);
        let mut rows: Vec<Version> = (0..count).map(|_| self.version()).collect();
        rows.sort_by_key(|v| (v.key, v.creator));
        if self.heavy && self.rng.chance(1, 2) {
            self.fill(&mut rows);
        }
        Node::Leaf(rows)
    }

    /// One row's data made longer, so that up to 20 bytes of the leaf are left.
    fn fill(&mut self, rows: &mut [Version]) {
        let taken: usize = rows.iter().map(|v| v.cell().len()).sum();
        let left = self.rng.below(21) as usize;
        if rows.is_empty() {
            return;
        }
        let at = self.rng.below(rows.len() as u64) as usize;
        let data = &mut rows[at].data;
        let length = data.len() + (BODY - taken).saturating_sub(left);
        data.resize(length.min(MAX_DATA), 0x77);
    }

    /// A full leaf whose key in the middle no other leaf and no separator has.
    fn full_leaf(&mut self, middle: &mut i32) -> Node {
        self.low += 3;
        let mut rows = vec![self.version(), self.version(), self.version()];
        for v in &mut rows {
            self.low += 1;
            v.key = self.low;
        }
        *middle = rows[1].key;
        self.low += 3;
        self.fill(&mut rows);
        Node::Leaf(rows)
    }

    /// The pages on one way down are full where `full` says so, from the root down;
    /// it gives the key in the middle of the leaf at its end.
    fn full_way(&mut self, full: &[bool], middle: &mut i32) -> Node {
        let Some((&this, below)) = full.split_first() else {
            return self.full_leaf(middle);
        };
        let count = if this { 511 } else { 2 + self.rng.below(4) };
        let somewhere = self.rng.below(count);
        let at =
            draw::pick(self.rng, &[0, 254, 255, 256, 510, somewhere, somewhere]).min(count - 1);
        let mut nodes = Vec::new();
        let mut separators = Vec::new();
        for i in 0..count {
            if i > 0 {
                separators.push(self.separator());
            }
            nodes.push(if i == at {
                self.full_way(below, middle)
            } else {
                self.node(below.len() as u32 + 1)
            });
        }
        Node::Inner(nodes, separators)
    }

    fn separator(&mut self) -> i32 {
        self.low = self.low.saturating_add(self.rng.below(2) as i32);
        self.low
    }

    fn node(&mut self, levels: u32) -> Node {
        if levels == 1 {
            return self.leaf();
        }
        let mut nodes = vec![self.node(levels - 1)];
        let mut separators = Vec::new();
        for _ in 0..1 + self.rng.below(self.widest) {
            separators.push(self.separator());
            nodes.push(self.node(levels - 1));
        }
        Node::Inner(nodes, separators)
    }
}

impl Node {
    /// For each page, in the order in which `Writer` takes them, whether it is a
    /// leaf: a page, then its children's.
    fn leaves(&self) -> Vec<bool> {
        match self {
            Node::Leaf(_) => vec![true],
            Node::Inner(nodes, _) => {
                let below = nodes.iter().flat_map(Node::leaves);
                std::iter::once(false).chain(below).collect()
            }
        }
    }
}

/// Gives pages numbers and writes them; leaves are linked as they come.
struct Writer {
    numbers: Vec<u32>,
    pages: Vec<Page>,
    last_leaf: Option<u32>,
    keys: Vec<i32>,
}

impl Writer {
    fn link(&mut self, n: u32) {
        if let Some(last) = self.last_leaf.replace(n) {
            self.pages[last as usize][8..12].copy_from_slice(&n.to_le_bytes());
        }
    }

    fn write(&mut self, node: &Node, parent: u32) -> u32 {
        let n = self.numbers.pop().expect("a number for each page");
        match node {
            Node::Leaf(rows) => {
                self.pages[n as usize] = pages::leaf(parent, 0, rows);
                self.keys.extend(rows.iter().map(|v| v.key));
                self.link(n);
            }
            Node::Inner(nodes, separators) => {
                let below: Vec<u32> = nodes.iter().map(|node| self.write(node, n)).collect();
                let rest: Vec<(i32, u32)> = separators
                    .iter()
                    .copied()
                    .zip(below[1..].iter().copied())
                    .collect();
                self.keys.extend(separators);
                self.pages[n as usize] = pages::inner(parent, below[0], &rest);
            }
        }
        n
    }
}

/// Numbers for the pages of a node, last first, in any order, but page 0 is no
/// leaf but the first.
fn numbers(rng: &mut Rng, leaves: &[bool], used: u32) -> Vec<u32> {
    let mut numbers: Vec<u32> = (0..used).collect();
    for i in 1..numbers.len() {
        numbers.swap(i, rng.below(i as u64 + 1) as usize);
    }
    numbers.truncate(leaves.len());
    let first_leaf = leaves.iter().position(|&leaf| leaf);
    let may_be_0: Vec<usize> = (0..leaves.len())
        .filter(|&i| !leaves[i] || Some(i) == first_leaf)
        .collect();
    if let Some(at) = numbers.iter().position(|&n| n == 0) {
        numbers.swap(at, draw::pick(rng, &may_be_0));
    }
    numbers.reverse();
    numbers
}

/// Random bytes that section 3 does not judge: is-root, the bytes after the
/// last cell, and bytes 8 to 11 of an internal page.
fn litter(rng: &mut Rng, page: &mut Page) {
    page[1] = rng.draw() as u8;
    let end = page.iter().rposition(|&b| b != 0).unwrap_or(0) + 1;
    let count = u16::from_le_bytes([page[6], page[7]]) as usize;
    let start = if page[0] == 1 {
        // A cell may end with zeros.
        end + 80
    } else {
        page[8..12].fill(rng.draw() as u8);
        16 + 8 * count
    };
    for byte in page.iter_mut().skip(start) {
        *byte = rng.draw() as u8;
    }
}

/// The pages of a node in a pool with a few pages more, in use or not.
fn built(rng: &mut Rng, root: &Node, keys: Vec<i32>, root_is_0: bool) -> Built {
    let leaves = root.leaves();
    let used = leaves.len() as u32 + rng.below(4) as u32;
    let mut numbers = numbers(rng, &leaves, used);
    if root_is_0 {
        let last = numbers.len() - 1;
        match numbers.iter().position(|&n| n == 0) {
            Some(at) => numbers.swap(at, last),
            None => numbers[last] = 0,
        }
    }
    let mut w = Writer {
        numbers,
        pages: vec![[0xEE; PAGE]; used as usize + rng.below(3) as usize],
        last_leaf: None,
        keys,
    };
    let root = w.write(root, 0);
    for page in &mut w.pages {
        litter(rng, page);
    }
    Built {
        pool: w.pages.concat(),
        state: State { root, used },
        keys: w.keys,
    }
}

fn tree_of(rng: &mut Rng, levels: u32, widest: u64, heavy: bool) -> Built {
    let low = draw::pick(rng, &[-9, -9, 0, i32::MIN, i32::MAX - 20]);
    let source = &mut Source {
        rng,
        low,
        widest,
        heavy,
    };
    let root = source.node(levels);
    built(rng, &root, vec![low], false)
}

/// A tree of that many levels whose internal pages have 2 to `widest` + 1 children.
pub fn tree(rng: &mut Rng, levels: u32, widest: u64) -> Built {
    tree_of(rng, levels, widest, false)
}

/// The same with leaves that a longer cell divides.
pub fn heavy_tree(rng: &mut Rng, levels: u32, widest: u64) -> Built {
    tree_of(rng, levels, widest, true)
}

/// A tree with a way down to a full leaf, on which the internal pages have 510 keys
/// where `full` says so, from the root down. Its only key is the one in the middle
/// of that leaf.
pub fn full_way(rng: &mut Rng, full: &[bool], root_is_0: bool) -> Built {
    let mut middle = 0;
    let source = &mut Source {
        rng,
        low: -9,
        widest: 1,
        heavy: false,
    };
    let root = source.full_way(full, &mut middle);
    let mut b = built(rng, &root, Vec::new(), root_is_0);
    b.keys = vec![middle];
    b
}
