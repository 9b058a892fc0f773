//! Damaged pools: every call must end and answer as the rules say, which is a
//! number of its own. A reading call must leave pool, words and (unless Done) output
//! as they were. A writing call must leave pool and words as they were unless Done,
//! and then all but the pages in use; the rules say what those hold.
use crate::call::Lists;
use crate::pages::{self, Page};
use crate::shapes::{self, Built};
use crate::tally::Tally;
use crate::{draw, rule};
use erbulonge::State;
use wire::page::{cell_sizes, leaves, of_pool};
use wire::random::Rng;
use wire::{PAGE, Version};

type Damage = fn(&mut Rng, &mut Built);

impl Built {
    /// A random page in use of that type, if there is one.
    fn page_of_type(&self, rng: &mut Rng, kind: u8) -> Option<usize> {
        let of_kind: Vec<usize> = (0..self.state.used as usize)
            .filter(|n| self.pool.get(n * PAGE) == Some(&kind))
            .collect();
        (!of_kind.is_empty()).then(|| draw::pick(rng, &of_kind))
    }

    fn put(&mut self, page: usize, at: usize, bytes: &[u8]) {
        let at = page * PAGE + at;
        self.pool[at..at + bytes.len()].copy_from_slice(bytes);
    }

    fn byte(&mut self, page: usize, at: usize) -> &mut u8 {
        &mut self.pool[page * PAGE + at]
    }

    /// Any page number: in use, about the pages in use, or far away.
    fn any_number(&self, rng: &mut Rng) -> u32 {
        let used = self.state.used;
        let near = rng.below(used as u64 + 2) as u32;
        draw::pick(
            rng,
            &[near, near, near, near, used, 0, self.state.root, u32::MAX],
        )
    }

    /// Offsets of a leaf's cells.
    fn cells(&self, page: usize) -> Vec<usize> {
        let sizes = cell_sizes(of_pool(&self.pool, page as u32));
        let starts = sizes.iter().scan(12, |at, size| {
            *at += size;
            Some(*at - size)
        });
        starts.collect()
    }
}

fn flipped_bytes(rng: &mut Rng, b: &mut Built) {
    for _ in 0..1 + rng.below(3) {
        let at = rng.below(b.state.used as u64 * PAGE as u64) as usize;
        // Most bytes of a page are not judged: half of the flips go to its start.
        let at = if rng.chance(1, 2) {
            at
        } else {
            at / PAGE * PAGE + at % 128
        };
        b.pool[at] ^= 1 << rng.below(8);
    }
}

fn bad_types(rng: &mut Rng, b: &mut Built) {
    let n = rng.below(b.state.used as u64) as usize;
    *b.byte(n, 0) = draw::pick(rng, &[0, 1, 2, 255]);
}

fn bad_parents(rng: &mut Rng, b: &mut Built) {
    let n = rng.below(b.state.used as u64) as usize;
    let parent = b.any_number(rng);
    b.put(n, 2, &parent.to_le_bytes());
}

fn bad_counts(rng: &mut Rng, b: &mut Built) {
    let n = rng.below(b.state.used as u64) as usize;
    let near = b.byte(n, 6).wrapping_add(draw::pick(rng, &[1, 255])) as u16;
    let count = draw::pick(rng, &[near, near, near, 0, 510, 511, 512, u16::MAX]);
    b.put(n, 6, &count.to_le_bytes());
}

fn bad_chains(rng: &mut Rng, b: &mut Built) {
    if let Some(n) = b.page_of_type(rng, 1) {
        let next = b.any_number(rng);
        b.put(n, 8, &next.to_le_bytes());
    }
}

fn bad_children(rng: &mut Rng, b: &mut Built) {
    if let Some(n) = b.page_of_type(rng, 0) {
        let count = *b.byte(n, 6) as u64;
        let at = 12 + 8 * rng.below(count + 1) as usize;
        let child = b.any_number(rng);
        b.put(n, at, &child.to_le_bytes());
    }
}

fn bad_separators(rng: &mut Rng, b: &mut Built) {
    if let Some(n) = b.page_of_type(rng, 0) {
        let count = *b.byte(n, 6) as u64;
        let at = 16 + 8 * rng.below(count.max(1)) as usize;
        let key = draw::pick(rng, &b.keys).saturating_add(draw::pick(rng, &[0, 1, -1]));
        b.put(n, at, &key.to_le_bytes());
    }
}

/// The leaves linked in another order after the first: keys fall along the chain,
/// and the visible listing must sort them.
fn falling_keys(rng: &mut Rng, b: &mut Built) {
    let mut chain = leaves(&b.pool, b.state.root);
    for i in 2..chain.len() {
        chain.swap(i, 1 + rng.below(i as u64) as usize);
    }
    chain.push(0);
    for pair in chain.windows(2) {
        b.put(pair[0] as usize, 8, &pair[1].to_le_bytes());
    }
}

/// Key, length, format byte, creator or flags of a cell.
fn bad_cells(rng: &mut Rng, b: &mut Built) {
    let Some(n) = b.page_of_type(rng, 1) else {
        return;
    };
    let cells = b.cells(n);
    if cells.is_empty() {
        return;
    }
    let cell = draw::pick(rng, &cells);
    match rng.below(6) {
        0 => {
            let key = draw::pick(rng, &b.keys);
            b.put(n, cell, &key.to_le_bytes());
        }
        1 => b.put(n, cell + 9, &draw::transaction(rng).to_le_bytes()),
        2 => *b.byte(n, cell + 8) = 0x80,
        3 => *b.byte(n, cell + 17) = draw::pick(rng, &[0, 1, 2]),
        4 => *b.byte(n, cell + 18) = draw::pick(rng, &[0, 1, 2]),
        _ => {
            let length = draw::pick(rng, &[0, 10, 11, 12, 4050, 4080, 5000, u32::MAX]);
            b.put(n, cell + 4, &length.to_le_bytes());
        }
    }
}

/// Pages in use or root that do not fit the pool.
fn bad_states(rng: &mut Rng, b: &mut Built) {
    let used = b.state.used;
    match rng.below(5) {
        0 => b.state.root = b.any_number(rng),
        1 => b.state.used = rng.below(used as u64 + 1) as u32,
        2 => b.state.used = draw::pick(rng, &[used + 1, used + 3, 65_536, 65_537, u32::MAX]),
        3 => b.pool.truncate(rng.below(b.pool.len() as u64 + 1) as usize),
        _ => b.pool.truncate(rng.below(used as u64 + 1) as usize * PAGE),
    }
}

fn swapped_pages(rng: &mut Rng, b: &mut Built) {
    let used = b.state.used as u64;
    let (from, to) = (rng.below(used) as usize, rng.below(used) as usize);
    let page = b.pool[from * PAGE..][..PAGE].to_vec();
    if rng.chance(1, 2) {
        b.pool.copy_within(to * PAGE..(to + 1) * PAGE, from * PAGE);
    }
    b.put(to, 0, &page);
}

/// Pages whose children and next links are drawn from all pages, in use or not.
fn random_graph(rng: &mut Rng, b: &mut Built) {
    let used = 1 + rng.below(7) as u32;
    let mut pages: Vec<Page> = Vec::new();
    for _ in 0..used {
        let reach = used as u64 + u64::from(rng.chance(1, 6));
        let mut number = || rng.below(reach) as u32;
        let (parent, first, second, next) = (number(), number(), number(), number());
        let key = rng.below(6) as i32 - 3;
        let row = Version::live(key, draw::transaction(rng), vec![7; 3]);
        pages.push(match rng.below(5) {
            0 => pages::inner(parent, first, &[(key, second)]),
            1 => pages::inner(parent, first, &[(key, second), (key + 1, next)]),
            2 => pages::leaf(parent, next, &[]),
            3 => pages::leaf(parent, next, &[row.clone(), row]),
            _ => pages::leaf(parent, 0, &[row]),
        });
    }
    b.pool = pages.concat();
    b.state = State {
        root: rng.below(used as u64) as u32,
        used,
    };
    b.keys = (-3..=3).collect();
}

fn several(rng: &mut Rng, b: &mut Built) {
    for _ in 0..2 + rng.below(3) {
        let damage = draw::pick(rng, &KINDS[..SIMPLE]).1;
        damage(rng, b);
    }
}

/// The first so many keep page numbers and lengths, and go together.
const SIMPLE: usize = 7;

pub const KINDS: [(&str, Damage); 13] = [
    ("flipped bytes", flipped_bytes),
    ("bad types", bad_types),
    ("bad parent links", bad_parents),
    ("bad counts", bad_counts),
    ("bad next links", bad_chains),
    ("bad children", bad_children),
    ("bad separators", bad_separators),
    ("leaves linked in another order", falling_keys),
    ("bad cells", bad_cells),
    ("bad roots, pages in use and lengths", bad_states),
    ("pages swapped or copied", swapped_pages),
    ("random graphs of pages", random_graph),
    ("several faults", several),
];

/// Every call on a damaged tree, with output enough, just enough, or too short.
fn ask(tally: &mut Tally, rng: &mut Rng, b: &Built) {
    tally.pool();
    let mut lists: Lists = draw::lists(rng);
    if rng.chance(1, 40) {
        lists.states.push(1);
    }
    for call in draw::calls(rng, &b.keys) {
        let mut given = b.given(&lists);
        let length = rule::length(&given, &call);
        given.room = draw::pick(rng, &[length, length + 9, length.saturating_sub(1), 0]);
        tally.by_rule(&given, &call);
    }
}

/// Every writing call on a damaged tree, with a few pages left or none.
fn ask_changes(tally: &mut Tally, rng: &mut Rng, b: &mut Built) {
    tally.pool();
    b.add_spare(rng);
    let mut lists: Lists = draw::lists(rng);
    if rng.chance(1, 40) {
        lists.states.push(1);
    }
    for op in draw::changes(rng, &b.keys) {
        let given = b.given(&lists);
        tally.change_by_rule(&given, &op);
    }
}

/// The writing calls on pools that are damaged in that way.
pub fn run_changes(kind: usize, pools: usize) -> Tally {
    let (name, damage) = KINDS[kind];
    let mut tally = Tally::new(format!("written, damaged: {name}"));
    let mut rng = Rng(700 + kind as u64);
    for _ in 0..pools {
        let levels = 1 + rng.below(4) as u32;
        let mut b = shapes::heavy_tree(&mut rng, levels, 3);
        damage(&mut rng, &mut b);
        ask_changes(&mut tally, &mut rng, &mut b);
    }
    tally
}

/// A way down through pages of 510 keys, or of 509, to a full leaf. All else that
/// the pages name is drawn from the pages in use, the way's own too; about every
/// second page names one that is not in use.
fn full_pages(rng: &mut Rng) -> Built {
    const KEY: i32 = 5;
    let used = 4 + rng.below(5) as u32;
    let mut way: Vec<u32> = (0..used).collect();
    for i in 1..way.len() {
        way.swap(i, rng.below(i as u64 + 1) as usize);
    }
    if let (Some(at), true) = (way.iter().position(|&n| n == 0), rng.chance(1, 3)) {
        way.swap(0, at);
    }
    way.truncate(2 + rng.below(3) as usize);
    let mut pool = vec![pages::leaf(0, 0, &[]); used as usize];
    let mut parent = 0;
    for pair in way.windows(2) {
        let keys = 510 - usize::from(rng.chance(1, 8));
        let mut children: Vec<u32> = (0..=keys).map(|_| rng.below(used as u64) as u32).collect();
        let any = rng.below(keys as u64) as usize;
        if rng.chance(1, 2) {
            let at = draw::pick(rng, &[0, 254, 255, 256, 257, keys, any]);
            children[at] = draw::pick(rng, &[used, used + 1, u32::MAX]);
        }
        let any = rng.below(keys as u64) as usize;
        let at = draw::pick(rng, &[0, 254, 255, 256, keys, any, any]);
        children[at] = pair[1];
        let key = |i| if i < at { KEY - 1 } else { KEY + 1 };
        let rest: Vec<(i32, u32)> = (0..keys).map(|i| (key(i), children[i + 1])).collect();
        pool[pair[0] as usize] = pages::inner(parent, children[0], &rest);
        parent = pair[0];
    }
    let long = vec![0x77; 2003 + rng.below(21) as usize];
    let rows = [1, 2].map(|creator| Version::live(KEY, creator, long.clone()));
    let next = rng.below(used as u64) as u32 * u32::from(rng.chance(1, 4));
    pool[way[way.len() - 1] as usize] = pages::leaf(parent, next, &rows);
    Built {
        pool: pool.concat(),
        state: State { root: way[0], used },
        keys: vec![KEY],
    }
}

pub fn run_full_pages(pools: usize) -> Tally {
    let mut tally = Tally::new("written, damaged: full pages");
    let mut rng = Rng(690);
    for _ in 0..pools {
        let mut b = full_pages(&mut rng);
        ask_changes(&mut tally, &mut rng, &mut b);
    }
    tally
}

pub fn run(kind: usize, pools: usize) -> Tally {
    let (name, damage) = KINDS[kind];
    let mut tally = Tally::new(format!("damaged: {name}"));
    let mut rng = Rng(900 + kind as u64);
    for _ in 0..pools {
        let levels = 1 + rng.below(4) as u32;
        let mut b = shapes::tree(&mut rng, levels, 3);
        damage(&mut rng, &mut b);
        ask(&mut tally, &mut rng, &b);
    }
    tally
}
