//! The writing calls on well-formed trees: answer, state and every byte of the pool
//! after each call, ours against the oracle's and the rules'.
use crate::call::{Given, Lists};
use crate::change::Changed;
use crate::shapes::{self, Built};
use crate::sound::{levels, rising, statuses_at_limits};
use crate::tally::Tally;
use crate::{draw, pages};
use aerodb_opaque::oracle::Oracle;
use erbulonge::State;
use erbulonge::engine::Port;
use wire::random::Rng;
use wire::{Ans, Engine, Op, PAGE, Snap, Version, page};

/// Calls on one pool, each on one of these trees.
pub struct History {
    seed: u64,
    roots: &'static [u32],
    pages: u32,
    /// Keys from -`keys` to `keys`.
    keys: i32,
    /// Bytes of data at most.
    longest: u64,
    calls: usize,
}

const fn history_of(
    seed: u64,
    roots: &'static [u32],
    pages: u32,
    keys: i32,
    longest: u64,
    calls: usize,
) -> History {
    History {
        seed,
        roots,
        pages,
        keys,
        longest,
        calls,
    }
}

pub const HISTORIES: [History; 14] = [
    // Few keys: long chains of versions.
    history_of(21, &[0], 500, 20, 600, 900),
    history_of(22, &[1], 500, 20, 600, 900),
    history_of(23, &[3], 500, 20, 600, 900),
    // Many keys and short rows: leaves of a hundred cells.
    history_of(24, &[0], 500, 5000, 30, 3000),
    history_of(25, &[2], 500, 5000, 30, 3000),
    // Long rows: leaves that no cut divides, and in the end three levels.
    history_of(26, &[0], 1500, 300, 4051, 900),
    history_of(27, &[2], 1500, 300, 4051, 900),
    history_of(28, &[0], 1700, 3000, 4051, 2200),
    history_of(29, &[1], 1700, 3000, 4051, 2200),
    // Few pages.
    history_of(30, &[0], 7, 40, 600, 600),
    history_of(31, &[3], 12, 40, 600, 600),
    // Several trees in one pool.
    history_of(32, &[1, 2, 3], 500, 60, 600, 1500),
    history_of(33, &[1, 2, 3, 4, 5], 60, 60, 1200, 1200),
    // A row over the limit now and then.
    history_of(34, &[1], 500, 60, 4150, 900),
];

fn number(answer: &Ans) -> u8 {
    match answer {
        Ans::Refused(n) => *n,
        _ => 0,
    }
}

fn state(e: &dyn Engine) -> State {
    State {
        root: e.root(),
        used: e.in_use(),
    }
}

fn set_lists(e: &mut dyn Engine, lists: &Lists) {
    e.set_statuses(&lists.pairs());
    e.set_current(lists.current);
}

/// The first of so many pages that is not the oracle's.
fn other_page(oracle: &Oracle, pages: u32, ours: impl Fn(u32) -> [u8; PAGE]) -> Option<u32> {
    (0..pages).find(|&n| ours(n) != oracle.page(n))
}

/// One call on both sides, and what is then in the first `pages` pages, but at least
/// in those in use.
fn step(tally: &mut Tally, oracle: &mut Oracle, port: &mut Port, op: &Op, pages: u32) {
    let (ours, theirs) = (port.run(op), oracle.run(op));
    tally.answered(number(&ours));
    let (now, then) = (state(port), state(oracle));
    let other = other_page(oracle, pages.max(then.used), |n| port.page(n));
    let same = ours == theirs && now == then && other.is_none();
    tally.change(op, &(&ours, now, other), &(&theirs, then), same);
    let sound = port.check();
    tally.judge(sound == Ok(true), || {
        format!("check says {sound:?} after {ours:?}")
    });
}

/// Both sides after so many creates and one more.
fn sides(pages: u32, creates: u32) -> (Oracle, Port) {
    let mut oracle = Oracle::new(pages);
    for op in vec![Op::Create; creates as usize + 1] {
        oracle.run(&op);
    }
    let port = Port::new(oracle.pool(), state(&oracle));
    (oracle, port)
}

/// A server's day: each call has the next transaction, whose snapshot was taken while
/// a few of those before it were active. Every tenth aborts. In the first half most
/// calls insert short rows; in the second most of them stamp, which divides leaves, and
/// every fourth is about the row of the call before.
pub fn server(seed: u64, root: u32, calls: u64) -> Tally {
    const LASTS: u64 = 6;
    let mut tally = Tally::new(format!("written by a server {seed}, root {root}"));
    tally.pool();
    let mut rng = Rng(seed);
    let (mut oracle, mut port) = sides(700, root);
    let (mut keys, mut known) = (vec![0], 0);
    let mut ended: Vec<(u64, u8)> = Vec::new();
    for now in 100..100 + calls {
        let running: Vec<u64> = (now - LASTS..now).filter(|_| rng.chance(1, 2)).collect();
        ended.push((now - LASTS - 1, 2 + u8::from(rng.chance(1, 10))));
        let mut statuses = ended[ended.len().saturating_sub(200)..].to_vec();
        statuses.extend(running.iter().map(|&t| (t, 1)));
        let lists = Lists::of(&statuses, Some(now));
        set_lists(&mut oracle, &lists);
        set_lists(&mut port, &lists);
        let snap = Snap {
            xmax: now + 1,
            active: running,
            current: Some(now),
        };
        let any = rng.below(9000) as i32 - 4500;
        if rng.chance(3, 4) {
            known = draw::pick(&mut rng, &keys);
        }
        let data = vec![now as u8; rng.below(5) as usize];
        let filling = now < 100 + calls / 2;
        let op = match rng.below(100) {
            0..=69 if filling => Op::Insert(any, data),
            0..=9 => Op::InsertVersion(Version::live(known, now, data)),
            10..=64 => Op::Claim(known, snap),
            65..=84 => Op::Stamp(known, snap, now),
            85..=90 => Op::PlainStamp(known, now),
            91..=96 => Op::PlainDelete(known),
            97 => Op::Remove(known),
            98 if now > 100 + calls * 9 / 10 => Op::Vacuum(now - LASTS),
            _ => Op::Claim(any, snap),
        };
        if let Op::Insert(key, _) = op {
            keys.push(key);
        }
        let pages = if now % 50 == 0 { 700 } else { 0 };
        step(&mut tally, &mut oracle, &mut port, &op, pages);
        tally.levels(levels(&oracle));
    }
    tally
}

pub fn history(h: &History) -> Tally {
    let mut tally = Tally::new(format!("written history {}, roots {:?}", h.seed, h.roots));
    tally.pool();
    let mut rng = Rng(h.seed);
    let (mut oracle, mut port) = sides(h.pages, *h.roots.iter().max().unwrap());
    let keys: Vec<i32> = (-h.keys..=h.keys).collect();
    for i in 0..h.calls {
        if h.roots.len() > 1 {
            let root = draw::pick(&mut rng, h.roots);
            oracle.open(root);
            port.open(root);
        }
        let lists = draw::lists(&mut rng);
        set_lists(&mut oracle, &lists);
        set_lists(&mut port, &lists);
        let op = draw::step(&mut rng, &keys, h.longest);
        if i % 10 == 0 {
            let given = Given {
                pool: &port.pool(),
                state: state(&port),
                lists: &lists,
                room: 0,
            };
            tally.change_by_rule(&given, &op);
        }
        let pages = if i % 50 == 0 { h.pages } else { 0 };
        step(&mut tally, &mut oracle, &mut port, &op, pages);
        tally.levels(levels(&oracle));
    }
    tally
}

/// Whether the oracle's answer and pages are those of our outcome.
fn agrees(got: &Changed, op: &Op, given: &Given, oracle: &Oracle, answer: &Ans) -> bool {
    let told = match answer {
        Ans::Refused(n) => got.number == *n,
        Ans::Count(n) => (got.number, got.words[0]) == (0, *n),
        _ => got.number == 0,
    };
    let other = other_page(oracle, oracle.capacity(), |n| *page::of_pool(&got.pool, n));
    told && got.state(op, given.state) == state(oracle) && other.is_none()
}

/// Each call on a tree, by itself.
fn ask(tally: &mut Tally, rng: &mut Rng, b: &mut Built) {
    tally.pool();
    b.add_spare(rng);
    let lists = draw::lists(rng);
    for op in draw::changes(rng, &b.keys) {
        let given = b.given(&lists);
        let got = tally.change_by_rule(&given, &op);
        let mut oracle = Oracle::from_bytes(&b.pool, b.state.used, b.state.root);
        tally.levels(levels(&oracle));
        set_lists(&mut oracle, &lists);
        let theirs = oracle.run(&op);
        let same = agrees(&got, &op, &given, &oracle, &theirs);
        tally.change(&op, &(got.number, &got.words[..2]), &theirs, same);
        let sound = got.state(&op, b.state).check(&got.pool);
        tally.judge(sound == Ok(true), || {
            format!("check says {sound:?} after {op:?}")
        });
    }
}

/// Trees built page by page, half of whose leaves are full.
pub fn built(levels: u32, widest: u64, trees: usize) -> Tally {
    let mut tally = Tally::new(format!("written, 2 to {} children", widest + 1));
    let mut rng = Rng(u64::from(levels) * 1000 + widest);
    for _ in 0..trees {
        let mut b = shapes::heavy_tree(&mut rng, levels, widest);
        ask(&mut tally, &mut rng, &mut b);
    }
    tally
}

/// Histories that begin with such trees: their leaves are divided by stamps too.
pub fn continued(levels: u32, widest: u64, trees: usize) -> Tally {
    let mut tally = Tally::new(format!("written on, 2 to {} children", widest + 1));
    let mut rng = Rng(u64::from(levels) * 1000 + widest + 1);
    for _ in 0..trees {
        tally.pool();
        let mut b = shapes::heavy_tree(&mut rng, levels, widest);
        b.pool.resize(b.pool.len() + 30 * PAGE, 0xEE);
        let mut oracle = Oracle::from_bytes(&b.pool, b.state.used, b.state.root);
        let mut port = Port::new(b.pool, b.state);
        for _ in 0..40 {
            let lists = draw::lists(&mut rng);
            set_lists(&mut oracle, &lists);
            set_lists(&mut port, &lists);
            let op = draw::step(&mut rng, &b.keys, 60);
            let pages = oracle.capacity();
            step(&mut tally, &mut oracle, &mut port, &op, pages);
            tally.levels(self::levels(&oracle));
        }
    }
    tally
}

/// Trees with full pages, one above the other: internal pages divide, roots grow,
/// and one of four levels does not.
pub fn full_way(levels: usize, trees: usize) -> Tally {
    let mut tally = Tally::new("written, full pages");
    let mut rng = Rng(40 + levels as u64);
    for i in 0..trees {
        // The first half are full up to the root.
        let full: Vec<bool> = (1..levels)
            .map(|_| i < trees / 2 || rng.chance(1, 2))
            .collect();
        let mut b = shapes::full_way(&mut rng, &full, i % 2 == 0);
        ask(&mut tally, &mut rng, &mut b);
    }
    tally
}

/// Lists and pools at their limits, on a small tree.
pub fn limits() -> Tally {
    let mut tally = Tally::new("written, lists and pools at their limits");
    let mut rng = Rng(9);
    let b = shapes::heavy_tree(&mut rng, 2, 4);
    let n = b.pool.len();
    for lists in statuses_at_limits() {
        for length in [0, 1, 4095, 4096, n - 1, n, n + 1, n + 3 * PAGE] {
            tally.pool();
            let mut pool = b.pool.clone();
            pool.resize(length, 0);
            for active in [0, 4096, 4097] {
                for mut op in draw::changes(&mut rng, &b.keys) {
                    if let Op::Stamp(_, s, _) | Op::Claim(_, s) = &mut op {
                        s.active = rising(active);
                    }
                    let given = Given {
                        pool: &pool,
                        state: b.state,
                        lists: &lists,
                        room: 0,
                    };
                    tally.change_by_rule(&given, &op);
                }
            }
        }
    }
    tally
}

/// A full root leaf in a pool of 65,536 pages of which just enough are left, or one
/// fewer, and in a pool of one page more.
pub fn last_pages() -> Tally {
    let mut tally = Tally::new("written, the last of 65,536 pages");
    let lists = Lists::default();
    let row = |key| Version::live(key, 1, vec![7; 2100]);
    for (pages, root, used) in [
        (65_536, 0, 65_534),
        (65_536, 0, 65_535),
        (65_536, 9, 65_533),
        (65_536, 9, 65_534),
        (65_537, 9, 65_533),
    ] {
        tally.pool();
        let mut pool = vec![0; pages * PAGE];
        pool[root * PAGE..][..PAGE].copy_from_slice(&pages::leaf(0, 0, &[row(1)]));
        let root = root as u32;
        let given = Given {
            pool: &pool,
            state: State { root, used },
            lists: &lists,
            room: 0,
        };
        tally.change_by_rule(&given, &Op::InsertVersion(row(2)));
    }
    tally
}
