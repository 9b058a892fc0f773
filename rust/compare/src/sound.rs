//! The reading calls on well-formed trees: our answers against the oracle's and the rules'.
use crate::call::{Call, Given, Lists, Outcome, ours};
use crate::tally::Tally;
use crate::{draw, rule, shapes};
use aerodb_opaque::oracle::Oracle;
use erbulonge::engine::Port;
use erbulonge::{State, calls};
use wire::random::{self, Rng};
use wire::{Ans, Engine, NO_PAGES, Op, PAGE, Version, page, records};

fn listing(answer: &Ans) -> Option<Vec<u8>> {
    match answer {
        Ans::List(versions) => Some(records::of_versions(versions)),
        Ans::Pages(pages) => Some(records::of_pages(pages)),
        _ => None,
    }
}

/// One call on both sides. The output has room for the listing and a few bytes
/// more, just for it, or for all but its last byte.
fn call(
    tally: &mut Tally,
    rng: &mut Rng,
    oracle: &mut Oracle,
    port: &mut Port,
    mut given: Given,
    call: &Call,
) {
    let length = rule::length(&given, call);
    given.room = length + draw::pick(rng, &[0, 0, 1, 40]);
    let got = tally.by_rule(&given, call);
    if length > 0 && rng.chance(1, 4) {
        given.room = length - 1;
        tally.by_rule(&given, call);
    }
    let Some(op) = call.op() else {
        let yes = (got.number, got.words[0]) == (0, 1);
        tally.judge(yes, || format!("check says no to {:?}", given.state));
        return;
    };
    let theirs = oracle.run(&op);
    if let Some(bytes) = listing(&theirs) {
        tally.equal(&got.out[..length].to_vec(), &bytes, call);
    }
    tally.equal(&port.run(&op), &theirs, call);
}

/// Levels, counted along the first children.
pub fn levels(e: &dyn Engine) -> usize {
    let below = |n: &u32| {
        let page = e.page(*n);
        (!page::header(&page).leaf).then(|| page::children(&page)[0])
    };
    std::iter::successors(Some(e.root()), below).count()
}

/// Each reading call on both sides, with fresh lists.
fn ask(tally: &mut Tally, rng: &mut Rng, oracle: &mut Oracle, keys: &[i32]) {
    tally.pool();
    tally.levels(levels(oracle));
    let pool = oracle.pool();
    let state = State {
        root: oracle.root(),
        used: oracle.in_use(),
    };
    let mut port = Port::new(pool.clone(), state);
    let lists = draw::lists(rng);
    for e in [oracle as &mut dyn Engine, &mut port] {
        e.set_statuses(&lists.pairs());
        e.set_current(lists.current);
    }
    for c in draw::calls(rng, keys) {
        let given = Given {
            pool: &pool,
            state,
            lists: &lists,
            room: 0,
        };
        call(tally, rng, oracle, &mut port, given, &c);
    }
}

/// The two sides' create, on pools with pages left and on a full one.
fn create(tally: &mut Tally, oracle: &mut Oracle, used: u32) {
    let before = oracle.pool();
    let mut port = Port::new(before, State { root: 9, used });
    let (ours, theirs) = (port.run(&Op::Create), oracle.run(&Op::Create));
    let same = ours == theirs && port.in_use() == oracle.in_use() && port.pool() == oracle.pool();
    tally.judge(
        same && port.root() == if ours == Ans::Done { used } else { 9 },
        || format!("create with {used} in use: {ours:?}, {theirs:?}"),
    );
}

/// A refused create changes nothing.
fn create_refused(tally: &mut Tally, length: usize, used: u32, number: u8) {
    const FILL: u8 = 0xC3;
    let mut pool = vec![FILL; length];
    let mut o = Outcome::start(0);
    o.number = calls::create(&mut pool, State { root: 0, used }, &mut o.words);
    let mut expected = Outcome::start(0);
    expected.number = number;
    let kept = pool.iter().all(|&byte| byte == FILL);
    tally.judge(o == expected && kept, || {
        format!("create on {length} bytes, {used} in use: {}", o.number)
    });
}

pub fn creates() -> Tally {
    let mut tally = Tally::new("create");
    for capacity in 1..=6 {
        tally.pool();
        let garbage: Vec<u8> = vec![0xC3; capacity as usize * wire::PAGE];
        let mut oracle = Oracle::from_bytes(&garbage, 0, 0);
        for used in 0..=capacity {
            create(&mut tally, &mut oracle, used);
        }
    }
    for (length, used) in [
        (0, 0),
        (1, 0),
        (4095, 0),
        (4097, 1),
        (4096, 2),
        (4096, u32::MAX),
    ] {
        create_refused(&mut tally, length, used, rule::BAD_POOL);
    }
    for pages in [1, 3] {
        create_refused(&mut tally, pages as usize * PAGE, pages, NO_PAGES);
    }
    tally
}

/// A random history over few keys: chains of versions, one or two levels.
pub fn history(seed: u64, root: u32, calls: usize) -> Tally {
    let mut tally = Tally::new(format!("history {seed}, root {root}"));
    let mut rng = Rng(seed);
    let mut oracle = Oracle::new(500);
    for op in vec![Op::Create; root as usize + 1] {
        oracle.run(&op);
    }
    let keys: Vec<i32> = (-41..=41).collect();
    for i in 0..calls {
        oracle.set_statuses(&random::statuses(&mut rng));
        oracle.set_current(random::current(&mut rng));
        oracle.run(&random::call(&mut rng));
        if i % 5 == 0 {
            ask(&mut tally, &mut rng, &mut oracle, &keys);
        }
    }
    tally
}

/// Rows of which a leaf holds one: three levels after 512 leaves.
pub fn deep_history(seed: u64, root: u32) -> Tally {
    let mut tally = Tally::new(format!("deep history {seed}, root {root}"));
    let mut rng = Rng(seed);
    let mut oracle = Oracle::new(1300);
    for op in vec![Op::Create; root as usize + 1] {
        oracle.run(&op);
    }
    let keys: Vec<i32> = (-150..150).collect();
    for i in 0..700 {
        let key = draw::pick(&mut rng, &keys);
        let data = vec![i as u8; 2100];
        oracle.run(&Op::InsertVersion(Version::live(key, rng.below(40), data)));
        oracle.run(&Op::Claim(
            draw::pick(&mut rng, &keys),
            random::snap(&mut rng),
        ));
        if i % 40 == 39 {
            ask(&mut tally, &mut rng, &mut oracle, &keys);
        }
    }
    tally
}

/// Trees built page by page.
pub fn built(levels: u32, widest: u64, trees: usize) -> Tally {
    let mut tally = Tally::new(format!("built, 2 to {} children", widest + 1));
    let mut rng = Rng(u64::from(levels) * 1000 + widest);
    for _ in 0..trees {
        let b = shapes::tree(&mut rng, levels, widest);
        let mut oracle = Oracle::from_bytes(&b.pool, b.state.used, b.state.root);
        ask(&mut tally, &mut rng, &mut oracle, &b.keys);
    }
    tally
}

/// Status lists of so many ids and states.
pub fn statuses_at_limits() -> Vec<Lists> {
    let sizes = [(65_536, 65_536), (65_537, 65_537), (3, 2), (2, 3), (0, 1)];
    let lists = sizes.map(|(ids, states)| Lists {
        ids: rising(ids),
        states: vec![2; states],
        current: Some(15),
    });
    lists.into()
}

pub fn rising(n: u64) -> Vec<u64> {
    (0..n).map(|i| 3 * i).collect()
}

/// Each call with an active list of so many transactions.
fn calls_with_active(rng: &mut Rng, keys: &[i32], active: u64) -> Vec<Call> {
    let mut calls = draw::calls(rng, keys);
    for call in &mut calls {
        if let Call::Lookup(_, s) | Call::Conflict(_, _, s) | Call::Visible(s) = call {
            s.active = rising(active);
        }
    }
    calls
}

/// Lists and pools at their limits, on a small tree.
pub fn limits() -> Tally {
    let mut tally = Tally::new("lists and pools at their limits");
    let mut rng = Rng(7);
    let b = shapes::tree(&mut rng, 2, 4);
    let n = b.pool.len();
    let mut pools: Vec<Vec<u8>> = Vec::new();
    for length in [0, 1, 4095, 4096, n - 1, n, n + 1] {
        let mut pool = b.pool.clone();
        pool.resize(length, 0);
        pools.push(pool);
    }
    let lists = statuses_at_limits();
    for (lists, pool) in lists.iter().flat_map(|l| pools.iter().map(move |p| (l, p))) {
        tally.pool();
        for active in [0, 4096, 4097] {
            for call in calls_with_active(&mut rng, &b.keys, active) {
                let given = Given {
                    pool,
                    state: b.state,
                    lists,
                    room: 9000,
                };
                tally.by_rule(&given, &call);
            }
        }
    }
    tally
}

/// A pool of 65,536 pages, and one page more; all are in use, or none. All but the
/// root are zeros.
pub fn largest() -> Tally {
    let mut tally = Tally::new("65,536 pages and one more");
    let mut rng = Rng(8);
    let lists = Lists::default();
    for pages in [65_536, 65_537] {
        tally.pool();
        let mut pool = vec![0; pages * PAGE];
        pool[0] = 1;
        for used in [0, 1, 65_536, 65_537] {
            let state = State { root: 0, used };
            for call in draw::calls(&mut rng, &[0]) {
                let given = Given {
                    pool: &pool,
                    state,
                    lists: &lists,
                    room: 10,
                };
                let expected = rule::outcome(&given, &call);
                let got = ours(&given, &call);
                tally.judge(got == expected, || {
                    format!("{call:?} on {pages} pages, {state:?}")
                });
            }
        }
    }
    tally
}
