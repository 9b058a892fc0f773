//! The calls: leaves at every fill level, divisions on both sides, mixed calls,
//! and internal pages up to their division.
use crate::data::Data;
use crate::recorder::{Head, Recorder};
use wire::MAX_DATA;
use wire::random::Rng;

const NONE: Data = Data { len: 0, seed: 1 };

fn data(len: usize, seed: usize) -> Data {
    Data {
        len,
        seed: (seed % 65_535) as u32 + 1,
    }
}

fn one(r: &mut Recorder, key: i32, creator: u64, data: Data) {
    r.insert(Head::live(key, creator), data);
    r.end();
}

/// A cell that is put in and gone again, in both ways.
fn come_and_go(r: &mut Recorder, level: usize) {
    let key = (level % 7) as i32 - 3;
    if r.has_room(3 * 20) {
        for creator in [5, 5, level as u64] {
            one(r, key, creator, data(1, level));
        }
        r.remove(key);
        r.end();
    }
    if r.has_room(20) {
        one(r, i32::MIN + level as i32, 3, data(1, level));
        r.vacuum(0);
        r.end();
    }
}

/// A stamp, another over it, and the vacuum that clears it.
fn stamp_and_clear(r: &mut Recorder, key: i32) {
    for deleter in [8, 3] {
        r.stamp(key, 20, deleter);
        r.end();
    }
    r.vacuum(20);
    r.end();
    r.vacuum(20);
    r.end();
}

/// Empty-data cells from none to a full leaf and the division after it.
fn levels(r: &mut Recorder) {
    r.history(3);
    r.remove(1);
    r.end();
    r.vacuum(20);
    r.end();
    let key = |i: usize| ((i * 97) % 211) as i32 * 20 - 2107;
    for level in 0..214 {
        come_and_go(r, level);
        one(r, key(level), 1, NONE);
        stamp_and_clear(r, key(level / 2));
    }
    one(r, 3000, 1, NONE);
    stamp_and_clear(r, 0);
}

/// A full leaf of empty-data cells, and one more at each of some places.
fn divisions(r: &mut Recorder) {
    for place in [0, 1, 106, 107, 108, 213, 214] {
        r.history(0);
        for i in 0..214 {
            r.insert(Head::live(2 * i - 214, 1), NONE);
        }
        r.end();
        one(r, 2 * place - 215, 1, NONE);
        r.remove(2 * place - 215);
        r.end();
        for key in [-214, 0, 212] {
            one(r, key, 2, data(3, 7));
            r.stamp(key, 20, 8);
            r.end();
        }
        r.vacuum(20);
        r.end();
    }
}

/// Leaves that a stamp divides: P6 and others, each cell stamped in turn.
fn stamp_divisions(r: &mut Recorder) {
    let leaves: [&[usize]; 5] = [
        &[2023, 2023],
        &[1002, 1002, 1002, 1002],
        &[3000, 500, 507],
        &[200, 3500, 321],
        &[0, 0, 3000, 0, 900, 70],
    ];
    for sizes in leaves {
        for stamped in 0..sizes.len() {
            r.history(0);
            for (i, &len) in sizes.iter().enumerate() {
                one(r, i as i32 - 2, 1, data(len, 100 * stamped + i));
            }
            for (key, deleter) in [(stamped, 8), (stamped, 9), (0, 6), (sizes.len() - 1, 4)] {
                r.stamp(key as i32 - 2, 20, deleter);
                r.end();
            }
            r.vacuum(20);
            r.end();
        }
    }
}

/// The largest data, P5, and new cells that fall on either side of large ones.
fn large(r: &mut Recorder) {
    let orders: [&[(i32, usize)]; 6] = [
        &[(5, MAX_DATA), (4, MAX_DATA), (6, MAX_DATA)],
        &[(5, MAX_DATA), (5, MAX_DATA), (-1, 0), (9, 1), (5, 0)],
        &[(1, 1981), (3, 81), (2, MAX_DATA), (4, 1)],
        &[(-5, 2000), (5, 2000), (0, 2000), (-9, 2000), (9, 2000)],
        &[(0, 4051), (0, 1), (0, 0), (0, 14), (1, 4050)],
        &[
            (2, 1300),
            (2, 1300),
            (2, 1300),
            (2, 1300),
            (1, 1300),
            (3, 1300),
        ],
    ];
    for order in orders {
        r.history(0);
        for (i, &(key, len)) in order.iter().enumerate() {
            one(r, key, i as u64 % 2, data(len, 31 * i));
            r.stamp(key, 20, 30 + i as u64);
            r.end();
        }
        r.remove(order[0].0);
        r.end();
    }
}

fn any_length(rng: &mut Rng) -> usize {
    match rng.below(16) {
        0..=4 => 0,
        5..=8 => 1,
        9..=12 => rng.below(120) as usize,
        13 | 14 => rng.below(1500) as usize,
        _ => MAX_DATA,
    }
}

fn any_head(rng: &mut Rng, keys: u64) -> Head {
    let transactions = [0, 1, 2, 3, 4, 5, 6, 8, 9, 12, 30, u64::MAX];
    let mut pick = || transactions[rng.below(12) as usize];
    let (creator, deleter) = (pick(), pick());
    let key = rng.below(keys) as i32 - (keys / 2) as i32;
    Head {
        key,
        creator,
        deleter: rng.chance(1, 3).then_some(deleter),
        ptr: rng
            .chance(1, 3)
            .then(|| (rng.draw() as u32, rng.draw() as u16)),
    }
}

/// Calls of every kind in any order, over a few keys and over many.
fn mixed(r: &mut Recorder) {
    for (seed, keys, calls) in [(1, 6, 200), (2, 40, 200), (3, 1000, 200), (4, 20, 200)] {
        let mut rng = Rng(seed);
        r.history(0);
        for i in 0..calls {
            let head = any_head(&mut rng, keys);
            match rng.below(20) {
                0..=11 => r.insert(head, data(any_length(&mut rng), i)),
                12..=16 => r.stamp(head.key, rng.below(40), 60 + i as u64),
                17 | 18 => r.remove(head.key),
                _ => r.vacuum(rng.below(40)),
            }
            r.end();
        }
    }
}

/// Leaves of one cell each, so that internal pages fill; `each` calls make a case.
fn fill(r: &mut Recorder, keys: impl Iterator<Item = i32>, each: usize) {
    r.history(0);
    for (i, key) in keys.enumerate() {
        r.insert(Head::live(key, 1), data(MAX_DATA, i));
        if i % each == each - 1 || i >= 509 {
            r.end();
        }
    }
}

/// Internal pages up to 510 keys, their division, and what is entered after it.
fn internal(r: &mut Recorder) {
    let spread = |i: i32| i * 211 % 517 * 8 - 2000;
    fill(r, (0..515).map(spread), 1);
    fill(r, (0..514).map(|i| 4 * i - 1000), 16);
    fill(r, (0..514).map(|i| 1000 - 4 * i), 16);
    let middle = [4 * 255 - 998, 4 * 255 - 999, 4 * 100 - 998, 4 * 400 - 998];
    fill(r, (0..511).map(|i| 4 * i - 1000).chain(middle), 16);
}

pub fn all(r: &mut Recorder) {
    levels(r);
    divisions(r);
    stamp_divisions(r);
    large(r);
    mixed(r);
    internal(r);
}
