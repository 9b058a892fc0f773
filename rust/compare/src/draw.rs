//! Random lists, snapshots and calls.
use crate::call::{Call, Lists};
use wire::random::{self, Rng};
use wire::{Op, Snap, Version};

pub fn pick<T: Copy>(rng: &mut Rng, from: &[T]) -> T {
    from[rng.below(from.len() as u64) as usize]
}

/// Transactions that the lists and trees are drawn from, besides small ones.
const LARGE: [u64; 4] = [u64::MAX, u64::MAX - 1, 1 << 63, 1 << 32];

pub fn transaction(rng: &mut Rng) -> u64 {
    if rng.chance(1, 12) {
        return pick(rng, &LARGE);
    }
    rng.below(40)
}

pub fn snap(rng: &mut Rng) -> Snap {
    let mut s = random::snap(rng);
    if rng.chance(1, 4) {
        s.xmax = transaction(rng);
    }
    if rng.chance(1, 24) {
        // Not rising.
        s.active.extend([7, 7]);
    }
    s
}

pub fn lists(rng: &mut Rng) -> Lists {
    let mut statuses = random::statuses(rng);
    if rng.chance(1, 3) {
        statuses.clear();
    }
    if rng.chance(1, 4) {
        statuses.push((1 << 63, 1 + rng.below(3) as u8));
    }
    if rng.chance(1, 24) {
        let bad = pick(rng, &[(u64::MAX, 0), (u64::MAX, 4), (0, 1)]);
        statuses.extend([bad, bad]);
    }
    Lists::of(&statuses, random::current(rng))
}

/// Each reading call with keys about those of a tree.
pub fn calls(rng: &mut Rng, keys: &[i32]) -> Vec<Call> {
    let key = |rng: &mut Rng| pick(rng, keys).saturating_add(pick(rng, &[0, 0, 0, 1, -1]));
    vec![
        Call::Check,
        Call::Lookup(key(rng), snap(rng)),
        Call::Lookup(key(rng), snap(rng)),
        Call::Find(key(rng)),
        Call::Conflict(key(rng), transaction(rng), snap(rng)),
        Call::Versions(key(rng)),
        Call::All,
        Call::Visible(snap(rng)),
        Call::PageNumbers,
    ]
}

pub fn version(rng: &mut Rng, key: i32, data: Vec<u8>) -> Version {
    Version {
        key,
        creator: transaction(rng),
        deleter: rng.chance(1, 3).then(|| transaction(rng)),
        ptr: rng
            .chance(1, 4)
            .then(|| (rng.draw() as u32, rng.draw() as u16)),
        data,
    }
}

/// A snapshot that a claim mostly takes.
fn claimant(rng: &mut Rng) -> Snap {
    let mut s = snap(rng);
    if s.current.is_none() && rng.chance(3, 4) {
        s.current = Some(1 + rng.below(40));
    }
    s
}

/// One of the eight writing calls.
fn change(rng: &mut Rng, kind: u8, key: i32, data: Vec<u8>) -> Op {
    match kind {
        0 => Op::Insert(key, data),
        1 => Op::InsertVersion(version(rng, key, data)),
        2 => Op::Stamp(key, snap(rng), transaction(rng)),
        3 => Op::PlainStamp(key, transaction(rng)),
        4 => Op::PlainDelete(key),
        5 => Op::Claim(key, claimant(rng)),
        6 => Op::Remove(key),
        _ => Op::Vacuum(transaction(rng)),
    }
}

/// A writing call of a history with rows of up to `longest` bytes. Few of them drop
/// versions, so that trees grow.
pub fn step(rng: &mut Rng, keys: &[i32], longest: u64) -> Op {
    let kind = match rng.below(60) {
        0..=16 => 0,
        17..=36 => 1,
        37..=42 => 2,
        43..=45 => 3,
        46..=48 => 4,
        49..=57 => 5,
        58 => 6,
        _ => 7,
    };
    let byte = rng.draw() as u8;
    let data = vec![byte; rng.below(longest + 1) as usize];
    let key = pick(rng, keys);
    change(rng, kind, key, data)
}

/// Each writing call with keys about those of a tree, and data from none to one byte
/// too many.
pub fn changes(rng: &mut Rng, keys: &[i32]) -> Vec<Op> {
    const LENGTHS: [usize; 10] = [0, 1, 7, 60, 700, 2000, 3400, 3900, 4051, 4052];
    let kinds = [0, 0, 1, 1, 2, 2, 3, 4, 5, 5, 6, 7];
    let calls = kinds.map(|kind| {
        let key = pick(rng, keys).saturating_add(pick(rng, &[0, 0, 0, 0, 1, -1]));
        let byte = rng.draw() as u8;
        let data = vec![byte; pick(rng, &LENGTHS)];
        change(rng, kind, key, data)
    });
    calls.into()
}
