//! A seeded source of numbers, and random calls for differential runs.
use crate::{Op, Snap, Version};

/// splitmix64
#[derive(Clone)]
pub struct Rng(pub u64);

impl Rng {
    pub fn draw(&mut self) -> u64 {
        self.0 = self.0.wrapping_add(0x9E37_79B9_7F4A_7C15);
        let mut z = self.0;
        z = (z ^ (z >> 30)).wrapping_mul(0xBF58_476D_1CE4_E5B9);
        z = (z ^ (z >> 27)).wrapping_mul(0x94D0_49BB_1331_11EB);
        z ^ (z >> 31)
    }

    pub fn below(&mut self, n: u64) -> u64 {
        self.draw() % n
    }

    pub fn chance(&mut self, num: u64, den: u64) -> bool {
        self.below(den) < num
    }

    fn maybe(&mut self, n: u64) -> Option<u64> {
        let value = self.below(n);
        self.chance(1, 2).then_some(value)
    }
}

/// Transactions are drawn below this number, so that snapshots cut through them.
const TRANSACTIONS: u64 = 40;

/// One Text column of up to 600 letters: data that the Rust's own `RowData`
/// reads, and long enough to divide leaves.
pub fn row_data(rng: &mut Rng) -> Vec<u8> {
    let len = rng.below(601) as u32;
    let mut data = vec![1, 0, 2];
    data.extend(len.to_le_bytes());
    data.extend((0..len).map(|_| b'a' + rng.below(26) as u8));
    data
}

pub fn snap(rng: &mut Rng) -> Snap {
    let xmax = rng.below(TRANSACTIONS);
    Snap {
        xmax,
        active: (0..xmax).filter(|_| rng.chance(1, 8)).collect(),
        current: rng.maybe(TRANSACTIONS),
    }
}

/// A rising status list over some of the transactions.
pub fn statuses(rng: &mut Rng) -> Vec<(u64, u8)> {
    let mut list = Vec::new();
    for transaction in 0..TRANSACTIONS {
        if rng.chance(1, 2) {
            list.push((transaction, 1 + rng.below(3) as u8));
        }
    }
    list
}

pub fn current(rng: &mut Rng) -> Option<u64> {
    rng.maybe(TRANSACTIONS)
}

fn version(rng: &mut Rng, key: i32) -> Version {
    Version {
        key,
        creator: rng.below(TRANSACTIONS),
        deleter: rng.maybe(TRANSACTIONS),
        ptr: rng.maybe(1 << 32).map(|p| (p as u32, rng.draw() as u16)),
        data: row_data(rng),
    }
}

/// Any call but create. Keys are few, so that chains of versions grow.
pub fn call(rng: &mut Rng) -> Op {
    let key = rng.below(80) as i32 - 40;
    match rng.below(24) {
        0..=5 => Op::Insert(key, row_data(rng)),
        6..=9 => Op::InsertVersion(version(rng, key)),
        10 => Op::Stamp(key, snap(rng), rng.below(TRANSACTIONS)),
        11 => Op::PlainStamp(key, rng.below(TRANSACTIONS)),
        12 => Op::PlainDelete(key),
        13 | 14 => Op::Claim(key, snap(rng)),
        15 => Op::Conflict(key, rng.below(TRANSACTIONS), snap(rng)),
        16 => Op::Remove(key),
        17 => Op::Find(key),
        18 => Op::Lookup(key, snap(rng)),
        19 => Op::Versions(key),
        20 => Op::Visible(snap(rng)),
        21 => Op::Vacuum(rng.below(TRANSACTIONS)),
        22 => Op::Scan(rng.below(9), rng.maybe(30), rng.chance(1, 2)),
        _ => [Op::All, Op::PageNumbers][rng.below(2) as usize].clone(),
    }
}
