//! The cases: a snapshot, a status list, one version and a seen creator.
//! crates/test_visibility/src/case.rt draws the same ones, choice by choice.
use crate::draw::Draw;
use std::collections::BTreeSet;
use wire::{Snap, Version};

const MAX: u64 = u64::MAX;

/// As many transactions as a case can have.
const MOST: usize = 13;

const BOUNDS: [u64; 11] = [0, 1, 2, 10, 12, 16, 20, 41, 1 << 63, MAX - 1, MAX];

#[derive(Debug)]
pub struct Case {
    pub snap: Snap,
    pub statuses: Vec<(u64, u8)>,
    pub version: Version,
    pub seen: u64,
}

/// The transactions of a case, rising: some that are always there, and those about the bound.
fn universe(xmax: u64) -> Vec<u64> {
    let mut all = BTreeSet::from([0, 1, 2, 5, 9, 12, 15, 40, MAX - 1, MAX]);
    all.extend([xmax.saturating_sub(1), xmax, xmax.saturating_add(1)]);
    all.into_iter().collect()
}

/// Each with the same chance, of 0 to 3 in 4.
fn some_of(draw: &mut Draw, universe: &[u64]) -> Vec<u64> {
    let chance = draw.below(4);
    let mut list = universe.to_vec();
    list.retain(|_| draw.below(4) < chance);
    list
}

impl Case {
    pub fn draw(draw: &mut Draw) -> Self {
        let xmax = draw.one_of(&BOUNDS);
        let universe = universe(xmax);
        let active = some_of(draw, &universe);
        let listed = some_of(draw, &universe);
        let states: [u8; MOST] = std::array::from_fn(|_| 1 + draw.below(3) as u8);
        let statuses = listed.into_iter().zip(states).collect();
        // A number is often one that was drawn before it.
        let tx = draw.one_of(&universe);
        let creator = draw.either(&universe, &[xmax, tx]);
        let deleter = draw.either(&universe, &[xmax, tx, creator]);
        let seen = draw.either(&universe, &[tx, creator, deleter]);
        let current = (draw.below(4) > 0).then_some(tx);
        let deleter = (draw.below(3) > 0).then_some(deleter);
        Case {
            snap: Snap {
                xmax,
                active,
                current,
            },
            statuses,
            version: Version {
                deleter,
                ..Version::live(7, creator, vec![])
            },
            seen,
        }
    }

    /// The creator's state in the status list, 0 where it is not there.
    pub fn creator_state(&self) -> u8 {
        let entry = self
            .statuses
            .iter()
            .find(|&&(t, _)| t == self.version.creator);
        entry.map_or(0, |&(_, state)| state)
    }

    pub fn is_current(&self, tx: u64) -> bool {
        self.snap.current == Some(tx)
    }
}
