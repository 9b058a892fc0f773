//! One writing call, and what comes of it on our side.
use crate::call::{Given, snap, start_words, statuses};
use erbulonge::calls::{self, Words};
use erbulonge::{NewVersion, State};
use std::hint::black_box;
use wire::{Op, PAGE, Snap};

pub fn snapshot(op: &Op) -> Option<&Snap> {
    match op {
        Op::Stamp(_, s, _) | Op::Claim(_, s) => Some(s),
        _ => None,
    }
}

pub fn takes_statuses(op: &Op) -> bool {
    !matches!(op, Op::InsertVersion(_) | Op::Remove(_))
}

/// The numbers that this call may answer.
fn numbers(op: &Op) -> &'static [u8] {
    match op {
        Op::Insert(..) => &[0, 1, 4, 5, 2, 6, 9, 11, 10],
        Op::InsertVersion(_) => &[0, 1, 5, 2, 9, 11, 10],
        Op::Stamp(..) => &[0, 1, 3, 4, 2, 8, 11, 10],
        Op::PlainStamp(..) | Op::PlainDelete(_) => &[0, 1, 4, 2, 8, 11, 10],
        Op::Claim(..) => &[0, 1, 3, 4, 2, 8, 7, 11, 10],
        Op::Remove(_) => &[0, 1, 2],
        Op::Vacuum(_) => &[0, 1, 4, 2],
        _ => unreachable!("no writing call: {op:?}"),
    }
}

/// All that a writing call may change.
#[derive(Clone, PartialEq, Eq)]
pub struct Changed {
    pub number: u8,
    pub words: Words,
    pub pool: Vec<u8>,
}

impl Changed {
    /// Before the call.
    pub fn start(pool: &[u8]) -> Self {
        Changed {
            number: 0,
            words: start_words(),
            pool: pool.to_vec(),
        }
    }

    /// Root and pages in use that the call gave, or that it was given.
    pub fn state(&self, op: &Op, given: State) -> State {
        match (self.number, op) {
            (0, Op::Remove(_) | Op::Vacuum(_)) | (1.., _) => given,
            _ => State {
                root: self.words[0] as u32,
                used: self.words[1] as u32,
            },
        }
    }

    /// A number of the call's own; if it is a refusal, no byte and no word is
    /// another, and if it is Done, no byte outside of the pages in use after it and
    /// no word after those that it gives.
    pub fn keeps_to_its_own(&self, given: &Given, op: &Op) -> bool {
        let state = self.state(op, given.state);
        let words = match (self.number, op) {
            (1.., _) => 0,
            (0, Op::Remove(_) | Op::Vacuum(_)) => 1,
            _ => 2,
        };
        let may_change = match self.number {
            0 => state.used as usize * PAGE,
            _ => 0,
        };
        numbers(op).contains(&self.number)
            && state.used >= given.state.used
            && self.words[words..] == start_words()[words..]
            && self.pool.len() == given.pool.len()
            && may_change <= self.pool.len()
            && self.pool[may_change..] == given.pool[may_change..]
    }
}

/// Our side's outcome.
pub fn ours(given: &Given, op: &Op) -> Changed {
    let mut c = Changed::start(given.pool);
    let (pool, words) = (black_box(&mut c.pool[..]), &mut c.words);
    let (st, current) = (given.state, given.lists.current);
    let lists = &statuses(given.lists);
    c.number = match op {
        Op::Insert(k, data) => calls::insert(pool, st, *k, current, lists, data, words),
        Op::InsertVersion(v) => {
            let version = NewVersion {
                creator: v.creator,
                deleter: v.deleter,
                pointer: v.ptr,
                data: &v.data,
            };
            calls::insert_version(pool, st, v.key, &version, words)
        }
        Op::Stamp(k, s, d) => calls::mark_deleted_visible(pool, st, *k, &snap(s), lists, *d, words),
        Op::PlainStamp(k, d) => calls::mark_deleted(pool, st, *k, current, lists, *d, words),
        Op::PlainDelete(k) => calls::delete(pool, st, *k, current, lists, words),
        Op::Claim(k, s) => calls::claim(pool, st, *k, &snap(s), lists, words),
        Op::Remove(k) => calls::remove_all_versions(pool, st, *k, words),
        Op::Vacuum(bound) => calls::vacuum_deleted_versions(pool, st, lists, *bound, words),
        _ => unreachable!("no writing call: {op:?}"),
    };
    c
}
