//! One reading call with all it is given, and what comes of it on our side.
use erbulonge::calls::{self, Words};
use erbulonge::{Snapshot, State, Statuses};
use std::hint::black_box;
use wire::{Op, Snap};

#[derive(Debug, Clone)]
pub enum Call {
    Check,
    Lookup(i32, Snap),
    Find(i32),
    Conflict(i32, u64, Snap),
    Versions(i32),
    All,
    Visible(Snap),
    PageNumbers,
}

impl Call {
    /// The oracle's call, which it has for all but check.
    pub fn op(&self) -> Option<Op> {
        Some(match self.clone() {
            Call::Check => return None,
            Call::Lookup(key, s) => Op::Lookup(key, s),
            Call::Find(key) => Op::Find(key),
            Call::Conflict(key, seen, s) => Op::Conflict(key, seen, s),
            Call::Versions(key) => Op::Versions(key),
            Call::All => Op::All,
            Call::Visible(s) => Op::Visible(s),
            Call::PageNumbers => Op::PageNumbers,
        })
    }

    pub fn snapshot(&self) -> Option<&Snap> {
        match self {
            Call::Lookup(_, s) | Call::Conflict(_, _, s) | Call::Visible(s) => Some(s),
            _ => None,
        }
    }

    pub fn takes_statuses(&self) -> bool {
        matches!(self, Call::Lookup(..) | Call::Find(_) | Call::Visible(_))
    }

    /// The numbers that this call may answer.
    pub fn numbers(&self) -> &'static [u8] {
        match self {
            Call::Check => &[0, 1],
            Call::Lookup(..) => &[0, 1, 3, 4, 2, 8],
            Call::Find(_) => &[0, 1, 4, 2, 8],
            Call::Conflict(..) => &[0, 1, 3, 2],
            Call::Versions(_) | Call::All | Call::PageNumbers => &[0, 1, 2, 12],
            Call::Visible(_) => &[0, 1, 3, 4, 2, 12],
        }
    }
}

/// What the caller holds besides pool and tree.
#[derive(Debug, Clone, Default)]
pub struct Lists {
    pub ids: Vec<u64>,
    pub states: Vec<u8>,
    /// Of the calls that take no snapshot.
    pub current: Option<u64>,
}

impl Lists {
    pub fn of(statuses: &[(u64, u8)], current: Option<u64>) -> Self {
        let (ids, states) = statuses.iter().copied().unzip();
        Lists {
            ids,
            states,
            current,
        }
    }

    pub fn pairs(&self) -> Vec<(u64, u8)> {
        let states = self.states.iter().copied();
        self.ids.iter().copied().zip(states).collect()
    }
}

#[derive(Debug, Clone)]
pub struct Given<'a> {
    pub pool: &'a [u8],
    pub state: State,
    pub lists: &'a Lists,
    /// Bytes of the output.
    pub room: usize,
}

/// No call writes such words.
pub fn start_words() -> Words {
    std::array::from_fn(|i| 0x5EED_0000_0000_0000 + i as u64)
}

/// All that a call may change. It starts with contents that no call writes.
#[derive(Clone, PartialEq, Eq)]
pub struct Outcome {
    pub number: u8,
    pub words: Words,
    pub out: Vec<u8>,
}

impl Outcome {
    /// Before the call.
    pub fn start(room: usize) -> Self {
        Outcome {
            number: 0,
            words: start_words(),
            out: (0..room).map(|i| 0x80 | (i * 37) as u8).collect(),
        }
    }
}

/// The snapshot and the status list as our side takes them.
pub fn snap(s: &Snap) -> Snapshot<'_> {
    Snapshot {
        xmax: s.xmax,
        active: &s.active,
        current: s.current,
    }
}

pub fn statuses(lists: &Lists) -> Statuses<'_> {
    Statuses {
        ids: &lists.ids,
        states: &lists.states,
    }
}

/// Our side's outcome.
pub fn ours(given: &Given, call: &Call) -> Outcome {
    let mut o = Outcome::start(given.room);
    let (pool, st) = (black_box(given.pool), given.state);
    let (out, words) = (&mut o.out, &mut o.words);
    let lists = statuses(given.lists);
    o.number = match call {
        Call::Check => calls::check(pool, st, words),
        Call::Lookup(k, s) => calls::find_visible(pool, st, *k, &snap(s), &lists, words),
        Call::Find(k) => calls::find(pool, st, *k, given.lists.current, &lists, words),
        Call::Conflict(k, c, s) => calls::has_write_conflict(pool, st, *k, &snap(s), *c, words),
        Call::Versions(k) => calls::versions_of(pool, st, *k, out, words),
        Call::All => calls::all_versions(pool, st, out, words),
        Call::Visible(s) => calls::scan_visible(pool, st, &snap(s), &lists, out, words),
        Call::PageNumbers => calls::page_numbers(pool, st, out, words),
    };
    o
}
