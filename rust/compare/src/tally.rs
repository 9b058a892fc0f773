//! Counts of one kind of pools, and what is told of a difference.
use crate::call::{Call, Given, Outcome, ours};
use crate::change::{self, Changed};
use crate::rule;
use std::fmt::Debug;
use std::hint::black_box;
use std::sync::atomic::{AtomicBool, AtomicU64, Ordering::Relaxed};
use std::time::Duration;
use wire::text::hex;
use wire::{Op, PAGE};

/// Calls made so far, of all kinds.
static CALLS: AtomicU64 = AtomicU64::new(0);
const PATIENCE: Duration = Duration::from_secs(60);
const TOLD: u64 = 5;

/// Ends the program if a call does not end.
pub fn watch() {
    std::thread::spawn(|| {
        loop {
            let before = CALLS.load(Relaxed);
            std::thread::sleep(PATIENCE);
            if CALLS.load(Relaxed) == before {
                println!("call {before} has not ended in {PATIENCE:?}");
                std::process::exit(1);
            }
        }
    });
}

pub struct Tally {
    kind: String,
    pools: u64,
    pub compared: u64,
    pub differ: u64,
    answers: [u64; 13],
    /// The fewest and the most levels, where they are counted.
    levels: Option<(usize, usize)>,
}

fn shown(o: &Outcome) -> String {
    let start = &o.out[..o.out.len().min(64)];
    format!("{} {:x?} {}..", o.number, o.words, hex(start))
}

/// A writing call, its data cut short.
fn shown_op(op: &Op) -> String {
    format!("{op:?}").chars().take(400).collect()
}

/// Page and offset of the first byte that is not the same.
fn first_difference(a: &[u8], b: &[u8]) -> Option<(usize, usize)> {
    let at = a.iter().zip(b).position(|(a, b)| a != b)?;
    Some((at / PAGE, at % PAGE))
}

/// Keeps the pool of the first difference in a file.
fn saved(pool: &[u8]) -> String {
    static SAVED: AtomicBool = AtomicBool::new(false);
    let place = std::env::temp_dir().join("erbulonge-differs.pool");
    if SAVED.swap(true, Relaxed) || std::fs::write(&place, pool).is_err() {
        return String::new();
    }
    format!(", its bytes are in {}", place.display())
}

impl Tally {
    pub fn new(kind: impl Into<String>) -> Self {
        Tally {
            kind: kind.into(),
            pools: 0,
            compared: 0,
            differ: 0,
            answers: [0; 13],
            levels: None,
        }
    }

    pub fn levels(&mut self, n: usize) {
        let (fewest, most) = self.levels.unwrap_or((n, n));
        self.levels = Some((fewest.min(n), most.max(n)));
    }

    pub fn pool(&mut self) {
        self.pools += 1;
    }

    /// Counts an answer's number.
    pub fn answered(&mut self, number: u8) {
        CALLS.fetch_add(1, Relaxed);
        self.answers[number.min(12) as usize] += 1;
    }

    /// Counts a comparison, and tells what it was about if it failed.
    pub fn judge(&mut self, same: bool, about: impl FnOnce() -> String) {
        self.compared += 1;
        if same {
            return;
        }
        self.differ += 1;
        if self.differ <= TOLD {
            println!("DIFFERS in {}: {}", self.kind, about());
        }
    }

    pub fn equal<T: PartialEq + Debug>(&mut self, ours: &T, theirs: &T, call: &Call) {
        self.judge(ours == theirs, || {
            format!("{call:?}\n  ours   {ours:?}\n  theirs {theirs:?}")
        });
    }

    /// Our outcome against an expected one: number, words, output and pool.
    pub fn outcome(&mut self, given: &Given, call: &Call, expected: &Outcome) -> Outcome {
        let before = given.pool.to_vec();
        let got = ours(given, call);
        self.answered(got.number);
        let kept = black_box(given.pool) == before;
        let known = call.numbers().contains(&got.number);
        self.judge(got == *expected && kept && known, || {
            let (state, lists, room) = (given.state, given.lists, given.room);
            let saved = saved(&before);
            let (got, expected) = (shown(&got), shown(expected));
            format!(
                "{call:?} {state:?} {lists:?} room {room}\n  pool kept {kept}{saved}\n  ours     {got}\n  expected {expected}"
            )
        });
        got
    }

    /// Our outcome against that of the rules.
    pub fn by_rule(&mut self, given: &Given, call: &Call) -> Outcome {
        self.outcome(given, call, &rule::outcome(given, call))
    }

    /// Our outcome of a writing call against that of the rules.
    pub fn change_by_rule(&mut self, given: &Given, op: &Op) -> Changed {
        let expected = rule::writing::changed(given, op);
        let got = change::ours(given, op);
        self.answered(got.number);
        let keeps = got.keeps_to_its_own(given, op);
        self.judge(got == expected && keeps, || {
            let (state, lists) = (given.state, given.lists);
            let (op, saved) = (shown_op(op), saved(given.pool));
            let (ours, theirs) = (&got.words[..2], &expected.words[..2]);
            let byte = first_difference(&got.pool, &expected.pool);
            format!(
                "{op} {state:?} {lists:?}{saved}\n  keeps to its own {keeps}, first byte that differs {byte:?}\n  ours     {} {ours:x?}\n  expected {} {theirs:x?}",
                got.number, expected.number
            )
        });
        got
    }

    /// The two sides' answers of a writing call, and whether all else is the same.
    pub fn change(&mut self, op: &Op, ours: &dyn Debug, theirs: &dyn Debug, same: bool) {
        self.judge(same, || {
            format!("{}\n  ours   {ours:?}\n  theirs {theirs:?}", shown_op(op))
        });
    }

    /// The kind's line: pools, comparisons, and how often each number was answered.
    pub fn line(&self) -> String {
        let levels = self.levels.map_or(String::new(), |(fewest, most)| {
            format!(", {fewest} to {most} levels")
        });
        let answers: Vec<String> = (0..13)
            .filter(|&n| self.answers[n] > 0)
            .map(|n| format!("{n}: {}", self.answers[n]))
            .collect();
        format!(
            "{:<44} {:>6} pools {:>8} compared {:>3} differ   {}",
            format!("{}{levels}", self.kind),
            self.pools,
            self.compared,
            self.differ,
            answers.join(", ")
        )
    }
}
