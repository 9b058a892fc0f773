//! One call many times, for counting its instructions: see ../count.sh.
//!
//!     bench make FILE ROWS                a pool of so many rows, by the oracle
//!     bench fall FILE                     links its leaves anew, so that the keys fall
//!     bench CALL FILE ROWS N              N calls on it
//!     bench original CALL FILE ROWS N     the same by aerodb's code
use aerodb_opaque::oracle::Oracle;
use erbulonge::{Answer, NewVersion, Refusal, Snapshot, State, Statuses};
use std::fs;
use std::hint::black_box;
use wire::{ABSENT, Ans, Engine, Op, PAGE, Snap, Version, page};

/// Has no common factor with the numbers of rows: its multiples meet every key.
const STRIDE: u64 = 7919;
/// One column of 21 letters, as aerodb writes it.
const DATA: [u8; 28] = *b"\x01\0\x02\x15\0\0\0abcdefghijklmnopqrstu";
const CREATORS: u64 = 50;
/// Of a second version.
const UPDATER: u64 = 60;
const ABORTED: u8 = 3;

const SNAPSHOT: Snapshot = Snapshot {
    xmax: 100,
    active: &[12, 40],
    current: Some(DELETER),
};
const DELETER: u64 = 15;

fn creator(i: u64) -> u64 {
    1 + i % CREATORS
}

fn key(i: u64, rows: u64) -> i32 {
    (i * STRIDE % rows) as i32
}

/// Root and pages in use, then the pool.
struct File(Vec<u8>);

impl File {
    /// A tree on page 1, each row by one of the creators 1 to 50 in turn.
    fn make(rows: u64) -> Self {
        let mut oracle = Oracle::new(2000);
        oracle.run(&Op::Create);
        oracle.run(&Op::Create);
        for i in 0..rows {
            let row = Version::live(key(i, rows), creator(i), DATA.into());
            assert_eq!(oracle.run(&Op::InsertVersion(row)), Ans::Done);
        }
        let mut file = oracle.root().to_le_bytes().to_vec();
        file.extend(oracle.in_use().to_le_bytes());
        file.extend(oracle.pool());
        File(file)
    }

    fn number(&self, at: usize) -> u32 {
        u32::from_le_bytes(self.0[at..at + 4].try_into().unwrap())
    }

    fn state(&self) -> State {
        State {
            root: self.number(0),
            used: self.number(4),
        }
    }

    fn pool(&self) -> &[u8] {
        &self.0[8..]
    }

    fn pool_mut(&mut self) -> &mut [u8] {
        &mut self.0[8..]
    }

    /// The first leaf stays the first; the others follow from the last to the second.
    fn fall(mut self) -> Self {
        let mut chain = page::leaves(self.pool(), self.state().root);
        chain[1..].reverse();
        chain.push(0);
        for pair in chain.windows(2) {
            let at = 8 + pair[0] as usize * PAGE + 8;
            self.0[at..at + 4].copy_from_slice(&pair[1].to_le_bytes());
        }
        self
    }
}

fn read(name: &str, key: i32, st: State, pool: &[u8], out: &mut [u8]) -> Answer<usize> {
    let none = Statuses::default();
    match name {
        "lookup" => st
            .find_visible(pool, key, &SNAPSHOT, &none)
            .map(|found| found.start),
        "plain" => st.find(pool, key, None, &none).map(|found| found.start),
        "conflict" => st
            .has_write_conflict(pool, key, &SNAPSHOT, 1)
            .map(usize::from),
        "versions" => st.versions_of(pool, key, out),
        "all" => st.all_versions(pool, out),
        "visible" => st.scan_visible(pool, &SNAPSHOT, &none, out),
        "numbers" => st.page_numbers(pool, out),
        "check" => st.check(pool).map(usize::from),
        _ => panic!("no call {name}"),
    }
}

/// Call `i` of the writing ones, if it is one; vacuum's number of versions dropped and
/// remove's are thrown away.
fn write(name: &str, i: u64, key: i32, st: State, pool: &mut [u8]) -> Option<Answer<State>> {
    let none = Statuses::default();
    let version = NewVersion {
        creator: UPDATER,
        deleter: None,
        pointer: None,
        data: &DATA,
    };
    let same = |dropped: Answer<usize>| dropped.map(|_| st);
    Some(match name {
        "insert" => st.insert(pool, key, Some(creator(i)), &none, &DATA),
        "insert-version" => st.insert_version(pool, key, &version),
        "stamp" => st.mark_deleted_visible(pool, key, &SNAPSHOT, &none, DELETER),
        "plain-stamp" => st.mark_deleted(pool, key, Some(DELETER), &none, DELETER),
        "plain-delete" => st.delete(pool, key, Some(DELETER), &none),
        "claim" => st.claim(pool, key, &SNAPSHOT, &none),
        "remove" => same(st.remove_all_versions(pool, key)),
        "vacuum" => same(st.vacuum_deleted_versions(pool, &none, 100)),
        "vacuum-dropping" => {
            let (ids, states) = (&[creator(i)], &[ABORTED]);
            same(st.vacuum_deleted_versions(pool, &Statuses { ids, states }, 100))
        }
        _ => return None,
    })
}

fn run(name: &str, mut file: File, rows: u64, calls: u64) {
    let mut st = file.state();
    let mut out = vec![0; 2 * PAGE * st.used as usize];
    for i in 0..calls {
        let key = key(i, rows);
        match black_box(write(name, i, key, st, file.pool_mut())) {
            Some(Ok(next)) => st = next,
            Some(Err(refusal)) => assert_eq!(refusal, Refusal::Absent),
            None => drop(black_box(read(name, key, st, file.pool(), &mut out))),
        }
    }
}

/// The calls whose answers the oracle hands on without copying rows.
fn op(name: &str, key: i32, snap: &Snap) -> Op {
    match name {
        "lookup" => Op::Lookup(key, snap.clone()),
        "plain" => Op::Find(key),
        "insert" => Op::Insert(key, DATA.into()),
        "insert-version" => Op::InsertVersion(Version::live(key, UPDATER, DATA.into())),
        "stamp" => Op::Stamp(key, snap.clone(), DELETER),
        "plain-stamp" => Op::PlainStamp(key, DELETER),
        "plain-delete" => Op::PlainDelete(key),
        "claim" => Op::Claim(key, snap.clone()),
        "remove" => Op::Remove(key),
        "vacuum" | "vacuum-dropping" => Op::Vacuum(100),
        _ => panic!("no call {name} of the original"),
    }
}

/// aerodb's code with the frames and latches of its pager.
fn run_original(name: &str, file: &File, rows: u64, calls: u64) {
    let State { root, used } = file.state();
    let mut aerodb = aerodb_latched::oracle::Oracle::from_bytes(file.pool(), used, root);
    let snap = Snap {
        xmax: SNAPSHOT.xmax,
        active: SNAPSHOT.active.into(),
        current: SNAPSHOT.current,
    };
    for i in 0..calls {
        match name {
            "insert" => aerodb.set_current(Some(creator(i))),
            "plain-stamp" | "plain-delete" => aerodb.set_current(Some(DELETER)),
            "vacuum-dropping" => aerodb.set_statuses(&[(creator(i), ABORTED)]),
            _ => {}
        }
        if let Ans::Refused(number) = black_box(aerodb.run(&op(name, key(i, rows), &snap))) {
            assert_eq!(number, ABSENT);
        }
    }
}

fn main() {
    let words: Vec<String> = std::env::args().skip(1).collect();
    let words: Vec<&str> = words.iter().map(String::as_str).collect();
    let read = |file: &str| File(fs::read(file).unwrap());
    let number = |word: &str| -> u64 { word.parse().unwrap() };
    match words[..] {
        ["make", file, rows] => fs::write(file, File::make(number(rows)).0).unwrap(),
        ["fall", file] => fs::write(file, read(file).fall().0).unwrap(),
        [name, file, rows, n] => run(name, read(file), number(rows), number(n)),
        ["original", name, file, rows, n] => {
            run_original(name, &read(file), number(rows), number(n))
        }
        _ => panic!("bench make FILE ROWS, bench fall FILE, or bench [original] CALL FILE ROWS N"),
    }
}
