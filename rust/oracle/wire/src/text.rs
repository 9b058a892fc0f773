//! The text of a history: a line for a call, a line for its answer. Numbers
//! are decimal, byte strings hex, and `-` is an absent number or no bytes.
use crate::{Ans, Op, Snap, Version, records};

pub fn hex(bytes: &[u8]) -> String {
    if bytes.is_empty() {
        return "-".into();
    }
    bytes.iter().map(|x| format!("{x:02x}")).collect()
}

fn unhex(s: &str) -> Vec<u8> {
    let digits = s.trim_start_matches('-').as_bytes();
    let digit = |d: u8| (d as char).to_digit(16).expect("a hex digit") as u8;
    digits
        .chunks_exact(2)
        .map(|pair| digit(pair[0]) << 4 | digit(pair[1]))
        .collect()
}

fn opt(o: Option<u64>) -> String {
    o.map_or("-".into(), |v| v.to_string())
}

fn unopt(s: &str) -> Option<u64> {
    (s != "-").then(|| s.parse().unwrap())
}

fn snap_text(s: &Snap) -> String {
    let active: Vec<String> = s.active.iter().map(u64::to_string).collect();
    let active = if active.is_empty() {
        "-".into()
    } else {
        active.join(",")
    };
    format!("{} {} {}", s.xmax, active, opt(s.current))
}

fn snap_parse(w: &[&str]) -> Snap {
    Snap {
        xmax: w[0].parse().unwrap(),
        active: w[1].split(',').filter_map(unopt).collect(),
        current: unopt(w[2]),
    }
}

fn version_text(v: &Version) -> String {
    let ptr = v.ptr.map_or("-".to_string(), |(a, b)| format!("{a}:{b}"));
    let deleter = opt(v.deleter);
    format!("{} {} {deleter} {ptr} {}", v.key, v.creator, hex(&v.data))
}

fn version_parse(w: &[&str]) -> Version {
    Version {
        key: w[0].parse().unwrap(),
        creator: w[1].parse().unwrap(),
        deleter: unopt(w[2]),
        ptr: w[3]
            .split_once(':')
            .map(|(page, slot)| (page.parse().unwrap(), slot.parse().unwrap())),
        data: unhex(w[4]),
    }
}

pub fn of_call(op: &Op) -> String {
    match op {
        Op::Create => "create".into(),
        Op::Insert(k, d) => format!("insert {k} {}", hex(d)),
        Op::InsertVersion(v) => format!("insert_version {}", version_text(v)),
        Op::Stamp(k, s, d) => format!("stamp {k} {} {d}", snap_text(s)),
        Op::PlainStamp(k, d) => format!("plain_stamp {k} {d}"),
        Op::PlainDelete(k) => format!("plain_delete {k}"),
        Op::Claim(k, s) => format!("claim {k} {}", snap_text(s)),
        Op::Conflict(k, c, s) => format!("conflict {k} {c} {}", snap_text(s)),
        Op::Remove(k) => format!("remove {k}"),
        Op::Find(k) => format!("find {k}"),
        Op::Lookup(k, s) => format!("lookup {k} {}", snap_text(s)),
        Op::Versions(k) => format!("versions {k}"),
        Op::All => "all".into(),
        Op::Visible(s) => format!("visible {}", snap_text(s)),
        Op::Vacuum(b) => format!("vacuum {b}"),
        Op::PageNumbers => "page_numbers".into(),
        Op::Scan(s, l, d) => format!("scan {s} {} {}", opt(*l), *d as u8),
    }
}

/// The call of a line that `of_call` wrote.
pub fn to_call(line: &str) -> Option<Op> {
    let w: Vec<&str> = line.split(' ').collect();
    let k = |i: usize| w[i].parse::<i32>().unwrap();
    let n = |i: usize| w[i].parse::<u64>().unwrap();
    Some(match w[0] {
        "create" => Op::Create,
        "insert" => Op::Insert(k(1), unhex(w[2])),
        "insert_version" => Op::InsertVersion(version_parse(&w[1..])),
        "stamp" => Op::Stamp(k(1), snap_parse(&w[2..5]), n(5)),
        "plain_stamp" => Op::PlainStamp(k(1), n(2)),
        "plain_delete" => Op::PlainDelete(k(1)),
        "claim" => Op::Claim(k(1), snap_parse(&w[2..5])),
        "conflict" => Op::Conflict(k(1), n(2), snap_parse(&w[3..6])),
        "remove" => Op::Remove(k(1)),
        "find" => Op::Find(k(1)),
        "lookup" => Op::Lookup(k(1), snap_parse(&w[2..5])),
        "versions" => Op::Versions(k(1)),
        "all" => Op::All,
        "visible" => Op::Visible(snap_parse(&w[1..4])),
        "vacuum" => Op::Vacuum(n(1)),
        "page_numbers" => Op::PageNumbers,
        "scan" => Op::Scan(n(1), unopt(w[2]), w[3] == "1"),
        _ => return None,
    })
}

/// FNV-1a, 64 bits: long listings are told by length and digest.
fn digest(bytes: &[u8]) -> u64 {
    bytes.iter().fold(0xcbf2_9ce4_8422_2325, |h, &x| {
        (h ^ x as u64).wrapping_mul(0x0000_0100_0000_01b3)
    })
}

fn listing(name: &str, count: usize, bytes: &[u8]) -> String {
    format!("{name} {count} {} {:016x}", bytes.len(), digest(bytes))
}

pub fn of_answer(a: &Ans) -> String {
    match a {
        Ans::Done => "done".into(),
        Ans::Flag(b) => format!("flag {}", *b as u8),
        Ans::Found(v) => format!("found {}", version_text(v)),
        Ans::List(vs) => listing("list", vs.len(), &records::of_versions(vs)),
        Ans::Pages(ps) => listing("pages", ps.len(), &records::of_pages(ps)),
        Ans::Count(n) => format!("count {n}"),
        Ans::Refused(n) => format!("refused {n}"),
    }
}
