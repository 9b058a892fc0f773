//! The three variants are one program: on random histories of data that all of
//! them can read, they give the same answers and the same pages.
use wire::random::{self, Rng};
use wire::*;

const PAGES: u32 = 400;
const CALLS: usize = 1200;

fn engines(root: u32) -> [Box<dyn Engine>; 3] {
    let mut engines: [Box<dyn Engine>; 3] = [
        Box::new(aerodb_rows::oracle::Oracle::new(PAGES)),
        Box::new(aerodb_opaque::oracle::Oracle::new(PAGES)),
        Box::new(aerodb_latched::oracle::Oracle::new(PAGES)),
    ];
    for e in &mut engines {
        for _ in 0..=root {
            assert_eq!(e.run(&Op::Create), Ans::Done);
        }
    }
    engines
}

/// The latched variant is the bare Rust, which lets transaction 0 claim.
fn refused_by_port_only(op: &Op) -> bool {
    matches!(op, Op::Claim(_, s) if s.current == Some(0))
}

fn compare(seed: u64, root: u32) -> u32 {
    let mut rng = Rng(seed);
    let [mut first, mut others @ ..] = engines(root);
    for _ in 0..CALLS {
        let statuses = random::statuses(&mut rng);
        let current = random::current(&mut rng);
        let op = random::call(&mut rng);
        if refused_by_port_only(&op) {
            continue;
        }
        first.set_statuses(&statuses);
        first.set_current(current);
        let answer = first.run(&op);
        for e in &mut others {
            e.set_statuses(&statuses);
            e.set_current(current);
            assert_eq!(e.run(&op), answer, "{}: {op:?}", e.name());
            assert_eq!((e.root(), e.in_use()), (first.root(), first.in_use()));
        }
    }
    for e in &others {
        assert!(e.pool() == first.pool(), "{}: pool", e.name());
    }
    first.in_use()
}

#[test]
fn variants_agree() {
    for seed in 1..=3 {
        for root in [0, 3] {
            assert!(
                compare(seed, root) > 10 + root,
                "the tree must have divided"
            );
        }
    }
}
