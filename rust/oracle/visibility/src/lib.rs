//! The recorded answers of aerodb's visibility and conflict rules on drawn
//! cases. The program crates/test_visibility draws the same cases for the port's.
mod case;
mod draw;

use aerodb_opaque::oracle::Oracle;
use case::Case;
use draw::Draw;
use wire::{Ans, Engine, Op};

const CASES: usize = 120_000;

/// Digits in a line.
const WIDTH: usize = 100;

const ABOUT: &str = "\
# What aerodb's own code answers for each of 120000 cases: is_visible of one version, and
# has_write_conflict of a tree that holds just that version. Made in the folder rust with
#   cargo run --offline --release -p visibility > ../crates/test_visibility/stdin
#
# A digit is a case: 1 for visible, and 2 more for a conflict. The cases themselves are not recorded:
# case.rs in rust/oracle/visibility/src and case.rt in crates/test_visibility/src draw the same ones,
# each choice among n as x modulo n; x begins as 1 and becomes 48271 x modulo 2^31 - 1 at each choice.
";

/// A case and the digit for it.
pub struct Answered {
    case: Case,
    digit: usize,
}

/// The Rust's answers, with a tree's lookup held to its test of one version.
fn digit(c: &Case) -> usize {
    let mut o = Oracle::new(1);
    o.set_statuses(&c.statuses);
    for op in [Op::Create, Op::InsertVersion(c.version.clone())] {
        assert_eq!(o.run(&op), Ans::Done, "{c:?}");
    }
    let key = c.version.key;
    let visible = o.sees(&c.version, &c.snap);
    let found = o.run(&Op::Lookup(key, c.snap.clone()));
    assert_eq!(matches!(found, Ans::Found(_)), visible, "{c:?}");
    match o.run(&Op::Conflict(key, c.seen, c.snap.clone())) {
        Ans::Flag(conflict) => usize::from(visible) + 2 * usize::from(conflict),
        other => panic!("{other:?}: {c:?}"),
    }
}

/// All cases, the same at every run.
pub fn cases() -> Vec<Answered> {
    let mut draw = Draw::new();
    let next = |_| {
        let case = Case::draw(&mut draw);
        let digit = digit(&case);
        Answered { case, digit }
    };
    (0..CASES).map(next).collect()
}

/// The recorded list.
pub fn answers(cases: &[Answered]) -> String {
    let line = |some: &[Answered]| some.iter().map(|a| a.digit.to_string()).collect::<String>();
    let lines: Vec<String> = cases.chunks(WIDTH).map(line).collect();
    format!("{ABOUT}{}\n", lines.join("\n"))
}

/// What the program is to print: how often each answer and some of the ways to it occur.
pub fn counts(cases: &[Answered]) -> String {
    let answer = |digit| cases.iter().filter(|a| a.digit == digit).count();
    let way = |holds: fn(&Case) -> bool| cases.iter().filter(|a| holds(&a.case)).count();
    let lines = [
        (answer(0), "neither visible nor in conflict"),
        (answer(1), "visible"),
        (answer(2), "in conflict"),
        (answer(3), "visible and in conflict"),
        (way(|c| c.creator_state() == 3), "creator aborted"),
        (way(|c| c.creator_state() == 0), "creator unlisted"),
        (way(|c| c.is_current(c.version.creator)), "creator current"),
        (
            way(|c| c.version.deleter.is_some_and(|d| c.is_current(d))),
            "deleter current",
        ),
        (way(|c| c.version.creator == c.seen), "creator seen"),
        (0, "lists refused"),
        (0, "claim tests that differ from the conflict test"),
        (0, "characters that are no answer"),
    ];
    let lines = lines.map(|(n, what)| format!("{n} {what}\n")).concat();
    format!("{lines}{} cases, 0 differ\n", cases.len())
}
