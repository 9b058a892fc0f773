//! The text of a history and the records of a listing can be read back.
use wire::random::{self, Rng};
use wire::*;

#[test]
fn calls_are_read_back() {
    let mut rng = Rng(1);
    for _ in 0..2000 {
        let op = random::call(&mut rng);
        assert_eq!(text::to_call(&text::of_call(&op)), Some(op));
    }
    assert_eq!(text::to_call("create"), Some(Op::Create));
    assert_eq!(text::to_call("no such call"), None);
}

#[test]
fn answers_are_told() {
    let v = Version {
        deleter: Some(12),
        ptr: Some((3, 4)),
        ..Version::live(-1, 5, vec![0xab])
    };
    let cases = [
        (Ans::Done, "done"),
        (Ans::Flag(true), "flag 1"),
        (Ans::Found(v), "found -1 5 12 3:4 ab"),
        (Ans::List(vec![]), "list 0 0 cbf29ce484222325"),
        (Ans::Pages(vec![]), "pages 0 0 cbf29ce484222325"),
        (Ans::Count(2), "count 2"),
        (Ans::Refused(9), "refused 9"),
    ];
    for (answer, text) in cases {
        assert_eq!(text::of_answer(&answer), text);
    }
}

#[test]
fn records_are_read_back() {
    let mut rng = Rng(2);
    let versions: Vec<Version> = std::iter::repeat_with(|| random::call(&mut rng))
        .filter_map(|op| match op {
            Op::InsertVersion(v) => Some(v),
            _ => None,
        })
        .take(200)
        .collect();
    assert_eq!(
        records::to_versions(&records::of_versions(&versions)),
        versions
    );
    let pages = [0, 7, u32::MAX];
    assert_eq!(records::to_pages(&records::of_pages(&pages)), pages);
}
