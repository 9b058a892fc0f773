//! The recorded list is the one that is made now, and has the form it promises.
use std::collections::HashSet;
use std::fs;

const RECORDED: &str = concat!(
    env!("CARGO_MANIFEST_DIR"),
    "/../../../crates/test_cells/stdin"
);

#[test]
fn recorded_list_is_current() {
    let recorded = fs::read_to_string(RECORDED).expect("crates/test_cells/stdin");
    let made = vectors::list();
    let lines = recorded.lines().zip(made.lines()).enumerate();
    for (i, (recorded, made)) in lines {
        assert_eq!(recorded, made, "line {}", i + 1);
    }
    assert!(recorded == made, "one list is the other's beginning");
}

#[test]
fn form() {
    let list = vectors::list();
    assert!(list.len() < 600_000, "{} bytes", list.len());
    assert!(list.is_ascii() && list.ends_with('\n'));
    let mut seen = HashSet::new();
    for line in list.lines().filter(|l| !l.starts_with('#')) {
        let fields: Vec<&str> = line.split(' ').collect();
        let expected = match (fields[0], fields.get(4)) {
            ("w", _) => 8,
            ("r", Some(&"cell")) => 12,
            ("r", Some(&"bad")) => 6,
            _ => panic!("no such line: {line}"),
        };
        assert_eq!(fields.len(), expected, "{line}");
        assert!(fields.iter().all(|f| !f.is_empty()), "{line}");
        assert!(seen.insert(line), "twice: {line}");
    }
}
