//! What is recorded for the program `test_histories` is what is made now.
use std::fs;

fn recorded(name: &str) -> String {
    let crates = concat!(env!("CARGO_MANIFEST_DIR"), "/../../../crates");
    fs::read_to_string(format!("{crates}/test_histories/{name}")).expect(name)
}

#[test]
fn recorded_pages_are_current() {
    let now = pages::recorded();
    assert!(recorded("stdin") == now.stdin, "stdin");
    assert_eq!(recorded("stdout"), now.stdout);
}
