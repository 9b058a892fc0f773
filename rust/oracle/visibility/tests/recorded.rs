//! What is recorded for the program `test_visibility` is what is made now.
use std::fs;

fn recorded(name: &str) -> String {
    let crates = concat!(env!("CARGO_MANIFEST_DIR"), "/../../../crates");
    fs::read_to_string(format!("{crates}/test_visibility/{name}")).expect(name)
}

#[test]
fn recorded_answers_are_current() {
    let cases = visibility::cases();
    assert!(recorded("stdin") == visibility::answers(&cases), "stdin");
    assert_eq!(recorded("stdout"), visibility::counts(&cases));
}
