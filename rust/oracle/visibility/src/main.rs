//! Writes the recorded answers to standard output or, given the word `counts`,
//! what the program `test_visibility` is to print on them.

fn main() {
    let cases = visibility::cases();
    match std::env::args().nth(1).as_deref() {
        None => print!("{}", visibility::answers(&cases)),
        Some("counts") => print!("{}", visibility::counts(&cases)),
        Some(word) => panic!("no such word: {word}"),
    }
}
