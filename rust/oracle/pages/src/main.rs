//! Writes the list to standard output or, given the word `counts`, what the
//! program `test_histories` is to print on it.

fn main() {
    let recorded = pages::recorded();
    match std::env::args().nth(1).as_deref() {
        None => print!("{}", recorded.stdin),
        Some("counts") => print!("{}", recorded.stdout),
        Some(word) => panic!("no such word: {word}"),
    }
}
