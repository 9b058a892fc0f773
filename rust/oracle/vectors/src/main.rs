//! Writes the recorded list of cell cases to standard output.

fn main() {
    print!("{}", vectors::list());
}
