//! Runs the port and the oracle on the same pools, and the port and the rules
//! on damaged ones. One line for each kind of pools; the last line is
//! `N compared, 0 differ`, or the exit status is 1.
mod call;
mod change;
mod damage;
mod draw;
mod pages;
mod recorded;
mod rule;
mod shapes;
mod sound;
mod tally;
mod written;

use tally::Tally;

fn kinds() -> Vec<Box<dyn Fn() -> Tally>> {
    let mut kinds: Vec<Box<dyn Fn() -> Tally>> = vec![
        Box::new(recorded::run),
        Box::new(sound::creates),
        Box::new(sound::limits),
        Box::new(sound::largest),
    ];
    for (levels, widest, trees) in [
        (1, 1, 300),
        (2, 6, 300),
        (3, 4, 200),
        (4, 3, 150),
        (2, 510, 6),
    ] {
        kinds.push(Box::new(move || sound::built(levels, widest, trees)));
    }
    for (seed, root) in [(1, 0), (2, 0), (3, 3), (4, 3)] {
        kinds.push(Box::new(move || sound::history(seed, root, 1500)));
    }
    for (seed, root) in [(5, 0), (6, 2)] {
        kinds.push(Box::new(move || sound::deep_history(seed, root)));
    }
    for kind in 0..damage::KINDS.len() {
        kinds.push(Box::new(move || damage::run(kind, 1500)));
    }
    kinds.append(&mut writing());
    kinds
}

/// The writing calls.
fn writing() -> Vec<Box<dyn Fn() -> Tally>> {
    let mut kinds: Vec<Box<dyn Fn() -> Tally>> =
        vec![Box::new(written::limits), Box::new(written::last_pages)];
    for history in written::HISTORIES {
        kinds.push(Box::new(move || written::history(&history)));
    }
    for (seed, root) in [(35, 0), (36, 1), (37, 3)] {
        kinds.push(Box::new(move || written::server(seed, root, 5000)));
    }
    for (levels, widest, trees) in [(1, 1, 200), (2, 6, 150), (3, 4, 100), (4, 3, 60)] {
        kinds.push(Box::new(move || written::built(levels, widest, trees)));
    }
    for (levels, widest, trees) in [(1, 1, 60), (2, 6, 60), (3, 4, 40), (4, 3, 20)] {
        kinds.push(Box::new(move || written::continued(levels, widest, trees)));
    }
    for (levels, trees) in [(2, 40), (3, 16), (4, 6)] {
        kinds.push(Box::new(move || written::full_way(levels, trees)));
    }
    for kind in 0..damage::KINDS.len() {
        kinds.push(Box::new(move || damage::run_changes(kind, 800)));
    }
    kinds.push(Box::new(|| damage::run_full_pages(2000)));
    kinds
}

fn main() {
    tally::watch();
    let (mut compared, mut differ) = (0, 0);
    for kind in kinds() {
        let tally = kind();
        println!("{}", tally.line());
        compared += tally.compared;
        differ += tally.differ;
    }
    println!("{compared} compared, {differ} differ");
    std::process::exit((differ > 0) as i32);
}
