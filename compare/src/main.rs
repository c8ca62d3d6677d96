//! Compares the unit with an independent implementation and times both.

mod cases;
mod damage;
mod faulty;
mod feed;
mod fixed;
mod reference;
mod run;
mod seen;
mod shapes;
mod stack;
mod tables;
mod times;
mod trial;
mod unit;

use std::process::ExitCode;

const SEED: u64 = 1;
const CALLS: usize = 10_000;

const USAGE: &str =
    "words: check [SEED] [COUNT] | check-faulty [SEED] | replay SEED CASE | times | stack; none: all in turn";

/// The n-th word as a number, or what stands for it where there is none.
fn number(words: &[&str], n: usize, otherwise: u64) -> Option<u64> {
    words.get(n).map_or(Some(otherwise), |word| word.parse().ok())
}

/// Whether the command did well; None where its words are not understood.
fn command(words: &[&str]) -> Option<bool> {
    let count = number(words, 2, CALLS as u64)? as usize;
    let seed = number(words, 1, SEED)?;
    Some(match (words.first().copied(), words.len()) {
        (None, _) => all(),
        (Some("check"), ..=3) => run::check(seed, count),
        (Some("check-faulty"), ..=2) => faulty::run(seed, count),
        (Some("replay"), 3) => run::replay(seed, count),
        (Some("times"), 1) => times::run(),
        (Some("stack"), 1) => stack::run(),
        _ => return None,
    })
}

/// Every command, one after another.
fn all() -> bool {
    let mut good = true;
    for word in ["check", "check-faulty", "times", "stack"] {
        println!("== {word}");
        good &= command(&[word]) == Some(true);
        println!();
    }
    good
}

fn main() -> ExitCode {
    let words: Vec<String> = std::env::args().skip(1).collect();
    let words: Vec<&str> = words.iter().map(String::as_str).collect();
    match command(&words) {
        Some(true) => ExitCode::SUCCESS,
        Some(false) => ExitCode::FAILURE,
        None => {
            eprintln!("{USAGE}");
            ExitCode::from(2)
        }
    }
}
