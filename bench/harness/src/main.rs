//! Holds the linked library against the plain implementation.

mod acts;
mod clock;
mod compare;
mod example;
mod frames;
mod lines;
mod measure;
mod pile;
mod report;
mod rng;
mod row;
mod settings;
mod shift;
mod tally;
mod texts;

use std::process::ExitCode;

use rng::Rng;
use tally::Tally;

const RUNS: usize = 40_000;

const USAGE: &str = "\
harness compare [SEED]            compares the library with plain Rust
harness measure                   measures both
harness profile WHAT PILE SIZE    carries out one row by each once, for an instruction count: of
                                  read, steady, changing or print, pile 0 to 2
harness records                   prints records for the example in C
harness digest FILE               prints what the example should print";

fn compare(seed: u64) -> ExitCode {
    println!("seed {seed}\n");
    let (mut rng, mut tally) = (Rng::new(seed), Tally::default());
    for _ in 0..RUNS {
        compare::random_run(&mut rng, &mut tally);
    }
    shift::full_shifts(&mut rng, &mut tally);
    report::print(&tally);
    let missing = tally.missing();
    for what in &missing {
        println!("NOT MET: {what}");
    }
    println!(
        "{} differences, {} not met",
        tally.differences,
        missing.len()
    );
    ExitCode::from(u8::from(tally.differences > 0 || !missing.is_empty()))
}

fn main() -> ExitCode {
    let words: Vec<String> = std::env::args().skip(1).collect();
    let words: Vec<&str> = words.iter().map(String::as_str).collect();
    match words[..] {
        ["compare"] => return compare(1),
        ["compare", seed] => return compare(seed.parse().expect("a seed is a number")),
        ["measure"] => measure::measure(),
        ["profile", what, pile, size] => {
            let number = |word: &str| word.parse().expect("a number");
            measure::profile(what, number(pile) as usize, number(size));
        }
        ["records"] => example::records(),
        ["digest", file] => example::digest(file),
        _ => {
            eprintln!("{USAGE}");
            return ExitCode::from(2);
        }
    }
    ExitCode::SUCCESS
}
