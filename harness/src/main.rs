//! Runs the harness on the library and says what passed.

use harness::random::seed_of_the_clock;
use harness::runs::{books_sorted, books_tried, memories, models, openings};
use harness::session::Session;
use std::env;
use std::process::ExitCode;
use std::time::Instant;

const USAGE: &str = "usage: harness [--seed N|clock] [--times]";

/// Without `--seed` each run is the same, so that what passed passes again.
const SEED: u64 = 1;

struct Options {
    seed: u64,
    times: bool,
}

fn number(word: &str) -> Result<u64, String> {
    word.parse().map_err(|_| format!("--seed wants a number, or the word clock, and not '{word}'"))
}

fn options(words: impl Iterator<Item = String>) -> Result<Options, String> {
    let mut options = Options { seed: SEED, times: false };
    let mut words = words;
    while let Some(word) = words.next() {
        match word.as_str() {
            "--times" => options.times = true,
            "--seed" => {
                let word = words.next().unwrap_or_default();
                options.seed = if word == "clock" { seed_of_the_clock() } else { number(&word)? };
            }
            other => return Err(format!("'{other}' is no option")),
        }
    }
    Ok(options)
}

type Run = (&'static str, fn(u64) -> Result<(), String>);

const RUNS: [Run; 5] = [
    ("10,000 books up to 256, the two models", |seed| models(seed, 10_000)),
    ("10,000 books up to 256, tried", |seed| books_tried(&Session, seed, 10_000)),
    ("20,000 books up to 1,000,000,000, sorted", |seed| books_sorted(&Session, seed, 20_000)),
    ("20,000 openings", |seed| openings(&Session, seed, 20_000)),
    ("1,000,000 memories", |seed| memories(&Session, seed, 1_000_000)),
];

fn passes((name, run): Run, Options { seed, times }: &Options) -> bool {
    let start = Instant::now();
    let result = run(*seed);
    match &result {
        Ok(()) => println!("harness {name}: ok"),
        Err(why) => println!("harness {name}: FAILED\n  seed {seed}, {why}"),
    }
    if *times {
        eprintln!("{:.2} s", start.elapsed().as_secs_f64());
    }
    result.is_ok()
}

fn main() -> ExitCode {
    let options = match options(env::args().skip(1)) {
        Ok(options) => options,
        Err(why) => {
            eprintln!("harness: {why}\n{USAGE}");
            return ExitCode::from(2);
        }
    };
    println!("harness seed {}", options.seed);
    let passed = RUNS.into_iter().filter(|&run| passes(run, &options)).count();
    let failed = RUNS.len() - passed;
    println!("{passed} passed, {failed} failed");
    if failed == 0 { ExitCode::SUCCESS } else { ExitCode::FAILURE }
}
