//! Nanoseconds for each call of the session, beside two models on the same books: one tries all grosses, the other sorts
//! breakpoints. It prints a table, and the ratios.

mod books;
mod desks;
mod measure;
mod report;

use books::{Book, Kind};
use std::process::ExitCode;

/// How many rules the books have, and up to what bound.
const RULES: [u32; 4] = [1, 4, 16, 64];
const BOUNDS: [u32; 3] = [1_000, 1_000_000, 1_000_000_000];

fn main() -> ExitCode {
    let mut table = Vec::new();
    for rules in RULES {
        let books = BOUNDS.map(|bound| Book::of(rules, bound));
        for book in &books {
            if let Err(difference) = desks::agree(book) {
                eprintln!("bench: {rules} rules, a bound of {}: {difference}", book.bound);
                return ExitCode::FAILURE;
            }
        }
        for kind in Kind::ALL {
            eprintln!("bench: {}, {rules} rules", kind.name());
            table.extend(measure::measured(&books, kind));
        }
    }
    report::print(&table);
    ExitCode::SUCCESS
}
