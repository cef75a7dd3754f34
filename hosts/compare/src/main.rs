//! The command line of the comparison.

use compare::comparison::{self, Stop};
use compare::{askings, entries, expressions, lister, notation, sheets, writings};
use std::fmt::Display;
use std::process::ExitCode;
use std::time::Instant;

const USAGE: &str =
    "usage: compare reader|expressions|sheets|entries|askings|lister|notation|writings SEED COUNT";

fn main() -> ExitCode {
    let arguments: Vec<String> = std::env::args_os()
        .skip(1)
        .map(|argument| argument.to_string_lossy().into_owned())
        .collect();
    let words: Vec<&str> = arguments.iter().map(String::as_str).collect();
    match words.as_slice() {
        [what, seed, count] => match (*what, seed.parse(), count.parse()) {
            ("reader", Ok(seed), Ok(count)) => report(|| comparison::compare(seed, count)),
            ("expressions", Ok(seed), Ok(count)) => report(|| expressions::compare(seed, count)),
            ("sheets", Ok(seed), Ok(count)) => report(|| sheets::compare(seed, count)),
            ("entries", Ok(seed), Ok(count)) => report(|| entries::compare(seed, count)),
            ("askings", Ok(seed), Ok(count)) => report(|| askings::compare(seed, count)),
            ("lister", Ok(seed), Ok(count)) => report(|| lister::compare(seed, count)),
            ("notation", Ok(seed), Ok(count)) => report(|| notation::compare(seed, count)),
            ("writings", Ok(seed), Ok(count)) => report(|| writings::compare(seed, count)),
            _ => usage(),
        },
        _ => usage(),
    }
}

fn usage() -> ExitCode {
    eprintln!("{USAGE}");
    ExitCode::from(2)
}

fn report<T: Display>(compare: impl FnOnce() -> Result<T, Stop>) -> ExitCode {
    let start = Instant::now();
    match compare() {
        Ok(tally) => {
            println!("{tally}; {:.1} s", start.elapsed().as_secs_f64());
            ExitCode::SUCCESS
        }
        Err(Stop::Difference(text) | Stop::Rare(text)) => {
            println!("{text}");
            ExitCode::FAILURE
        }
        Err(Stop::Failure(error)) => {
            eprintln!("compare: {error}");
            ExitCode::from(2)
        }
    }
}
