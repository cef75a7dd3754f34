//! Times the proved code and the independent program on the same sheets.

mod askings;
mod cases;
mod clock;
mod instructions;
mod lists;
mod measured;
mod printed;
mod times;
mod typed;
mod written;

use std::process::ExitCode;

const USAGE: &str = "usage: bench times [REPETITIONS] | bench instructions";

fn main() -> ExitCode {
    let arguments: Vec<String> = std::env::args_os()
        .skip(1)
        .map(|argument| argument.to_string_lossy().into_owned())
        .collect();
    let words: Vec<&str> = arguments.iter().map(String::as_str).collect();
    let done = match words.as_slice() {
        [] | ["times"] => times::print(31),
        ["times", repetitions] => match repetitions.parse() {
            Ok(repetitions) if repetitions > 0 => times::print(repetitions),
            _ => Err(USAGE.to_string()),
        },
        ["instructions"] => instructions::print(),
        ["some", case, side, runs] => match runs.parse() {
            Ok(runs) => instructions::some(case, side, runs),
            Err(_) => Err(USAGE.to_string()),
        },
        _ => Err(USAGE.to_string()),
    };
    match done {
        Ok(()) => ExitCode::SUCCESS,
        Err(text) => {
            eprintln!("bench: {text}");
            ExitCode::FAILURE
        }
    }
}
