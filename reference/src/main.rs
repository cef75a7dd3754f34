//! The command line of the independent program.

use reference::generator::{self, askings::classes::Class};
use reference::{batch, lister, outcome::Outcome};
use std::collections::BTreeMap;
use std::fmt::Display;
use std::io::{self, BufReader, BufWriter, Read, Write};
use std::process::ExitCode;

const USAGE: &str = "usage: reference list | batch | generate SEED COUNT | histogram SEED COUNT \
    | generate-lists SEED COUNT | histogram-lists SEED COUNT \
    | generate-askings SEED COUNT | histogram-askings SEED COUNT";

fn main() -> ExitCode {
    let arguments: Vec<String> = std::env::args_os()
        .skip(1)
        .map(|argument| argument.to_string_lossy().into_owned())
        .collect();
    let words: Vec<&str> = arguments.iter().map(String::as_str).collect();
    let done = match words.as_slice() {
        ["list"] => list(),
        ["batch"] => answer_batch(),
        [command, seed, count] => match (seed.parse(), count.parse()) {
            (Ok(seed), Ok(count)) => generated(command, seed, count),
            _ => usage(),
        },
        _ => usage(),
    };
    done.unwrap_or(ExitCode::FAILURE)
}

fn generated(command: &str, seed: u64, count: u64) -> io::Result<ExitCode> {
    match command {
        "generate" => generate(count, |index| generator::sheet(seed, index).line()),
        "generate-lists" => generate(count, |index| generator::list(seed, index).line()),
        "generate-askings" => generate(count, |index| generator::asking(seed, index).line()),
        "histogram" => {
            let (outcomes, counts) = generator::histogram(seed, count);
            histogram(count, &Outcome::ALL, &outcomes, counts)
        }
        "histogram-lists" => {
            let (counts, causes) = generator::lists::histogram(seed, count);
            histogram(count, &Outcome::OF_LISTS, &counts, causes)
        }
        "histogram-askings" => classes(count, generator::askings::histogram(seed, count)),
        _ => usage(),
    }
}

fn usage() -> io::Result<ExitCode> {
    writeln!(io::stderr(), "{USAGE}")?;
    Ok(ExitCode::from(2))
}

/// One byte past the largest input is enough to know that it is too large.
fn list() -> io::Result<ExitCode> {
    let mut input = Vec::new();
    let most = lister::LARGEST_INPUT as u64 + 1;
    io::stdin().take(most).read_to_end(&mut input)?;
    let mut output = io::stdout();
    output.write_all(lister::list(&input).as_bytes())?;
    output.flush()?;
    Ok(ExitCode::SUCCESS)
}

fn answer_batch() -> io::Result<ExitCode> {
    let input = BufReader::new(io::stdin());
    batch::answer_all(input, BufWriter::new(io::stdout()))?;
    Ok(ExitCode::SUCCESS)
}

fn generate(count: u64, line: impl Fn(u64) -> String) -> io::Result<ExitCode> {
    let mut output = BufWriter::new(io::stdout());
    for index in 0..count {
        writeln!(output, "{}", line(index))?;
    }
    output.flush()?;
    Ok(ExitCode::SUCCESS)
}

/// Fails if an outcome comes up fewer than 50 times in 10,000.
fn histogram(
    count: u64,
    outcomes: &[Outcome],
    counts: &[u64],
    told: impl Display,
) -> io::Result<ExitCode> {
    let mut output = io::stdout();
    for (outcome, times) in outcomes.iter().zip(counts) {
        writeln!(output, "{} {times}", outcome.number())?;
    }
    writeln!(output, "{told}")?;
    unless_rare(count, counts)
}

fn unless_rare<'a>(count: u64, counts: impl IntoIterator<Item = &'a u64>) -> io::Result<ExitCode> {
    let rare = |times: &u64| u128::from(*times) * 10_000 < u128::from(count) * 50;
    if !counts.into_iter().any(rare) {
        return Ok(ExitCode::SUCCESS);
    }
    writeln!(io::stderr(), "some come up fewer than 50 times in 10,000")?;
    Ok(ExitCode::FAILURE)
}

/// Fails if a class of those that there must be comes up fewer than 50 times in
/// 10,000.
fn classes(count: u64, counts: BTreeMap<Class, u64>) -> io::Result<ExitCode> {
    let mut output = io::stdout();
    for (class, times) in &counts {
        writeln!(output, "{class:?} {times}")?;
    }
    let all = Class::all();
    unless_rare(count, all.iter().filter_map(|class| counts.get(class)))
}
