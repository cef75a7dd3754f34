//! Every program of sheets/ that reads is written, and read back to its words.

use reference::generator::writings::in_order;
use reference::program::Program;
use reference::text::read;
use reference::writer::{is_read_back, printed, write};
use std::ffi::OsStr;
use std::fs;
use std::path::{Path, PathBuf};

/// Adds every file below the directory, in order of name.
fn collect(directory: &Path, files: &mut Vec<PathBuf>) {
    let entries = fs::read_dir(directory).expect("a directory of sheets");
    let paths = entries.map(|entry| entry.expect("an entry").path());
    let mut paths: Vec<PathBuf> = paths.collect();
    paths.sort();
    for path in paths {
        match path.is_dir() {
            true => collect(&path, files),
            false => files.push(path),
        }
    }
}

/// The words of a list of numbers, if they are a program.
fn program(numbers: &str) -> Option<Vec<i32>> {
    let words: Result<Vec<i32>, _> = numbers.split_whitespace().map(str::parse).collect();
    let words = words.ok()?;
    Program::decode(&words).is_ok().then_some(words)
}

/// The programs of a file: of a lister sheet, of batch sheets or of a text.
fn programs(file: &Path) -> Vec<Vec<i32>> {
    let bytes = fs::read(file).expect("a file");
    let text = String::from_utf8_lossy(&bytes);
    let lines = text.lines();
    match file.extension().and_then(OsStr::to_str) {
        Some("in") => {
            let lines = lines.filter_map(|line| line.strip_prefix("program="));
            lines.filter_map(program).collect()
        }
        Some("txt") => {
            let lines = lines.filter_map(|line| line.split_once('|'));
            lines.filter_map(|(words, _)| program(words)).collect()
        }
        Some("text") => {
            let reading = read(&bytes);
            let accepted = reading.outcome == 0;
            accepted.then_some(reading.words).into_iter().collect()
        }
        _ => Vec::new(),
    }
}

fn all() -> Vec<(PathBuf, Vec<i32>)> {
    let mut files = Vec::new();
    let sheets = Path::new(env!("CARGO_MANIFEST_DIR")).join("../sheets");
    collect(&sheets, &mut files);
    let programs = files.into_iter().flat_map(|file| {
        let programs = programs(&file);
        programs
            .into_iter()
            .map(move |program| (file.clone(), program))
    });
    programs.collect()
}

/// Those whose numbers do not run by first appearance are 24 as they stand,
/// and are written with other numbers. Two are too long.
#[test]
fn every_program_is_written_and_read_back() {
    let (mut written, mut renumbered, mut too_long) = (0, 0, 0);
    for (file, program) in all() {
        let name = file.display();
        let ordered = in_order(&program).expect("a program");
        let as_it_stands = write(&program, &[], &[0; 192], 65_536);
        if as_it_stands.outcome == 25 {
            assert!(as_it_stands.place > 65_536, "{name}");
            too_long += 1;
            continue;
        }
        let outcome = if ordered == program { 0 } else { 24 };
        assert_eq!(as_it_stands.outcome, outcome, "{name}: {program:?}");
        let writing = write(&ordered, &[], &[0; 192], 65_536);
        assert_eq!(writing.outcome, 0, "{name}: {program:?}");
        let text = printed(&ordered).expect("a text");
        assert_eq!(text.as_bytes(), writing.text);
        let (variables, labels) = (writing.variables, writing.labels);
        let back = is_read_back(&ordered, text.as_bytes(), variables, labels);
        assert!(back, "{name}: {text}");
        written += usize::from(outcome == 0);
        renumbered += usize::from(outcome == 24);
    }
    println!("{written} written, {renumbered} renumbered");
    assert!(written > 500 && renumbered > 10, "{written} {renumbered}");
    assert_eq!(too_long, 2);
}

/// The texts of the notation are written with the names that they have.
#[test]
fn texts_are_written_with_their_names() {
    let mut files = Vec::new();
    let sheets = Path::new(env!("CARGO_MANIFEST_DIR")).join("../sheets");
    collect(&sheets, &mut files);
    files.retain(|file| file.extension() == Some(OsStr::new("text")));
    let mut written = 0;
    for file in files {
        let source = fs::read(&file).expect("a text");
        let reading = read(&source);
        if reading.outcome > 0 {
            continue;
        }
        let writing = write(&reading.words, &source, &reading.names, 65_536);
        let counts = (writing.variables, writing.labels);
        assert_eq!(writing.outcome, 0, "{}", file.display());
        assert_eq!(counts, (reading.variables, reading.labels));
        assert!(is_read_back(
            &reading.words,
            &writing.text,
            counts.0,
            counts.1
        ));
        written += 1;
    }
    assert!(written > 200, "only {written}");
}
