//! The texts of sheets/: one beside a lister sheet (`.in`) is read to its
//! program, one with a `.read` beside it gives that answer, line for line.

use reference::lister;
use reference::program::Program;
use reference::text::{read, Reading};
use std::ffi::OsStr;
use std::fs;
use std::path::{Path, PathBuf};

/// The folders of which every sheet that can be typed has its text.
const TYPED: [&str; 3] = ["000", "k", "outcomes"];

/// Their sheets whose variables or labels are not numbered by first appearance.
const OUT_OF_ORDER: [&str; 5] = [
    "00-no-log",
    "07-new-field",
    "10-65-cores",
    "12-number-on-the-way",
    "12-part-of-shared",
];

fn files(folder: &str, extension: &str) -> Vec<PathBuf> {
    let folder = Path::new(env!("CARGO_MANIFEST_DIR"))
        .join("../sheets")
        .join(folder);
    let entries = fs::read_dir(folder).expect("a folder of sheets");
    let paths = entries.map(|entry| entry.expect("an entry").path());
    let mut files: Vec<PathBuf> = paths
        .filter(|path| path.extension() == Some(OsStr::new(extension)))
        .collect();
    files.sort();
    files
}

/// The words of a sheet's first line, if they are a program.
fn program(input: &[u8]) -> Option<Vec<i32>> {
    if lister::list(input) == "input=1\n" {
        return None;
    }
    let line = input.split(|byte| *byte == b'\n').next()?;
    let line = std::str::from_utf8(line).expect("characters");
    let words = line.strip_prefix("program=")?.split_whitespace();
    let words: Vec<i32> = words.map(|word| word.parse().expect("a word")).collect();
    Program::decode(&words).is_ok().then_some(words)
}

/// The whole answer, as a `.read` has it.
fn answer(reading: &Reading) -> String {
    let list = |words: &[i32]| {
        let words: Vec<String> = words.iter().map(i32::to_string).collect();
        words.join(" ")
    };
    let mut lines = vec![
        format!("outcome={}", reading.outcome),
        format!("place={}", reading.place),
        format!("variables={}", reading.variables),
        format!("labels={}", reading.labels),
    ];
    if reading.outcome == 0 {
        lines.push(format!("words={}", list(&reading.words)));
        lines.push(format!("origins={}", list(&reading.origins)));
    }
    for (number, name) in reading.names.chunks(2).enumerate() {
        if name != [0, 0] {
            let (sort, number) = if number < 64 {
                ('v', number)
            } else {
                ('l', number - 64)
            };
            lines.push(format!("{sort}{number}={}", list(name)));
        }
    }
    lines.join("\n") + "\n"
}

#[test]
fn every_text_beside_a_sheet_is_read_to_its_program() {
    let mut beside = 0;
    for file in TYPED.iter().flat_map(|folder| files(folder, "text")) {
        let input = fs::read(file.with_extension("in")).expect("a sheet");
        let reading = read(&fs::read(&file).expect("a text"));
        let words = program(&input).expect("a program");
        assert_eq!(reading.words, words, "{}", file.display());
        beside += 1;
    }
    assert_eq!(beside, 122);
}

#[test]
fn every_sheet_that_can_be_typed_has_a_text() {
    for file in TYPED.iter().flat_map(|folder| files(folder, "in")) {
        let name = file.file_stem().and_then(OsStr::to_str).expect("a name");
        let reads = program(&fs::read(&file).expect("an input")).is_some();
        let can_be_typed = reads && !OUT_OF_ORDER.contains(&name);
        let is_typed = file.with_extension("text").is_file();
        assert_eq!(is_typed, can_be_typed, "{}", file.display());
    }
}

#[test]
fn every_text_of_the_notation_gives_its_answer() {
    let texts = files("notation", "text");
    let mut wrong = Vec::new();
    for file in &texts {
        let given = answer(&read(&fs::read(file).expect("a text")));
        let expected = fs::read_to_string(file.with_extension("read"));
        if expected.expect("an answer") != given {
            wrong.push(format!("{}:\n{given}", file.display()));
        }
    }
    assert!(wrong.is_empty(), "{}", wrong.join("\n"));
    assert_eq!(texts.len(), 250);
    assert_eq!(files("notation", "read").len(), texts.len());
}
