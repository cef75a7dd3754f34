//! Every `.printed` of sheets/ is what is printed for the sheet beside it: the
//! program's text and a newline, two lines where it has none, or the number of
//! an unfit line. A text is read back to the sheet's words.

use reference::lister;
use reference::text::{read, NAME_WORDS};
use reference::writer::{is_read_back, write};
use std::collections::BTreeMap;
use std::ffi::OsStr;
use std::fs;
use std::path::{Path, PathBuf};

/// As many bytes as a sheet's text has room in.
const ROOM: usize = 65_536;

fn folder(name: &str) -> PathBuf {
    Path::new(env!("CARGO_MANIFEST_DIR"))
        .join("../sheets")
        .join(name)
}

/// Adds every file below the directory that has this ending.
fn collect(directory: &Path, ending: &str, files: &mut Vec<PathBuf>) {
    for entry in fs::read_dir(directory).expect("a directory of sheets") {
        let path = entry.expect("an entry").path();
        if path.is_dir() {
            collect(&path, ending, files);
        } else if path.extension() == Some(OsStr::new(ending)) {
            files.push(path);
        }
    }
}

fn files(directory: &Path, ending: &str) -> Vec<PathBuf> {
    let mut files = Vec::new();
    collect(directory, ending, &mut files);
    files.sort();
    files
}

/// The words of a sheet, or the line that the lister prints for an unfit one.
fn program(input: &[u8]) -> Result<Vec<i32>, String> {
    let listed = lister::list(input);
    if listed.starts_with("input=") {
        return Err(listed);
    }
    let text = std::str::from_utf8(input).expect("characters");
    let line = text.lines().next().expect("a line");
    let words = line.strip_prefix("program=").expect("a program");
    let words = words.split_whitespace();
    Ok(words.map(|word| word.parse().expect("a word")).collect())
}

/// What is printed for a sheet, and its outcome, if it comes to one.
fn printed(input: &[u8]) -> (Option<i32>, String) {
    let program = match program(input) {
        Ok(program) => program,
        Err(line) => return (None, line),
    };
    let writing = write(&program, &[], &[0; NAME_WORDS], ROOM);
    let (outcome, place) = (writing.outcome, writing.place);
    if outcome > 0 {
        return (Some(outcome), format!("outcome={outcome}\nplace={place}\n"));
    }
    let (variables, labels) = (writing.variables, writing.labels);
    assert!(is_read_back(&program, &writing.text, variables, labels));
    let text = String::from_utf8(writing.text).expect("characters");
    (Some(outcome), text + "\n")
}

#[test]
fn every_sheet_is_printed_as_its_file_says() {
    let mut outcomes = BTreeMap::new();
    let mut wrong = Vec::new();
    for file in files(&folder(""), "printed") {
        let input = fs::read(file.with_extension("in")).expect("a sheet");
        let expected = fs::read_to_string(&file).expect("what is printed");
        let (outcome, printed) = printed(&input);
        if printed != expected {
            wrong.push(format!("{}: printed\n{printed}", file.display()));
        }
        *outcomes.entry(outcome).or_insert(0) += 1;
    }
    assert!(wrong.is_empty(), "{}", wrong.join("\n"));
    let counts: Vec<(Option<i32>, i32)> = outcomes.into_iter().collect();
    assert_eq!(
        counts,
        [
            (None, 4),
            (Some(0), 30),
            (Some(2), 3),
            (Some(24), 8),
            (Some(25), 2)
        ]
    );
}

/// The file as it stands, with its newline, but for one of 65,536 bytes, which
/// has no room for it.
#[test]
fn every_printed_text_is_read_to_the_words_of_its_sheet() {
    for file in files(&folder(""), "printed") {
        let input = fs::read(file.with_extension("in")).expect("a sheet");
        if printed(&input).0 != Some(0) {
            continue;
        }
        let mut text = fs::read(&file).expect("a text");
        text.truncate(ROOM);
        let reading = read(&text);
        assert_eq!(reading.outcome, 0, "{}", file.display());
        assert_eq!(Ok(reading.words), program(&input), "{}", file.display());
    }
}

#[test]
fn every_sheet_of_these_folders_is_printed() {
    for (name, count) in [("k", 14), ("printing", 33)] {
        let sheets = files(&folder(name), "in");
        assert_eq!(sheets.len(), count, "{name}");
        for file in sheets {
            let printed = file.with_extension("printed");
            assert!(printed.is_file(), "{} is missing", printed.display());
        }
    }
}

/// With its own names the worked sheet is printed as it was typed.
#[test]
fn the_worked_sheet_is_typed_as_it_is_printed() {
    let typed = fs::read(folder("k/k01.text")).expect("a text");
    let reading = read(&typed);
    let mut text = write(&reading.words, &typed, &reading.names, ROOM).text;
    text.push(b'\n');
    assert_eq!(text, typed);
}
