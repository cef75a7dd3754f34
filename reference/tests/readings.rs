//! Every batch sheet, of the decisions and of the outcomes, gets its expected answer line.
//!
//! A file holds groups of three lines: `#` and what is shown, the sheet or list,
//! its answer.

use reference::batch;
use std::ffi::OsStr;
use std::fs;
use std::path::{Path, PathBuf};

fn files(directory: &str) -> Vec<PathBuf> {
    let sheets = Path::new(env!("CARGO_MANIFEST_DIR")).join("../sheets");
    let entries = fs::read_dir(sheets.join(directory)).expect("a directory of sheets");
    let mut files: Vec<PathBuf> = entries
        .map(|entry| entry.expect("an entry").path())
        .filter(|path| path.extension() == Some(OsStr::new("txt")))
        .collect();
    files.sort();
    files
}

#[test]
fn every_reading_has_its_answer() {
    test_directory("readings");
}

#[test]
fn every_outcome_has_its_answer() {
    test_directory("outcomes");
}

fn test_directory(directory: &str) {
    let files = files(directory);
    assert!(!files.is_empty(), "no batch sheets in {directory}");
    let mut wrong = Vec::new();
    for file in &files {
        let name = file.display();
        let text = fs::read_to_string(file).expect("a text");
        let lines: Vec<&str> = text.lines().collect();
        assert!(!lines.is_empty(), "{name} is empty");
        for (group, place) in lines.chunks(3).zip((1..).step_by(3)) {
            let [shown, sheet, expected] = group else {
                panic!("{name}:{place}: three lines make a group");
            };
            assert!(shown.starts_with("# "), "{name}:{place}: a comment first");
            let answer = batch::answer_line(sheet.as_bytes());
            if answer != *expected {
                wrong.push(format!(
                    "{name}:{place}: {shown}\nexpected {expected}\nanswered {answer}"
                ));
            }
        }
    }
    assert!(wrong.is_empty(), "{}", wrong.join("\n"));
}
