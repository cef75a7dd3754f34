//! Every lister sheet (`.in`) prints its expected output (`.out`), byte for byte.

use reference::lister;
use std::ffi::OsStr;
use std::fs;
use std::path::{Path, PathBuf};

fn sheets() -> PathBuf {
    Path::new(env!("CARGO_MANIFEST_DIR")).join("../sheets")
}

/// Adds every file below the directory, in order of name.
fn collect(directory: &Path, files: &mut Vec<PathBuf>) {
    let entries = fs::read_dir(directory).expect("a directory of sheets");
    let mut paths: Vec<PathBuf> = entries
        .map(|entry| entry.expect("an entry").path())
        .collect();
    paths.sort();
    for path in paths {
        if path.is_dir() {
            collect(&path, files);
        } else {
            files.push(path);
        }
    }
}

fn with_extension(extension: &str) -> Vec<PathBuf> {
    let mut files = Vec::new();
    collect(&sheets(), &mut files);
    files.retain(|file| file.extension() == Some(OsStr::new(extension)));
    files
}

#[test]
fn every_lister_sheet_prints_its_output() {
    let inputs = with_extension("in");
    assert!(!inputs.is_empty(), "no lister sheets");
    let mut wrong = Vec::new();
    for file in &inputs {
        let input = fs::read(file).expect("an input");
        let listed = lister::list(&input);
        match fs::read(file.with_extension("out")) {
            Ok(expected) if expected == listed.as_bytes() => {}
            Ok(_) => wrong.push(format!("{}: printed\n{listed}", file.display())),
            Err(error) => wrong.push(format!("{}: no output: {error}", file.display())),
        }
    }
    assert!(wrong.is_empty(), "{}", wrong.join("\n"));
}

#[test]
fn every_expected_output_has_its_input() {
    for file in with_extension("out") {
        let input = file.with_extension("in");
        assert!(input.is_file(), "{} is missing", input.display());
    }
}

#[test]
fn every_directory_of_lister_sheets_has_some() {
    let inputs = with_extension("in");
    for directory in ["000", "k", "outcomes", "printing", "readings"] {
        let directory = sheets().join(directory);
        let some = inputs.iter().any(|file| file.starts_with(&directory));
        assert!(some, "no lister sheets in {}", directory.display());
    }
}
