//! The call of crates/sheet on every sheet, on texts of every small size, and
//! on a short run.

mod common;

use common::sheets;
use compare::lister::{compare, compare_text};
use std::fs;

#[test]
fn every_sheet_has_its_output() {
    let files = sheets("in");
    assert!(files.len() > 100, "{} sheets", files.len());
    for file in files {
        let text = fs::read(&file).expect("a text");
        let expected = fs::read_to_string(file.with_extension("out")).expect("an output");
        let first = compare_text(&text).unwrap_or_else(|text| panic!("{text}"));
        assert_eq!(expected.lines().next(), Some(first.as_str()));
    }
}

#[test]
fn texts_that_are_cut_have_the_same_output() {
    let text = b"program=1 1 0 0 23 -5\nproposals=0 1\nbudget=10\n";
    for size in 0..=text.len() {
        let first = compare_text(&text[..size]).unwrap_or_else(|text| panic!("{text}"));
        let fits = size >= text.len() - 2;
        assert_eq!(first == "outcome=0", fits, "{size} bytes: {first}");
    }
}

#[test]
fn texts_of_a_seed_have_the_same_output() {
    let tally = compare(11, 1500).expect("the same output");
    assert_eq!(tally.texts, 1500);
    for line in ["outcome=0", "outcome=2", "input=1", "input=2", "input=3"] {
        let key = (line.len(), line.to_string());
        assert!(tally.first.contains_key(&key), "no {line}");
    }
}
