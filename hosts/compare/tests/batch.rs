//! The C calls on every batch sheet, of the decisions and of the outcomes.

use compare::{askings, entries, sheets};
use reference::batch::{Asking, List, Sheet};
use std::fs;
use std::path::Path;

/// How many lines each call answered.
#[derive(Debug, Default, PartialEq, Eq)]
struct Answered {
    sheets: usize,
    lists: usize,
    askings: usize,
}

impl Answered {
    /// The answer line of a C call: `cordbasin_run` for a sheet,
    /// `cordbasin_assign` for a list, `cordbasin_ask` for an asking.
    fn answer(&mut self, line: &str) -> String {
        if let Some(sheet) = Sheet::parse(line.as_bytes()) {
            self.sheets += 1;
            return sheets::call(&sheet).line(&sheet);
        }
        if let Some(asking) = Asking::parse(line.as_bytes()) {
            self.askings += 1;
            return askings::call(&asking).line(&asking);
        }
        let list = List::parse(line.as_bytes()).expect("a sheet, a list or an asking");
        self.lists += 1;
        entries::call(&list).line(&list.sheet)
    }
}

/// Runs the batch sheets of a folder.
fn test_folder(name: &str) -> Answered {
    let folder = Path::new(env!("CARGO_MANIFEST_DIR"))
        .join("../../sheets")
        .join(name);
    let mut answered = Answered::default();
    for entry in fs::read_dir(folder).expect("a folder of sheets") {
        let path = entry.expect("an entry").path();
        if path.extension().is_none_or(|name| name != "txt") {
            continue;
        }
        let text = fs::read_to_string(&path).expect("a text");
        let lines: Vec<&str> = text.lines().collect();
        for group in lines.chunks(3) {
            let [shown, line, expected] = group else {
                panic!("{}: three lines make a group", path.display());
            };
            let answer = answered.answer(line);
            assert_eq!(answer, *expected, "{}: {shown}", path.display());
        }
    }
    answered
}

#[test]
fn decisions_have_their_answers() {
    let answered = test_folder("readings");
    assert!(answered.sheets > 60, "{answered:?}");
    assert!(answered.askings > 100, "{answered:?}");
}

#[test]
fn outcomes_have_their_answers() {
    let expected = Answered {
        sheets: 7,
        lists: 14,
        askings: 32,
    };
    assert_eq!(test_folder("outcomes"), expected);
}
