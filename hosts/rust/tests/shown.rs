//! A run's refusal shown in the text that was typed.

mod common;
use common::sheet;
use cordbasin::{run, Outcome, Program, Tables};
use std::fs;
use std::path::Path;

/// What a refused run of a text prints, from fresh tables.
fn shown(text: &str, proposals: &[i32], budget: i32) -> Option<String> {
    let program = Program::read(text).expect("a program");
    let answer = run(program.words(), &mut Tables::fresh(), proposals, budget);
    let refusal = program.refusal(&answer)?;
    Some(refusal.to_string())
}

/// Every sheet of the outcomes that has a text and is refused while it runs
/// has a file `.shown`. The inputs that the lister refuses have no run.
#[test]
fn every_typed_sheet_is_shown_as_its_file_says() {
    let folder = Path::new(env!("CARGO_MANIFEST_DIR")).join("../../sheets/outcomes");
    let (mut sheets, mut files) = (0, 0);
    for file in fs::read_dir(folder).expect("the folder").flatten() {
        let path = file.path();
        let read = |end: &str| fs::read_to_string(path.with_extension(end));
        files += usize::from(path.extension().is_some_and(|end| end == "shown"));
        let is_refused = file.file_name().to_string_lossy().starts_with("input-");
        if is_refused || path.extension().is_none_or(|end| end != "text") {
            continue;
        }
        let sheet = sheet(&read("in").expect("a sheet"));
        let text = read("text").expect("a text");
        let words = Program::read(&text).map(|program| program.words().to_vec());
        assert_eq!(
            words.as_deref(),
            Ok(&sheet.program[..]),
            "{}",
            path.display()
        );
        if let Some(shown) = shown(&text, &sheet.proposals, sheet.budget) {
            let expected = read("shown").expect("what is shown");
            assert_eq!(format!("{shown}\n"), expected, "{}", path.display());
            sheets += 1;
        }
    }
    assert_eq!((sheets, files), (60, 60));
}

#[test]
fn what_finished_or_has_no_word_is_not_shown() {
    assert_eq!(shown("x := 5", &[0], 100), None);
    assert_eq!(shown("x := 5", &[0], -1), None);
    let program = Program::read("skip").expect("a program");
    let mut tables = Tables::fresh();
    tables.heap[0] = 65;
    let answer = run(program.words(), &mut tables, &[], 100);
    assert_eq!((answer.outcome, answer.place), (Outcome::UnfitTable, 1));
    assert_eq!(program.refusal(&answer), None);
}

/// 4 is shown at the statement that is kept.
#[test]
fn a_start_is_shown_at_its_constraint() {
    let program = Program::read("x := 1;\n\talways x > 0").expect("a program");
    let mut tables = Tables::fresh();
    assert_eq!(
        run(program.words(), &mut tables, &[0, 0], 100).outcome,
        Outcome::Finished
    );
    tables.environment[1] = 0;
    let answer = run(program.words(), &mut tables, &[0, 0], 100);
    let refusal = program.refusal(&answer).expect("a refusal").to_string();
    assert!(
        refusal.starts_with("4 at line 2, column 2: a kept constraint"),
        "{refusal}"
    );
    assert!(refusal.ends_with("\n\talways x > 0\n\t^"), "{refusal}");
}

/// The last of sixteen parts, behind tabs and a carriage return.
#[test]
fn a_part_among_many_is_found() {
    let mut text = "x := 1;\r\nalways x = 1".to_string();
    for _ in 0..14 {
        text.push_str(" /\\\r\n\tweak x > 0");
    }
    text.push_str(" /\\\r\n\tmedium x\t+ 1");
    assert_eq!(
        shown(&text, &[0, 0], 100).as_deref(),
        Some("8 at line 17, column 2: wrong kind\n\tmedium x\t+ 1\n\t^")
    );
    text.push_str(" < true");
    assert_eq!(
        shown(&text, &[0, 0], 100).as_deref(),
        Some("8 at line 17, column 15: wrong kind\n\tmedium x\t+ 1 < true\n\t        \t    ^")
    );
}

/// 15 is shown in the constraint that no longer reads, not in the statement.
#[test]
fn a_lost_constraint_is_shown_where_it_no_longer_reads() {
    let text = "x := new {a: 1, b: 2};\nalways x.a = 1;\nalways 0 < x.a + x.b;\nx := new {a: 1}";
    assert_eq!(
        shown(text, &[0; 4], 100).as_deref(),
        Some("15 at line 3, column 18: a kept value constraint no longer reads\nalways 0 < x.a + x.b;\n                 ^")
    );
}

#[test]
fn the_other_refusals_are_shown_at_the_statement() {
    let text = "x := 0;\nwhile x < 9 do { x := x + 1 }";
    assert_eq!(
        shown(text, &[0; 9], 3).as_deref(),
        Some("5 at line 2, column 1: next step would pass the budget\nwhile x < 9 do { x := x + 1 }\n^")
    );
    assert_eq!(
        shown(text, &[0], 9).as_deref(),
        Some("6 at line 2, column 18: no proposal words left\nwhile x < 9 do { x := x + 1 }\n                 ^")
    );
}
