//! Programs written as texts, and read again.

use cordbasin::{read_words, run, write, write_named, write_words};
use cordbasin::{Outcome, Program, Tables, LONGEST_PROGRAM, LONGEST_TEXT, NAMES_WORDS};
use std::fs;
use std::path::Path;

/// The program P of document 01.
const P: [i32; 33] = [
    3, 2, 0, 2, 0, 23, 64, 1, 23, 16, 3, 1, 3, 25, 6, 24, 0, 1, 0, 25, 3, 23, 4, 24, 0, 1, 1, 1, 0,
    1, 1, 23, 32,
];

const SHEET: &str = "x := new {bytes: 64, samples: 16};
always required x.bytes = 4 * x.samples;
x.samples := 32";

const DEFAULT: &str = "v0 := new {f0: 64, f1: 16};
always required v0.f0 = 4 * v0.f1;
v0.f1 := 32";

/// The form that is written, with every sort of statement and operand.
const FORM: &str = "skip;
x := new {};
y := new {a: nil, b: -2147483648};
always x == y.a;
once y.a.b == x;
once weak x = nil /\\ medium y.b + 1 < 7 or true /\\ required false;
if (x + 1) * 2 - (3 - y.b) >= 4 and (true or x == y.a) then {
  while x != 0 do {
    x := x - 1
  };
  skip
} else {};
if true then {} else {
  y.b := -5 - -5
};
while false do {}";

fn read(text: &str) -> Program<'_> {
    Program::read(text).expect("a program")
}

/// The same statements, typed in another way.
fn untidy() -> String {
    let tight = FORM
        .replace("  ", "")
        .replace(";\n", ";")
        .replace('\n', " ");
    let tight = tight.replace(" := ", ":=").replace("required ", "");
    let tight = tight.replace("y.b + 1 < 7", "((y.b+1)<(7))");
    tight.replace("-5 - -5", "\t(-0005)\r\n- (-5)")
}

#[test]
fn a_program_prints_in_one_form_with_its_names() {
    assert_eq!(read(SHEET).to_string(), SHEET);
    assert_eq!(read(FORM).to_string(), FORM);
    let untidy = untidy();
    assert_ne!(untidy, FORM);
    assert_eq!(read(&untidy).to_string(), FORM);
    assert_eq!(read(" \n").to_string(), "");
}

#[test]
fn words_alone_get_default_names() {
    let mut room = [7; LONGEST_TEXT];
    assert_eq!(write(&P, &mut room), Ok(DEFAULT));
    assert_eq!(write(&[0], &mut room), Ok(""));
    let mut room = [7; DEFAULT.len()];
    assert_eq!(write(&P, &mut room), Ok(DEFAULT));
    assert_eq!(room, DEFAULT.as_bytes());
}

#[test]
fn names_are_given_by_their_numbers() {
    let named = |variables: &[&str], labels: &[&str]| {
        let mut room = [7; 200];
        let text = write_named(&P, variables, labels, &mut room);
        text.expect("a text").to_string()
    };
    for name in ["y", "bytes", "f0", "v1", "if?", "a_B9"] {
        let text = named(&[name], &["bytes", "samples"]);
        assert_eq!(text, SHEET.replace('x', name));
    }
    let some = named(&[], &["", "samples"]);
    assert_eq!(some, DEFAULT.replace("f1", "samples"));
    assert_eq!(named(&["v0", "y", "z"], &["f0", "f1", "x"]), DEFAULT);
    let all: Vec<String> = numbered("n").take(70).collect();
    let all: Vec<&str> = all.iter().map(String::as_str).collect();
    assert_eq!(named(&all, &all), DEFAULT.replace(['v', 'f'], "n"));
}

/// A host that keeps the slices itself: the source of the names is the text
/// that was read. The rest of the bytes stays.
#[test]
fn slices_of_the_host_are_written() {
    let (mut program, mut origins) = ([0; LONGEST_PROGRAM], [0; LONGEST_PROGRAM]);
    let mut names = [0; NAMES_WORDS];
    let reading = read_words(SHEET.as_bytes(), &mut program, &mut origins, &mut names);
    for more in [0, 1, 1000, 100_000] {
        let mut text = vec![7; SHEET.len() + more];
        let words = &program[..reading.words];
        let writing = write_words(words, SHEET.as_bytes(), &names, &mut text);
        assert_eq!((writing.outcome, writing.place), (Outcome::Finished, 33));
        assert_eq!((writing.variables, writing.labels), (1, 2));
        assert_eq!(&text[..writing.bytes], SHEET.as_bytes());
        assert_eq!(&text[writing.bytes..], vec![7; more]);
    }
    let writing = write_words(&[0], &[], &[0; NAMES_WORDS], &mut []);
    assert_eq!((writing.outcome, writing.place), (Outcome::Finished, 1));
    assert_eq!(writing.bytes + writing.variables + writing.labels, 0);
}

/// What support does: a refused run of words alone is shown in their text.
#[test]
fn a_refused_run_of_words_is_shown_in_their_text() {
    let mut room = [0; LONGEST_TEXT];
    let program = read(write(&P, &mut room).expect("a text"));
    let answer = run(&P, &mut Tables::fresh(), &[0, 0, 0], 100);
    let refusal = program.refusal(&answer).expect("a refusal");
    assert_eq!(
        refusal.to_string(),
        "19 at line 3, column 1: a required part is not met\nv0.f1 := 32\n^"
    );
}

fn numbered(letter: &str) -> impl Iterator<Item = String> + '_ {
    (0..).map(move |number| format!("{letter}{number}"))
}

/// Reading what is written gives the words and the names that it was written
/// from, and writing those the same text.
fn goes_round(program: &Program) {
    let (mut room, mut second) = (vec![0; LONGEST_TEXT], vec![0; LONGEST_TEXT]);
    let text = program.write(&mut room).expect("a text");
    let again = read(text);
    assert_eq!(again.words(), program.words());
    assert!(again.variables().eq(program.variables()));
    assert!(again.labels().eq(program.labels()));
    assert_eq!(again.write(&mut second), Ok(text));

    let plain = write(program.words(), &mut room).expect("a text");
    let again = read(plain);
    assert_eq!(again.words(), program.words());
    assert!(again
        .variables()
        .eq(numbered("v").take(program.variables().count())));
    assert!(again
        .labels()
        .eq(numbered("f").take(program.labels().count())));
    assert_eq!(again.to_string(), plain);
}

#[test]
fn every_text_of_the_sheets_goes_round() {
    let sheets = Path::new(env!("CARGO_MANIFEST_DIR")).join("../../sheets");
    let mut programs = 0;
    for folder in ["000", "k", "notation", "outcomes", "readings"] {
        for file in fs::read_dir(sheets.join(folder)).expect("the folder") {
            let path = file.expect("a file").path();
            if path.extension().is_none_or(|end| end != "text") {
                continue;
            }
            let bytes = fs::read(&path).expect("a text");
            let text = String::from_utf8_lossy(&bytes);
            if let Ok(program) = Program::read(&text) {
                goes_round(&program);
                programs += 1;
            }
        }
    }
    assert!(programs > 100, "{programs} programs");
}
