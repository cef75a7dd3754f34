//! Typed texts: what they are read to, and how refusals print.

use cordbasin::{read_words, run, Outcome, Program, Spot, Tables, Value};

const SHEET: &str = "x := new {bytes: 64, samples: 16};
always required x.bytes = 4 * x.samples;
x.samples := 32";

#[test]
fn a_text_is_read_to_words_and_names() {
    let program = Program::read(SHEET).expect("a program");
    assert_eq!(program.words().len(), 33);
    assert_eq!(program.words()[..10], [3, 2, 0, 2, 0, 23, 64, 1, 23, 16]);
    assert_eq!(program.variables().collect::<Vec<_>>(), ["x"]);
    assert_eq!(program.labels().collect::<Vec<_>>(), ["bytes", "samples"]);
    assert_eq!(program.label("samples"), Some(1));
    assert_eq!(program.label("x"), None);
    assert_eq!(program.variable("bytes"), None);
}

#[test]
fn an_empty_text_is_a_program() {
    let program = Program::read(" \n").expect("a program");
    assert_eq!(program.words(), [0]);
    assert_eq!(program.variables().count() + program.labels().count(), 0);
}

#[test]
fn the_place_of_an_answer_is_shown_in_the_text() {
    let program = Program::read(SHEET).expect("a program");
    let mut tables = Tables::fresh();
    let answer = run(program.words(), &mut tables, &[0, 0, 0], 100);
    assert_eq!(answer.outcome, Outcome::RequiredUnmet);
    let spot = program.spot(answer.place).expect("a place in the text");
    assert_eq!((spot.line, spot.column), (3, 1));
    assert_eq!(spot.to_string(), "x.samples := 32\n^");
    let samples = program.label("samples").expect("a label");
    assert_eq!(tables.at(0, &[samples]), Some(Value::Int(16)));
    let end = program.spot(program.words().len()).expect("the end");
    assert_eq!((end.place, end.line, end.column), (SHEET.len(), 3, 16));
    assert_eq!(program.spot(34), None);
}

fn printed(text: &str) -> String {
    Program::read(text).expect_err("a refusal").to_string()
}

#[test]
fn refusals_print_their_line_and_a_mark() {
    assert_eq!(
        printed("x := 1;\n\ty := x +;"),
        "20 at line 2, column 10: text unfit\n\ty := x +;\n\t        ^"
    );
    assert_eq!(
        printed("x := 2147483648"),
        "22 at line 1, column 6: over 64 KiB or a limit\nx := 2147483648\n     ^"
    );
    assert_eq!(
        printed("skip;\r\n"),
        "20 at line 2, column 1: text unfit\n\n^"
    );
    assert_eq!(
        printed("skip /\\ é"),
        "20 at line 1, column 6: text unfit\nskip /\\ é\n     ^"
    );
    let many: Vec<String> = (0..65).map(|number| format!("v{number} := 0")).collect();
    let many = many.join(";\n");
    assert_eq!(
        printed(&many),
        "21 at line 65, column 1: too many names\nv64 := 0\n^"
    );
}

#[test]
fn a_place_inside_a_character_is_the_characters() {
    let spot = Spot::of("né\r\nx", 2);
    assert_eq!((spot.line, spot.column, spot.shown), (1, 2, "né"));
    assert_eq!(Spot::of("né\r\nx", 99).line, 2);
}

#[test]
fn a_slice_of_another_length_is_refused_and_nothing_is_written() {
    for (program, origins, names) in [(4095, 4096, 192), (4096, 4097, 192), (4096, 4096, 0)] {
        let (mut p, mut o, mut n) = (vec![7; program], vec![7; origins], vec![7; names]);
        let reading = read_words(b"skip", &mut p, &mut o, &mut n);
        assert_eq!((reading.outcome, reading.place), (Outcome::WrongSize, 0));
        assert_eq!(reading.words + reading.variables + reading.labels, 0);
        assert!(p.iter().chain(&o).chain(&n).all(|word| *word == 7));
    }
}

#[test]
fn a_text_of_64_kib_fits_and_one_byte_more_does_not() {
    let mut text = "skip".to_string();
    text.extend(core::iter::repeat_n(' ', 65_536 - text.len()));
    assert_eq!(
        Program::read(&text).map(|program| program.words().len()),
        Ok(2)
    );
    text.push(' ');
    let refusal = Program::read(&text).expect_err("a refusal");
    assert_eq!(refusal.outcome, Outcome::OverLimit);
    assert_eq!(refusal.spot.place, 65_536);
}
