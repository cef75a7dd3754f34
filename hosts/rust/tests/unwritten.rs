//! Programs that are not written, and why.

use cordbasin::{write_words, Numbered, Outcome, Program};
use cordbasin::{Unwritten, Writing, LONGEST_TEXT, NAMES_WORDS};

/// The program P of document 01.
const P: [i32; 33] = [
    3, 2, 0, 2, 0, 23, 64, 1, 23, 16, 3, 1, 3, 25, 6, 24, 0, 1, 0, 25, 3, 23, 4, 24, 0, 1, 1, 1, 0,
    1, 1, 23, 32,
];

/// v0 := nil, which has 7 bytes beside the name.
const NIL: [i32; 5] = [1, 1, 0, 0, 20];

const NO_NAMES: [i32; NAMES_WORDS] = [0; NAMES_WORDS];

fn write(program: &[i32]) -> Result<String, Unwritten> {
    let mut room = vec![7; LONGEST_TEXT];
    cordbasin::write(program, &mut room).map(str::to_string)
}

fn write_named(program: &[i32], variables: &[&str], labels: &[&str]) -> Result<String, Unwritten> {
    let mut room = vec![7; LONGEST_TEXT];
    cordbasin::write_named(program, variables, labels, &mut room).map(str::to_string)
}

fn refused(written: Result<String, Unwritten>) -> String {
    written.expect_err("a refusal").to_string()
}

#[test]
fn words_that_do_not_read_are_refused() {
    assert_eq!(write(&[]), Err(Unwritten::UnfitProgram(0)));
    assert_eq!(write(&[9, 77]), Err(Unwritten::UnfitProgram(1)));
    assert_eq!(write(&[0; 4097]), Err(Unwritten::UnfitProgram(4096)));
    assert_eq!(
        refused(write_named(&P[..32], &["new"], &[])),
        "2 at word 32: program does not read"
    );
}

#[test]
fn numbers_out_of_order_are_refused() {
    let variable = |number| Err(Unwritten::UnfitNames(Numbered::Variable(number)));
    let label = |number| Err(Unwritten::UnfitNames(Numbered::Label(number)));
    assert_eq!(write(&[1, 1, 1, 0, 20]), variable(1));
    assert_eq!(write(&[2, 1, 1, 0, 20, 1, 0, 0, 20]), variable(1));
    assert_eq!(write(&[1, 1, 63, 0, 20]), variable(63));
    assert_eq!(write(&[1, 1, 0, 1, 1, 20]), label(1));
    assert_eq!(write(&[1, 1, 0, 2, 31, 0, 20]), label(31));
    assert_eq!(write(&[1, 1, 2, 1, 1, 20]), variable(2));
}

#[test]
fn unfit_names_are_told_by_their_number() {
    let variable = |name| write_named(&P, &[name], &["bytes", "samples"]);
    for name in ["while", "X", "x.y", " x", "x ", "0", "x??", "né", "_"] {
        let refusal = variable(name).expect_err(name);
        assert_eq!(refusal, Unwritten::UnfitNames(Numbered::Variable(0)));
        assert_eq!(refusal.outcome(), Outcome::UnfitNames);
    }
    assert_eq!(refused(variable("new")), "24 at variable 0: unfit names");
    for labels in [["a", "a"], ["f1", ""], ["a", "?"]] {
        let refusal = write_named(&P, &["x"], &labels);
        assert_eq!(refused(refusal), "24 at label 1: unfit names");
    }
    let unused = write_named(&P, &["x", "y", "x"], &["X"]);
    assert_eq!(refused(unused), "24 at variable 2: unfit names");
}

/// The call refuses, and neither writes nor counts anything.
fn raw(program: &[i32], source: &[u8], names: &[i32], lent: usize) -> Writing {
    let mut text = vec![7; lent];
    let writing = write_words(program, source, names, &mut text);
    assert!(text.iter().all(|byte| *byte == 7));
    assert_ne!(writing.outcome, Outcome::Finished);
    assert_eq!(writing.bytes + writing.variables + writing.labels, 0);
    writing
}

#[test]
fn a_table_of_another_length_is_refused_before_everything() {
    for words in [0, 191, 193] {
        for program in [&P[..], &P[..32], &[]] {
            let writing = raw(program, b"x", &vec![0; words], 0);
            assert_eq!((writing.outcome, writing.place), (Outcome::WrongSize, 0));
            assert_eq!(Unwritten::of(&writing), None);
        }
    }
}

#[test]
fn a_name_that_is_no_part_of_the_source_is_refused() {
    let parts = [(0, 4), (3, 1), (4, 1), (-1, 1), (i32::MAX, 1)];
    let wrong = [(0, -1), (1, i32::MAX), (i32::MIN, i32::MIN)];
    for (place, length) in parts.into_iter().chain(wrong) {
        let mut names = NO_NAMES;
        names[128 + 62..].copy_from_slice(&[place, length]);
        let refusal = Unwritten::of(&raw(&P, b"abc", &names, 1000));
        assert_eq!(refusal, Some(Unwritten::UnfitNames(Numbered::Label(31))));
    }
}

#[test]
fn a_text_that_the_bytes_do_not_hold_is_refused_with_its_length() {
    let length = write(&P).expect("a text").len();
    for lent in [0, 1, length - 1] {
        let writing = raw(&P, &[], &NO_NAMES, lent);
        assert_eq!(writing.outcome, Outcome::TextTooLong);
        assert_eq!(Unwritten::of(&writing), Some(Unwritten::TooLong(length)));
    }
    let earlier = |program| raw(program, &[], &NO_NAMES, 0).outcome;
    assert_eq!(earlier(&P[..32]), Outcome::UnfitProgram);
    assert_eq!(earlier(&[1, 1, 1, 0, 20]), Outcome::UnfitNames);
}

#[test]
fn a_text_of_64_kib_is_written_and_one_byte_more_is_not() {
    let named = |length| write_named(&NIL, &[&"a".repeat(length)], &[]);
    let text = named(LONGEST_TEXT - 7).expect("a text");
    assert_eq!(text.len(), LONGEST_TEXT);
    let again = Program::read(&text).expect("a program");
    assert_eq!(again.words(), NIL);
    assert_eq!(named(LONGEST_TEXT - 6), Err(Unwritten::TooLong(65_537)));
    assert_eq!(
        refused(named(LONGEST_TEXT)),
        "25 at 65543 bytes: the text is too long"
    );
    let longer = "24 at variable 0: unfit names";
    assert_eq!(refused(named(LONGEST_TEXT + 1)), longer);
}

#[test]
fn names_that_pass_64_kib_together_are_unfit() {
    let (long, last) = ("a".repeat(40_000), "b".repeat(25_536));
    let written = |third| write_named(&NIL, &[&long, &last, third], &[]);
    assert_eq!(written("").map(|text| text.len()), Ok(40_007));
    assert_eq!(refused(written("c")), "24 at variable 2: unfit names");
    let unread = write_named(&P[..32], &[&long, &long], &[]);
    assert_eq!(unread, Err(Unwritten::UnfitProgram(32)));
}

/// Sixteen blocks of 250 skips, in six loops: a text with little white space,
/// and the form in which it would be written.
fn long() -> (String, String) {
    let (open, indent) = ("while true do {", |depth| "  ".repeat(depth));
    let skips = vec!["skip"; 250];
    let block = format!("{open}{}}}", skips.join(";"));
    let typed = vec![block; 16].join(";");
    let typed = format!("{}{typed}{}", open.repeat(6), "}".repeat(6));

    let between = format!(";\n{}", indent(7));
    let (skips, start) = (skips.join(&between), indent(6));
    let block = format!("{start}{open}\n  {start}{skips}\n{start}}}");
    let mut written = vec![block; 16].join(";\n");
    for depth in (0..6).rev() {
        let start = indent(depth);
        written = format!("{start}{open}\n{written}\n{start}}}");
    }
    (typed, written)
}

/// The bytes lent would hold it, and yet it is over 64 KiB. The program prints
/// as it was typed.
#[test]
fn a_program_whose_form_is_over_64_kib_is_not_written() {
    let (typed, written) = long();
    assert!(typed.len() < LONGEST_TEXT && LONGEST_TEXT < written.len());
    let program = Program::read(&typed).expect("a program");
    let too_long = Unwritten::TooLong(written.len());
    assert_eq!(program.write(&mut vec![0; 100_000]), Err(too_long));
    assert_eq!(write(program.words()), Err(too_long));
    let writing = raw(program.words(), &[], &NO_NAMES, 100_000);
    assert_eq!(Unwritten::of(&writing), Some(too_long));
    assert_eq!(program.to_string(), typed);
}
