//! What is not written: 1, 2, 24 and 25, each with its place.

mod common;

use common::writer::{call, pairs, refused, table, writes, writes_with};
use reference::text::KEYWORDS;
use reference::writer::{write, Fault};

/// `v0.f0 := v1.f1`
const ASSIGNED: [i32; 9] = [1, 1, 0, 1, 0, 24, 1, 1, 1];

#[test]
fn tables_of_another_length() {
    for length in [0, 1, 128, 191, 193, 400] {
        let names = (Vec::new(), vec![0; length]);
        refused(&ASSIGNED, &names, 1, 0);
        // Before an unfit program and unfit names.
        refused(&[9], &names, 1, 0);
        refused(&ASSIGNED, &(Vec::new(), vec![-1; length]), 1, 0);
    }
}

#[test]
fn unfit_programs() {
    let none = table(&[]);
    for (program, place) in [
        (&[][..], 0),
        (&[-1], 0),
        (&[256], 0),
        (&[1], 1),
        (&[0, 0], 1),
        (&[1, 9], 1),
        (&[1, 1, 64, 0, 20], 2),
        (&[1, 1, 0, 8], 3),
        (&[1, 1, 0, 1, 32, 20], 4),
        (&[1, 1, 0, 0, 27], 4),
        (&[1, 1, 0, 0, 25, 12, 20, 20], 5),
        (&[1, 2, 0, 2, 0, 20, 0, 20], 6),
        (&[1, 3, 0], 2),
        (&[1, 4, 1, 4, 22], 3),
        (&[1, 4, 1, 3, 26, 0, 0, 0, 0], 4),
        (&[1, 8, 22], 3),
    ] {
        refused(program, &none, 2, place);
    }
    refused(&[0; 4097], &none, 2, 4096);
    refused(&[&[255][..], &[0; 4096]].concat(), &none, 2, 4096);
    let nested = [&[1, 8, 22].repeat(8)[..], &[0]].concat();
    refused(&nested, &none, 2, 24);
    let deep = [&[1, 1, 0, 0][..], &[25, 1].repeat(16), &[23, 1].repeat(17)].concat();
    refused(&deep, &none, 2, 36);
    // Before unfit names.
    refused(&[1, 9], &table(&[(0, "new")]), 2, 1);
}

/// Names that are refused at each number, used by the program or not.
fn unfit_name(name: &str) {
    for number in [0, 1, 2, 63, 64, 65, 66, 95] {
        refused(&ASSIGNED, &table(&[(number, name)]), 24, number);
        refused(&[0], &table(&[(number, name)]), 24, number);
    }
}

#[test]
fn names_that_no_text_has() {
    for keyword in KEYWORDS {
        unfit_name(keyword);
    }
    for name in [
        "X", "Xa", "0", "9a", "_", "_a", "?", "-a", " a", "a ", "a b", "a-b", "a.b", "a?b", "a??",
        "a?_", "a\n", "a\0", "\u{e9}", "a\u{e9}", "a{", "a:", "(a)", "if ", "a/b", "a@", "a[",
        "a`",
    ] {
        unfit_name(name);
    }
    let bytes = pairs(b"a\xffb\x80", &[(0, 0, 2)]);
    refused(&ASSIGNED, &bytes, 24, 0);
    refused(&ASSIGNED, &pairs(b"a\xffb\x80", &[(1, 3, 1)]), 24, 1);
    for name in ["a", "z", "aZ09_", "a?", "if?", "news", "nil_", "a9?"] {
        let text = format!("{name}.f0 := v1.f1");
        writes_with(&[(0, name)], &ASSIGNED, &text);
    }
}

#[test]
fn names_outside_the_source() {
    let source = b"abcdef";
    for (place, length) in [
        (-1, 1),
        (-1, 2),
        (0, -1),
        (3, -1),
        (0, 7),
        (5, 2),
        (6, 1),
        (7, 1),
        (7, -1),
        (i32::MIN, 1),
        (i32::MAX, 1),
        (0, i32::MIN),
        (0, i32::MAX),
        (1, i32::MAX),
        (i32::MAX, i32::MAX),
        (i32::MIN, i32::MIN),
        (-3, i32::MAX),
    ] {
        for number in [0, 1, 40, 63, 64, 65, 95] {
            let names = pairs(source, &[(number, place, length)]);
            refused(&ASSIGNED, &names, 24, number);
            let told = write(&ASSIGNED, source, &names.1, 0).fault;
            assert_eq!(told, Some(Fault::Outside));
        }
    }
    refused(&ASSIGNED, &pairs(b"", &[(1, 0, 1)]), 24, 1);
}

/// A place is of no account where the length is 0.
#[test]
fn places_without_a_name() {
    for place in [1, -1, 7, i32::MAX, i32::MIN] {
        let names = pairs(b"Xy", &[(0, place, 0), (5, place, 0), (64, place, 0)]);
        let (answer, writing) = call(&ASSIGNED, &names, 20);
        assert_eq!((answer.outcome, answer.bytes), (0, 14));
        assert_eq!(writing.text, b"v0.f0 := v1.f1");
    }
}

#[test]
fn overlapping_names() {
    let names = pairs(b"abc", &[(0, 0, 3), (1, 0, 2), (64, 0, 3), (65, 1, 1)]);
    let (_, writing) = call(&ASSIGNED, &names, 20);
    assert_eq!(writing.text, b"abc.abc := ab.b");
    refused(&ASSIGNED, &pairs(b"aba", &[(0, 0, 1), (1, 2, 1)]), 24, 1);
}

#[test]
fn names_twice() {
    for (names, place) in [
        (&[(0, "x"), (1, "x")][..], 1),
        (&[(1, "x"), (9, "x")], 9),
        (&[(8, "x"), (9, "x")], 9),
        (&[(63, "x"), (0, "x")], 63),
        (&[(64, "x"), (65, "x")], 65),
        (&[(65, "x"), (95, "x")], 95),
        (&[(94, "x"), (95, "x")], 95),
        // A given name that another used number has without one.
        (&[(0, "v1")], 1),
        (&[(1, "v0")], 1),
        (&[(7, "v1")], 7),
        (&[(7, "v0")], 7),
        (&[(64, "f1")], 65),
        (&[(65, "f0")], 65),
        (&[(80, "f1")], 80),
        (&[(2, "v1")], 2),
        (&[(0, "v9"), (9, "v9")], 9),
    ] {
        refused(&ASSIGNED, &table(names), 24, place);
        let (source, names) = table(names);
        let told = write(&ASSIGNED, &source, &names, 0).fault;
        assert_eq!(told, Some(Fault::Twice));
    }
    // Exchanged defaults, and those of numbers that are not used.
    writes_with(&[(0, "v1"), (1, "v0")], &ASSIGNED, "v1.f0 := v0.f1");
    writes_with(&[(0, "v2"), (5, "v6")], &ASSIGNED, "v2.f0 := v1.f1");
    writes_with(&[(2, "v3"), (3, "v2")], &[0], "");
}

#[test]
fn numbers_out_of_order() {
    let none = table(&[]);
    for (program, place) in [
        (&[1, 1, 1, 0, 20][..], 1),
        (&[1, 1, 63, 0, 20], 63),
        (&[1, 1, 0, 1, 1, 20], 65),
        (&[1, 1, 0, 1, 31, 20], 95),
        (&[1, 5, 1, 0, 0, 0], 1),
        (&[1, 5, 0, 0, 2, 0], 2),
        (&[2, 1, 0, 0, 20, 5, 2, 0, 1, 0], 2),
        (&[1, 1, 0, 2, 1, 0, 20], 65),
        (&[1, 2, 0, 2, 1, 20, 0, 20], 65),
        (&[1, 1, 0, 0, 25, 1, 24, 2, 0, 24, 1, 0], 2),
        // Two at fault: the first number is told, of whichever sort.
        (&[1, 5, 3, 0, 2, 0], 2),
        (&[1, 1, 3, 1, 7, 20], 3),
        (&[1, 1, 2, 0, 24, 1, 0], 1),
    ] {
        refused(program, &none, 24, place);
        // Names do not help.
        let names = table(&[(place, "x"), (if place < 64 { 30 } else { 90 }, "y")]);
        refused(program, &names, 24, place);
        let told = write(program, &none.0, &none.1, 0).fault;
        assert_eq!(told, Some(Fault::Order));
    }
}

/// In reading order the target comes before its expression, a test before its
/// blocks, and a record's variable before its labels.
#[test]
fn numbers_in_reading_order() {
    writes(&[1, 1, 0, 0, 24, 1, 0], "v0 := v1");
    writes(
        &[1, 8, 24, 0, 0, 1, 1, 1, 0, 20],
        "while v0 do {\n  v1 := nil\n}",
    );
    writes(
        &[1, 2, 0, 2, 0, 24, 1, 1, 1, 2, 20],
        "v0 := new {f0: v1.f1, f2: nil}",
    );
    writes(
        &[1, 7, 26, 0, 0, 1, 0, 1, 1, 2, 0, 20, 1, 1, 3, 0, 20],
        "if v0 == v1 then {\n  v2 := nil\n} else {\n  v3 := nil\n}",
    );
    let backwards = [1, 7, 26, 0, 0, 1, 0, 1, 1, 3, 0, 20, 1, 1, 2, 0, 20];
    refused(&backwards, &table(&[]), 24, 3);
}

/// The first number at fault, for whatever reason.
#[test]
fn the_first_number_at_fault() {
    let gap = [1, 5, 0, 0, 2, 0];
    refused(&gap, &table(&[(5, "new")]), 24, 2);
    refused(&gap, &table(&[(1, "new")]), 24, 1);
    refused(&gap, &table(&[(64, "new")]), 24, 2);
    refused(&gap, &table(&[(0, "x"), (1, "x")]), 24, 1);
    refused(&ASSIGNED, &table(&[(64, "X"), (63, "X")]), 24, 63);
    refused(
        &ASSIGNED,
        &table(&[(65, "a"), (66, "a"), (64, "X")]),
        24,
        64,
    );
    refused(&ASSIGNED, &table(&[(9, "a"), (10, "a"), (8, "X")]), 24, 8);
    refused(&ASSIGNED, &table(&[(0, "X"), (1, "X")]), 24, 0);
}

#[test]
fn room() {
    let none = table(&[]);
    for room in 0..14 {
        let (answer, _) = call(&ASSIGNED, &none, room);
        assert_eq!((answer.outcome, answer.place), (25, 14));
    }
    for room in [14, 15, 100, 65_536, 70_000] {
        let (answer, _) = call(&ASSIGNED, &none, room);
        assert_eq!((answer.outcome, answer.place), (0, 9));
        assert_eq!((answer.bytes, answer.variables, answer.labels), (14, 2, 2));
    }
    let (answer, _) = call(&[0], &none, 0);
    assert_eq!((answer.outcome, answer.place, answer.bytes), (0, 1, 0));
    // Names are judged before the room.
    let (answer, _) = call(&ASSIGNED, &table(&[(70, "new")]), 0);
    assert_eq!((answer.outcome, answer.place), (24, 70));
}

/// `x := nil` has 7 bytes beside its name.
#[test]
fn texts_about_64_kib() {
    let assigned = [1, 1, 0, 0, 20];
    for (bytes, outcome, place) in [(65_529, 0, 5), (65_530, 25, 65_537), (65_536, 25, 65_543)] {
        let name = "q".repeat(bytes);
        for room in [65_537, 100_000] {
            let (answer, _) = call(&assigned, &table(&[(0, &name)]), room);
            assert_eq!((answer.outcome, answer.place), (outcome, place));
        }
    }
    let fits = "q".repeat(65_529);
    let (answer, _) = call(&assigned, &table(&[(0, &fits)]), 65_536);
    assert_eq!((answer.outcome, answer.bytes), (0, 65_536));
    let (answer, _) = call(&assigned, &table(&[(0, &fits)]), 65_535);
    assert_eq!((answer.outcome, answer.place), (25, 65_536));
}

#[test]
fn the_longest_names() {
    for number in [0, 1, 63, 64, 95] {
        let (longest, longer) = ("q".repeat(65_536), "q".repeat(65_537));
        let (answer, _) = call(&[0], &table(&[(number, &longest)]), 0);
        assert_eq!(answer.outcome, 0);
        refused(&[0], &table(&[(number, &longer)]), 24, number);
    }
    // A text of 3,440 such names: 7 labels behind each variable.
    let path = [&[0, 7][..], &[0; 7]].concat();
    let identity = [&[5][..], &path, &path].concat();
    let program = [&[215][..], &identity.repeat(215)].concat();
    let source = vec![b'q'; 65_536];
    let names = pairs(&source, &[(0, 0, 65_536), (64, 0, 65_536)]);
    let between = "always ".len() + 14 + " == ".len();
    let length = 215 * (16 * 65_536 + between) + 214 * ";\n".len();
    refused(&program, &names, 25, length);
}
