//! Lists of entries: their form, places and order (document 02, W3).

mod common;
use common::cores::*;
use common::*;

#[test]
fn all_go_through() {
    let entries = list(&[&samples(32), &header(20)], &[1, 64, 144, 1, 64, 148]);
    let finish = check_list(&entries, (0, 2, 2, 2, 0));
    let sheet = &entries.sheet;
    check_tables(
        &finish,
        &sheet.environment,
        &file(148, 20, 32),
        &sheet.constraints,
    );
}

#[test]
fn the_four_literals() {
    let given: [&[i32]; 4] = [&[1, 0, 20], &[2, 0, 21], &[63, 0, 22], &[4, 0, 23, -7]];
    let finish = check_list(&fresh_list(&given, &[0; 4]), (0, 4, 4, 4, 0));
    let cells = [(1, NIL), (2, boolean(false)), (63, boolean(true))];
    let cells = [&cells[..], &[(4, int(-7))]].concat();
    assert_eq!(finish.environment, environment(&cells));
    for integer in [i32::MIN, i32::MAX, 20, 23] {
        let finish = check_list(&fresh_list(&[&[0, 0, 23, integer]], &[0]), (0, 1, 1, 1, 0));
        assert_eq!(finish.environment, environment(&[(0, int(integer))]));
    }
}

#[test]
fn seven_labels() {
    let mut deep = fresh_list(&[&[0, 7, 31, 31, 31, 31, 31, 31, 0, 22]], &[0]);
    deep.sheet.environment = environment(&[(0, reference(0))]);
    deep.sheet.heap = heap(&[&[(31, reference(0)), (0, NIL)]]);
    let finish = check_list(&deep, (0, 1, 1, 1, 0));
    let after = heap(&[&[(31, reference(0)), (0, boolean(true))]]);
    assert_eq!(finish.heap, after);
}

#[test]
fn no_entries() {
    check_list_unchanged(&list(&[], &[]), (0, 0, 0, 0, 0));
    let mut none = list(&[], &[1, 64, 144]);
    check_list_unchanged(&none, (0, 0, 0, 0, 3));
    none.sheet.budget = 0;
    check_list_unchanged(&none, (0, 0, 0, 0, 3));
    none.sheet.heap = file(81, 16, 16);
    check_list_unchanged(&none, (4, 13, 0, 0, 3));
}

/// More words than a program may have, and more entries than a block.
#[test]
fn lists_have_no_limit() {
    let entry = [0, 1, 2, 23, 16];
    let many = list(&vec![&entry[..]; 2000], &[0; 2001]);
    let mut whole = many.clone();
    whole.sheet.budget = 2000;
    check_list_unchanged(&whole, (0, 2000, 2000, 2000, 1));
    check_list_unchanged(&many, (5, 100, 100, 100, 1901));
    let mut cut = whole;
    cut.entries.pop();
    check_list_unchanged(&cut, (23, 1999, 1999, 1999, 2));
}

#[test]
fn two_hundred_fields() {
    let (mut entries, mut proposals) = (Vec::new(), Vec::new());
    for number in 17..217 {
        entries.push(samples(number));
        proposals.extend([1, 64, 16 + 4 * number]);
    }
    let entries: Vec<&[i32]> = entries.iter().map(|entry| &entry[..]).collect();
    let mut morning = list(&entries, &proposals);
    morning.sheet.budget = 200;
    let finish = check_list(&morning, (0, 200, 200, 200, 0));
    assert_eq!(finish.heap, file(880, 16, 216));
    let last = morning.sheet.proposals.len() - 1;
    morning.sheet.proposals[last] += 1;
    let finish = check_list(&morning, (19, 199, 200, 199, 3));
    assert_eq!(finish.heap, file(876, 16, 215));
}

/// The program's block is not run, and what it would keep is not kept.
#[test]
fn the_program_is_not_run() {
    let mut entries = fresh_list(&[&[1, 0, 22]], &[0]);
    entries.sheet.program = CORE.to_vec();
    entries.sheet.budget = 1;
    let finish = check_list(&entries, (0, 1, 1, 1, 0));
    let after = environment(&[(1, boolean(true))]);
    check_tables(
        &finish,
        &after,
        &entries.sheet.heap,
        &entries.sheet.constraints,
    );
}

#[test]
fn what_comes_before_all_has_its_own_place() {
    let mut entries = list(&[&[64]], &[9]);
    entries.sheet.program[13] = 9;
    entries.sheet.heap[0] = 65;
    let read = entries.sheet.clone();
    for budget in [-1, 1_000_001] {
        entries.sheet.budget = budget;
        check_list_unchanged(&entries, (1, 0, 0, 0, 1));
    }
    entries.sheet.budget = 0;
    entries.sheet.constraints.push(0);
    check_list_unchanged(&entries, (1, 0, 0, 0, 1));
    entries.sheet.constraints.pop();
    check_list_unchanged(&entries, (2, 13, 0, 0, 1));
    entries.sheet.program.clear();
    check_list_unchanged(&entries, (2, 0, 0, 0, 1));
    entries.sheet.program = vec![0; 4097];
    check_list_unchanged(&entries, (2, 4096, 0, 0, 1));
    entries.sheet.program = CORE.to_vec();
    check_list_unchanged(&entries, (3, 1, 0, 0, 1));
    entries.sheet.heap = file(81, 16, 16);
    entries.sheet.constraints = constraints(&[13, 13], &[]);
    check_list_unchanged(&entries, (3, 2, 0, 0, 1));
    entries.sheet.constraints = read.constraints;
    check_list_unchanged(&entries, (4, 13, 0, 0, 1));
    entries.sheet.heap = file(80, 16, 16);
    check_list_unchanged(&entries, (23, 0, 0, 0, 1));
}

/// The words of W2, in the entry or in the kept constraint, are not told.
#[test]
fn the_place_is_the_index() {
    let first = samples(16);
    for (entry, proposals, expected) in [
        (&[0, 1, 3, 20][..], &[0, 0][..], (7, 1, 2, 1, 1)),
        (&[5, 1, 0, 20], &[0, 0], (7, 1, 2, 1, 1)),
        (&[0, 2, 0, 0, 20], &[0, 0], (7, 1, 2, 1, 1)),
        (&[0, 0, 20], &[0, 0], (15, 1, 2, 1, 1)),
        (&[0, 1, 1, 22], &[0, 0], (15, 1, 2, 1, 1)),
        (&samples(32), &[0], (6, 1, 2, 1, 0)),
        (&samples(32), &[0, 1, 64], (16, 1, 2, 1, 2)),
        (&samples(32), &[0, 1, 66, 16], (17, 1, 2, 1, 3)),
        (&samples(16), &[0, 1, 64, 81], (18, 1, 2, 1, 3)),
        (&samples(32), &[0, 0], (19, 1, 2, 1, 1)),
        (&samples(32), &[0, 1, 64, 145], (19, 1, 2, 1, 3)),
    ] {
        check_list_unchanged(&list(&[&first, entry], proposals), expected);
    }
}

/// What the entries before a refused one did stays.
#[test]
fn earlier_entries_stay() {
    let entries = list(&[&samples(32), &header(20)], &[1, 64, 144, 1, 64, 144]);
    let finish = check_list(&entries, (17, 1, 2, 1, 3));
    assert_eq!(finish.heap, file(144, 16, 32));
}

#[test]
fn each_one_begun_costs_a_step() {
    let mut entries = list(&[&samples(32), &header(20)], &[1, 64, 144, 1, 64, 148]);
    for (budget, expected) in [
        (0, (5, 0, 0, 0, 6)),
        (1, (5, 1, 1, 1, 3)),
        (2, (0, 2, 2, 2, 0)),
        (1_000_000, (0, 2, 2, 2, 0)),
    ] {
        entries.sheet.budget = budget;
        check_list(&entries, expected);
    }
    entries.sheet.proposals.truncate(3);
    check_list(&entries, (6, 1, 2, 1, 0));
    entries.sheet.budget = 1;
    check_list(&entries, (5, 1, 1, 1, 0));
}

#[test]
fn words_left_are_unread() {
    let entries = list(&[&samples(32)], &[1, 64, 144, 9, 9]);
    check_list(&entries, (0, 1, 1, 1, 2));
}
