//! Runs of document 01's sheets, refusals at the start, and two threads.

mod common;
use common::sheet;
use cordbasin::{run, run_words, Outcome, Tables, Value};
use std::fs;
use std::path::Path;
use std::sync::Barrier;
use std::thread;

/// The program P of document 01.
const P: [i32; 33] = [
    3, 2, 0, 2, 0, 23, 64, 1, 23, 16, 3, 1, 3, 25, 6, 24, 0, 1, 0, 25, 3, 23, 4, 24, 0, 1, 1, 1, 0,
    1, 1, 23, 32,
];

const K1: [i32; 5] = [0, 0, 1, 64, 128];

#[test]
fn k1_finishes() {
    let mut tables = Tables::fresh();
    let answer = run(&P, &mut tables, &K1, 100);
    assert_eq!(answer.outcome, Outcome::Finished);
    assert_eq!((answer.place, answer.steps, answer.accepted), (33, 3, 3));
    assert!(answer.unread.is_empty());
    assert_eq!(tables.at(0, &[0]), Some(Value::Int(128)));
    assert_eq!(tables.kept_constraints(), [10]);
    assert!(tables.kept_identities().is_empty());
}

#[test]
fn k2_leaves_the_state_after_two_statements() {
    let mut tables = Tables::fresh();
    let proposals = [0, 0, 1, 65, 8];
    let answer = run(&P, &mut tables, &proposals, 100);
    assert_eq!(answer.outcome, Outcome::UnfitEntry);
    assert_eq!((answer.place, answer.steps, answer.accepted), (27, 3, 2));
    assert_eq!(tables.field(0, 0), Some(Value::Int(64)));
    assert_eq!(tables.field(0, 1), Some(Value::Int(16)));
    assert_eq!(tables.kept_constraints(), [10]);
}

#[test]
fn k4_keeps_no_constraint() {
    let mut tables = Tables::fresh();
    let answer = run(&P, &mut tables, &[0, 1, 65, 17], 100);
    assert_eq!(answer.outcome, Outcome::NeedlessChange);
    assert_eq!((answer.place, answer.steps, answer.accepted), (10, 2, 1));
    assert!(tables.kept_constraints().is_empty());
}

/// The unread part is a part of the caller's slice, not a copy.
#[test]
fn unread_words_are_the_callers_own() {
    let proposals = [0, 0, 1, 65, 8];
    let unread = run(&P, &mut Tables::fresh(), &proposals, 100).unread;
    assert_eq!(unread, [1, 65, 8]);
    assert_eq!(unread.as_ptr(), proposals[2..].as_ptr());
}

/// Every sheet of the folder with the lister's output for it.
#[test]
fn known_sheets_print_as_the_lister_does() {
    let folder = Path::new(env!("CARGO_MANIFEST_DIR")).join("../../sheets/k");
    let mut sheets = 0;
    for file in fs::read_dir(folder).expect("the folder").flatten() {
        let input = file.path();
        if input.extension().is_some_and(|end| end == "in") {
            let text = fs::read_to_string(&input).expect("a sheet");
            let output = fs::read_to_string(input.with_extension("out")).expect("its output");
            assert_eq!(listed(&text), output, "{}", input.display());
            sheets += 1;
        }
    }
    assert_eq!(sheets, 14);
}

fn listed(input: &str) -> String {
    let (sheet, mut tables) = (sheet(input), Tables::fresh());
    let answer = run(&sheet.program, &mut tables, &sheet.proposals, sheet.budget);
    format!("{answer}{tables}")
}

/// Nothing is begun, read or changed.
fn refused(program: &[i32], tables: &Tables, budget: i32) -> (Outcome, usize) {
    let mut after = tables.clone();
    let answer = run(program, &mut after, &K1, budget);
    assert_eq!((answer.steps, answer.accepted), (0, 0));
    assert_eq!(answer.unread, K1);
    assert_eq!(&after, tables);
    (answer.outcome, answer.place)
}

#[test]
fn the_start_refuses_in_its_order() {
    let fresh = Tables::fresh();
    for budget in [-1, 1_000_001, i32::MIN, i32::MAX] {
        assert_eq!(refused(&[], &fresh, budget), (Outcome::WrongSize, 0));
    }
    assert_eq!(refused(&[], &fresh, 100), (Outcome::UnfitProgram, 0));
    assert_eq!(refused(&P[..32], &fresh, 100), (Outcome::UnfitProgram, 32));
    assert_eq!(refused(&[9, 77], &fresh, 100), (Outcome::UnfitProgram, 1));
    let long = [0; 4097];
    assert_eq!(refused(&long, &fresh, 100), (Outcome::UnfitProgram, 4096));

    let unfit = |change: fn(&mut Tables)| {
        let mut tables = Tables::fresh();
        change(&mut tables);
        refused(&P, &tables, 100)
    };
    let environment = unfit(|tables| tables.environment[0] = 5);
    assert_eq!(environment, (Outcome::UnfitTable, 0));
    let heap = unfit(|tables| tables.heap[0] = 65);
    assert_eq!(heap, (Outcome::UnfitTable, 1));
    let constraints = unfit(|tables| tables.constraints[..3].copy_from_slice(&[1, 0, 11]));
    assert_eq!(constraints, (Outcome::UnfitTable, 2));
    let start = unfit(|tables| tables.constraints[..3].copy_from_slice(&[1, 0, 10]));
    assert_eq!(start, (Outcome::UnfitStart, 10));
}

#[test]
fn tables_of_another_length_are_refused() {
    let lengths = [(127, 1601, 98), (128, 1602, 98), (128, 1601, 0)];
    for (environment, heap, constraints) in lengths {
        let mut environment = vec![0; environment];
        let mut heap = vec![0; heap];
        let mut constraints = vec![0; constraints];
        let answer = run_words(&P, &mut environment, &mut heap, &mut constraints, &K1, 100);
        assert_eq!(answer.outcome, Outcome::WrongSize);
        assert_eq!((answer.place, answer.unread), (0, &K1[..]));
    }
}

/// Tables that one run left are the next one's: there P makes record 1.
#[test]
fn a_run_goes_on_where_another_ended() {
    let mut tables = Tables::fresh();
    assert_eq!(run(&P, &mut tables, &K1, 2).outcome, Outcome::BudgetSpent);
    let second = run(&P, &mut tables, &[0, 0, 1, 72, 128], 100);
    assert_eq!(second.outcome, Outcome::Finished);
    assert_eq!(tables.records(), 2);
    assert_eq!(tables.variable(0), Some(Value::Ref(1)));
    assert_eq!(tables.field(0, 0), Some(Value::Int(64)));
    assert_eq!(tables.at(0, &[0]), Some(Value::Int(128)));
}

#[test]
fn outcomes_have_their_numbers() {
    for (number, outcome) in (0..).zip(Outcome::ALL) {
        assert_eq!(outcome.number(), number);
        assert_eq!(Outcome::of_number(number), Some(outcome));
        assert!(!outcome.says().is_empty());
    }
    assert_eq!(Outcome::of_number(-1), None);
    assert_eq!(Outcome::of_number(26), None);
}

/// Two threads that start together, each on tables of its own: x counts to
/// its own end, under a kept constraint.
#[test]
fn two_threads_run_at_once() {
    let together = Barrier::new(2);
    let count = |end: i32| {
        let program = [
            3, 1, 0, 0, 23, 0, // x := 0
            3, 1, 3, 25, 5, 24, 0, 0, 23, end, // always required x <= end
            8, 25, 7, 24, 0, 0, 23, end, // while x != end
            1, 1, 0, 0, 25, 1, 24, 0, 0, 23, 1, // x := x + 1
        ];
        let proposals = vec![0; end as usize + 2];
        together.wait();
        for _ in 0..20 {
            let mut tables = Tables::fresh();
            let answer = run(&program, &mut tables, &proposals, 1_000_000);
            assert_eq!(answer.outcome, Outcome::Finished);
            assert_eq!(answer.steps, 3 + 2 * end as u32);
            assert_eq!(tables.variable(0), Some(Value::Int(end)));
        }
    };
    thread::scope(|scope| {
        scope.spawn(|| count(10_000));
        scope.spawn(|| count(9_000));
    });
}
