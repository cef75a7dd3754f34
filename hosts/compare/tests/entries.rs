//! `cordbasin_assign` on lists whose answers are known, and on a short run.

use compare::entries::{by_program, call, compare, is_met};
use compare::sheets;
use reference::batch::{List, Sheet};
use reference::generator;

/// Two hundred lengths of a morning, 33 samples to 232, each with a proposal
/// for its bytes, over what the run of a sheet left.
fn morning() -> List {
    let text = "x := new {bytes: 64, samples: 16};
        always required x.bytes = 4 * x.samples";
    let program = cordbasin::Program::read(text).expect("a program");
    let mut sheet = Sheet::fresh(program.words().to_vec(), vec![0, 0], 200);
    let left = sheets::call(&sheet);
    sheet.environment = left.environment;
    sheet.heap = left.heap;
    sheet.constraints = left.constraints;
    let proposals = (33..233).flat_map(|samples| [1, 64, 4 * samples]);
    sheet.proposals = proposals.collect();
    let entries = (33..233).flat_map(|samples| [0, 1, 1, 23, samples]);
    List {
        sheet,
        entries: entries.collect(),
    }
}

#[test]
fn two_hundred_entries_go_through() {
    let list = morning();
    let finish = call(&list);
    assert_eq!(finish.heap[..8], [1, 2, 0, 3, 928, 1, 3, 232]);
    let line = finish.line(&list.sheet);
    assert!(line.starts_with("0 200 200 200 0|=|"), "{line}");
    assert!(line.ends_with("|="), "{line}");
    assert_eq!(by_program(&list, &finish), Some(finish));
}

/// No table changes, and no proposal word is read.
#[test]
fn wrong_lengths_are_refused() {
    let right = morning();
    let refused = |change: &dyn Fn(&mut Sheet)| {
        let mut list = right.clone();
        change(&mut list.sheet);
        assert_eq!(call(&list).line(&list.sheet), "1 0 0 0 600|=|=|=");
    };
    for words in [0, 1, 127, 129, 1601] {
        refused(&|sheet| sheet.environment.resize(words, 0));
    }
    for words in [0, 1, 128, 1600, 1602] {
        refused(&|sheet| sheet.heap.resize(words, 0));
    }
    for words in [0, 1, 97, 99, 128] {
        refused(&|sheet| sheet.constraints.resize(words, 0));
    }
    for budget in [i32::MIN, -1, 1_000_001, i32::MAX] {
        refused(&|sheet| sheet.budget = budget);
    }
}

#[test]
fn lists_give_what_runs_give() {
    let mut programs = 0;
    for index in 0..800 {
        let list = generator::list(7, index);
        let finish = call(&list);
        if let Some(run) = by_program(&list, &finish) {
            assert_eq!(run, finish, "{}", list.line());
            programs += 1;
        }
    }
    assert!(programs > 400, "only {programs}");
}

#[test]
fn a_short_run_is_the_same() {
    let tally = compare(3, 4000).expect("no difference");
    assert_eq!(tally.cases(), 4000);
    assert!(is_met(&tally, 20), "{tally}");
    assert!(tally.noted.programs > 2000, "{tally}");
}
