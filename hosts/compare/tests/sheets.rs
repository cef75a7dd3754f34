//! The C call on sheets whose answers are known, and on a short run.

use compare::sheets::{call, compare, rare};
use reference::batch::{Finish, Sheet};
use reference::classes::Classes;
use reference::counts::Counts;
use reference::run::Answer;
use std::fs;
use std::path::Path;

/// The sheets K1 to K12 of document 01, each with how many proposal words it
/// leaves unread, which the lister does not print.
const KNOWN: [(&str, usize); 14] = [
    ("k01", 0),
    ("k02", 3),
    ("k03", 1),
    ("k04", 3),
    ("k05", 0),
    ("k06", 3),
    ("k07a", 0),
    ("k07b", 0),
    ("k08", 0),
    ("k09", 1),
    ("k10", 1),
    ("k11", 1),
    ("k12a", 1),
    ("k12b", 1),
];

/// The program P of document 01.
const P: [i32; 33] = [
    3, 2, 0, 2, 0, 23, 64, 1, 23, 16, 3, 1, 3, 25, 6, 24, 0, 1, 0, 25, 3, 23, 4, 24, 0, 1, 1, 1, 0,
    1, 1, 23, 32,
];

#[test]
fn known_sheets_have_their_answers() {
    let folder = Path::new(env!("CARGO_MANIFEST_DIR")).join("../../sheets/k");
    let read = |name: String| fs::read_to_string(folder.join(name)).expect("a sheet");
    for (name, unread) in KNOWN {
        let sheet = sheet(&read(format!("{name}.in")));
        let finish = finish(&read(format!("{name}.out")), unread);
        assert_eq!(call(&sheet), finish, "{name}");
    }
    let inputs = fs::read_dir(&folder).expect("the folder").flatten();
    let inputs = inputs.filter(|file| file.path().extension().is_some_and(|end| end == "in"));
    assert_eq!(inputs.count(), KNOWN.len());
}

/// The fresh sheet that a lister's input is.
fn sheet(input: &str) -> Sheet {
    let line = |name: &str| input.lines().find_map(|line| line.strip_prefix(name));
    let words = |name| -> Vec<i32> {
        let list = line(name).expect("a line").split_whitespace();
        list.map(number).collect()
    };
    let budget = line("budget=").map(number).expect("a budget");
    Sheet::fresh(words("program="), words("proposals="), budget)
}

/// The answer and the whole tables that a lister's output tells.
fn finish(output: &str, unread: usize) -> Finish {
    let mut lines = output.lines();
    let mut next = |name| {
        let line = lines.next().and_then(|line| line.strip_prefix(name));
        line.expect(name)
    };
    let answer = Answer {
        outcome: number(next("outcome=")),
        place: index(next("place=")),
        steps: index(next("steps=")) as u32,
        accepted: index(next("proposals=")) as u32,
        unread,
    };
    let mut finish = Finish {
        answer,
        environment: vec![0; 128],
        heap: vec![0; 1601],
        constraints: vec![0; 98],
    };
    lines.for_each(|line| tell(&mut finish, line));
    finish
}

/// Puts what a line tells into its table. Records, fields and kept positions
/// come in their order.
fn tell(finish: &mut Finish, line: &str) {
    let (name, value) = line.split_once('=').expect("a line of the tables");
    let (letter, rest) = name.split_at(1);
    match (letter, rest.split_once('.')) {
        ("v", None) => put(&mut finish.environment, 2 * index(rest), &cell(value)),
        ("r", None) => {
            finish.heap[0] += 1;
            put(&mut finish.heap, record(rest), &[number(value)]);
        }
        ("r", Some((own, label))) => {
            let mut places = (0..8).map(|place| record(own) + 1 + 3 * place);
            let at = places.find(|at| finish.heap[at + 1] == 0);
            let [kind, payload] = cell(value);
            let field = [number(label), kind, payload];
            put(&mut finish.heap, at.expect("a place"), &field);
        }
        ("c", None) => {
            finish.constraints[0] += 1;
            put(&mut finish.constraints, 2 + index(rest), &[number(value)]);
        }
        ("i", None) => {
            finish.constraints[1] += 1;
            put(&mut finish.constraints, 66 + index(rest), &[number(value)]);
        }
        _ => panic!("{line} tells of no table"),
    }
}

fn put(table: &mut [i32], at: usize, words: &[i32]) {
    table[at..at + words.len()].copy_from_slice(words);
}

/// The word of a record's field count.
fn record(number: &str) -> usize {
    1 + 25 * index(number)
}

fn cell(value: &str) -> [i32; 2] {
    match value.split_once(' ') {
        Some(("bool", payload)) => [2, number(payload)],
        Some(("int", payload)) => [3, number(payload)],
        Some(("ref", payload)) => [4, number(payload)],
        _ => {
            assert_eq!(value, "nil");
            [1, 0]
        }
    }
}

fn index(text: &str) -> usize {
    text.parse().expect("a number")
}

fn number(text: &str) -> i32 {
    text.parse().expect("a word")
}

/// K1 with something wrong about its lengths or its budget. No table changes,
/// and no proposal word is read.
#[test]
fn wrong_lengths_are_refused() {
    let right = Sheet::fresh(P.to_vec(), vec![0, 0, 1, 64, 128], 100);
    let refused = |outcome, place, change: &dyn Fn(&mut Sheet)| {
        let mut sheet = right.clone();
        change(&mut sheet);
        let finish = call(&sheet);
        let answer = &finish.answer;
        assert_eq!((answer.outcome, answer.place), (outcome, place));
        assert_eq!((answer.steps, answer.accepted), (0, 0));
        assert_eq!(answer.unread, sheet.proposals.len());
        assert_eq!(finish.environment, sheet.environment);
        assert_eq!(finish.heap, sheet.heap);
        assert_eq!(finish.constraints, sheet.constraints);
    };
    for words in [0, 1, 127, 129, 1601] {
        refused(1, 0, &|sheet| sheet.environment.resize(words, 0));
    }
    for words in [0, 1, 128, 1600, 1602] {
        refused(1, 0, &|sheet| sheet.heap.resize(words, 0));
    }
    for words in [0, 1, 97, 99, 128] {
        refused(1, 0, &|sheet| sheet.constraints.resize(words, 0));
    }
    for budget in [i32::MIN, -1, 1_000_001, i32::MAX] {
        refused(1, 0, &|sheet| sheet.budget = budget);
    }
    refused(2, 0, &|sheet| sheet.program.clear());
    refused(2, 4096, &|sheet| sheet.program.resize(4097, 0));
    refused(2, 4096, &|sheet| sheet.program = vec![-1; 100_000]);
}

/// 33 variables that hold one record are tied in a chain, whose identities are
/// kept in this order; then a target takes a new one.
fn chain(order: impl Iterator<Item = i32>, target: i32, proposals: usize) -> Sheet {
    let mut program = vec![66, 2, 0, 0];
    program.extend((1..33).flat_map(|x| [1, x, 0, 24, x - 1, 0]));
    program.extend(order.flat_map(|x| [5, x, 0, x + 1, 0]));
    program.extend([2, target, 0]);
    Sheet::fresh(program, vec![0; proposals], 100)
}

/// The whole class moves, or is taken back where a proposal is missing.
#[test]
fn a_class_is_the_same_whatever_the_order() {
    for factor in (1..32).step_by(2) {
        for (target, shift) in [(0, 0), (16, 7), (32, 31)] {
            let order = || (0..32).map(move |x| (x * factor + shift) % 32);
            for (proposals, outcome) in [(34, 0), (33, 6)] {
                let sheet = chain(order(), target, proposals);
                let finish = call(&sheet);
                assert_eq!(finish, sheet.answer());
                assert_eq!(finish.answer.outcome, outcome);
                let record = i32::from(outcome == 0);
                assert_eq!(finish.environment[..66], [[4, record]; 33].concat());
            }
        }
    }
}

#[test]
fn a_short_run_is_the_same() {
    let tally = compare(3, 4000).expect("no difference");
    assert_eq!(tally.cases(), 4000);
    assert!(tally.outcomes.iter().all(|sheets| *sheets > 20), "{tally}");
    assert!(tally.noted.places.are_met(50), "{tally}");
    assert!(tally.noted.unlike.are_met(80, 15), "{tally}");
    assert!(tally.noted.classes.are_met(150, 4, 40), "{tally}");
}

#[test]
fn what_is_rare_in_a_long_run_is_told() {
    let mut counts = Counts::default();
    counts.places.sorts = [1; 5];
    counts.places.outcomes = [10_000; 4];
    counts.unlike.counts = [8000, 1000, 1000];
    (counts.classes.moved, counts.classes.taken_back) = (25_000, 1000);
    counts.classes.refused = [2500; 2];
    assert_eq!(rare(&counts, 1_000_000), None);
    assert_eq!(
        rare(&counts, 1_000_001),
        Some("comparisons of unlike kinds")
    );
    for change in [
        |classes: &mut Classes| classes.moved -= 1,
        |classes: &mut Classes| classes.taken_back -= 1,
        |classes: &mut Classes| classes.refused[0] -= 1,
        |classes: &mut Classes| classes.refused[1] -= 1,
    ] {
        let mut fewer = counts.clone();
        change(&mut fewer.classes);
        assert_eq!(rare(&fewer, 1_000_000), Some("large classes"));
    }
    counts.unlike.counts = [50_000, 50_000, 999];
    assert_eq!(
        rare(&counts, 1_000_000),
        Some("comparisons of unlike kinds")
    );
    counts.places.outcomes[0] = 9999;
    assert_eq!(rare(&counts, 1_000_000), Some("places inside"));
    assert_eq!(rare(&counts, 999_999), None);
}
