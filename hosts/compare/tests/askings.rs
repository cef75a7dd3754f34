//! `cordbasin_ask` on askings whose answers are known, on words, slices and
//! tables that are not fit, and on a short run.

mod common;

use common::sheets as files;
use compare::askings::{call, compare, is_met, Tally};
use compare::sheets;
use reference::batch::{Asking, Sheet};
use std::fs;

/// The program P of document 01, and the words of its statements. The last sets
/// the samples to 32, for which the bytes have to be 128.
const P: [i32; 33] = [
    3, 2, 0, 2, 0, 23, 64, 1, 23, 16, 3, 1, 3, 25, 6, 24, 0, 1, 0, 25, 3, 23, 4, 24, 0, 1, 1, 1, 0,
    1, 1, 23, 32,
];
const STATEMENTS: [i32; 3] = [1, 10, 27];

const RIGHT: [i32; 3] = [1, 64, 128];

/// Slices that are turned down for the last statement, and by what.
const WRONG: [(i32, &[i32]); 12] = [
    (6, &[]),
    (16, &[-1]),
    (16, &[577]),
    (16, &[1, 64]),
    (16, &[1, 64, 128, 0]),
    (16, &[2, 65, 16, 64, 128]),
    (16, &[1, 65, 16, 0]),
    (17, &[1, 65, 16]),
    (17, &[1, 64, 64]),
    (17, &[2, 64, 128, 66, 1]),
    (19, &[0]),
    (19, &[1, 64, 127]),
];

/// Asks about a statement on fresh tables.
fn fresh(program: &[i32], word: i32, second: &[i32]) -> Asking {
    let sheet = Sheet::fresh(program.to_vec(), vec![], 0);
    Asking {
        program: sheet.program,
        environment: sheet.environment,
        heap: sheet.heap,
        constraints: sheet.constraints,
        word,
        first: vec![],
        second: second.to_vec(),
    }
}

/// Asks about P's last statement in the state before it.
fn asking(first: &[i32], second: &[i32]) -> Asking {
    let left = sheets::call(&Sheet::fresh(P.to_vec(), vec![0, 0], 2));
    Asking {
        environment: left.environment,
        heap: left.heap,
        constraints: left.constraints,
        first: first.to_vec(),
        ..fresh(&P, 27, second)
    }
}

/// The answer line that both programs give.
fn told(asking: &Asking) -> String {
    let [proved, independent] = [call(asking), asking.answer()].map(|finish| finish.line(asking));
    assert_eq!(proved, independent, "{}", asking.line());
    proved
}

/// Nothing is handed back, and no table changes.
fn test_refused(asking: &Asking, outcome: i32, place: i32) {
    let line = format!("{outcome} {place} 0 0|=|=|=");
    assert_eq!(told(asking), line, "{}", asking.line());
}

fn test_accepted(asking: &Asking, start: &str) {
    let line = told(asking);
    assert!(line.starts_with(start), "{line} for {}", asking.line());
    assert!(line.ends_with("|="), "{line}");
    assert_eq!(call(asking).heap[..8], [1, 2, 0, 3, 128, 1, 3, 32]);
}

#[test]
fn the_first_is_taken_where_it_is_right() {
    test_accepted(&asking(&RIGHT, &RIGHT), "0 27 1 3|=|");
    for (_, wrong) in WRONG {
        test_accepted(&asking(&RIGHT, wrong), "0 27 1 3|=|");
    }
}

#[test]
fn the_second_is_taken_where_the_first_is_turned_down() {
    for (_, wrong) in WRONG {
        test_accepted(&asking(wrong, &RIGHT), "0 27 2 3|=|");
    }
}

#[test]
fn both_in_vain_give_the_number_of_the_second_that_has_words() {
    for (own, first) in WRONG {
        test_refused(&asking(first, &[]), own, 27);
        for (number, second) in WRONG.into_iter().filter(|(_, slice)| !slice.is_empty()) {
            test_refused(&asking(first, second), number, 27);
        }
    }
}

/// One statement after the other leaves what the run of K1 does.
#[test]
fn statements_that_are_asked_about_in_turn_are_a_run() {
    let mut left = fresh(&P, 0, &[]);
    for (word, slice) in STATEMENTS.into_iter().zip([&[0][..], &[0], &RIGHT]) {
        (left.word, left.second) = (word, slice.to_vec());
        let finish = call(&left);
        assert_eq!(finish.answer.solver, 2, "{}", finish.line(&left));
        left.environment = finish.environment;
        left.heap = finish.heap;
        left.constraints = finish.constraints;
    }
    let run = sheets::call(&Sheet::fresh(P.to_vec(), vec![0, 0, 1, 64, 128], 100));
    assert_eq!(left.environment, run.environment);
    assert_eq!(left.heap, run.heap);
    assert_eq!(left.constraints, run.constraints);
}

#[test]
fn tables_of_other_lengths_are_refused() {
    let refused = |change: &dyn Fn(&mut Asking)| {
        for (program, word) in [(P.to_vec(), 27), (P.to_vec(), -1), (vec![1], 0)] {
            let mut asking = asking(&RIGHT, &RIGHT);
            (asking.program, asking.word) = (program, word);
            change(&mut asking);
            test_refused(&asking, 1, 0);
        }
    };
    for words in [0, 1, 127, 129, 1601] {
        refused(&|asking| asking.environment.resize(words, 0));
    }
    for words in [0, 1, 128, 1600, 1602] {
        refused(&|asking| asking.heap.resize(words, 0));
    }
    for words in [0, 1, 97, 99, 128] {
        refused(&|asking| asking.constraints.resize(words, 0));
    }
}

/// Whatever the word is, and whether the tables are fit or not.
#[test]
fn programs_that_do_not_read_are_refused() {
    for (program, place) in [
        (vec![], 0),
        (vec![1], 1),
        (vec![0, 0], 1),
        (vec![0; 4097], 4096),
        (vec![-1; 100_000], 4096),
    ] {
        for word in [i32::MIN, -1, 0, 1, 27, i32::MAX] {
            let mut asking = asking(&RIGHT, &RIGHT);
            (asking.program, asking.word) = (program.clone(), word);
            test_refused(&asking, 2, place);
            asking.heap[0] = -1;
            test_refused(&asking, 2, place);
        }
    }
}

/// Before 3 and 4: the heap has too many records, or 65 bytes.
#[test]
fn words_that_begin_no_statement_are_refused() {
    let extremes = [i32::MIN, i32::MIN + 1, 4095, 4096, 65_563, i32::MAX];
    let words = (-40..80).chain(extremes);
    for word in words.filter(|word| !STATEMENTS.contains(word)) {
        let mut asking = asking(&RIGHT, &RIGHT);
        asking.word = word;
        test_refused(&asking, 2, word);
        for (place, unfit) in [(0, 65), (4, 65)] {
            let mut other = asking.clone();
            other.heap[place] = unfit;
            test_refused(&other, 2, word);
        }
    }
}

/// With a slice that changes nothing, on fresh tables.
#[test]
fn every_word_of_every_sheet_is_judged_alike() {
    let (mut statements, mut others) = (0, 0);
    for file in files("in") {
        let text = fs::read_to_string(&file).expect("a sheet");
        let line = text
            .lines()
            .next()
            .and_then(|line| line.strip_prefix("program="));
        let words = line.unwrap_or_default().split_whitespace();
        let Ok(program) = words.map(str::parse).collect::<Result<Vec<i32>, _>>() else {
            continue;
        };
        for word in -1..=program.len().min(500) as i32 {
            match told(&fresh(&program, word, &[0])).starts_with("2 ") {
                true => others += 1,
                false => statements += 1,
            }
        }
    }
    let counts = format!("{statements} statements, {others} other words");
    assert!(statements > 300 && others > 5000, "{counts}");
}

/// Every count of changes at its limit, and slices up to 100,000 words.
#[test]
fn slices_of_every_length_are_judged_alike() {
    let changes: Vec<i32> = (0..577).flat_map(|location| [location, 1]).collect();
    let mut slices: Vec<Vec<i32>> = Vec::new();
    for count in [i32::MIN, -1, 0, 1, 2, 3, 575, 576, 577, i32::MAX] {
        let whole = [&[count], changes.as_slice()].concat();
        for length in [1, 2, 3, 4, 5, 6, 7, 1151, 1152, 1153, 1154, 1155] {
            slices.push(whole[..length].to_vec());
        }
        slices.push(vec![count; 100_000]);
    }
    for slice in slices {
        told(&asking(&slice, &[]));
        told(&asking(&[], &slice));
        told(&asking(&slice, &slice));
        test_accepted(&asking(&slice, &RIGHT), "0 27 2 3|=|");
    }
}

/// Each word of the tables at the ends of the range, and one past its own.
#[test]
fn every_word_of_the_tables_is_judged_alike() {
    let right = asking(&[0], &RIGHT);
    let lengths = [128, 1601, 98];
    for (table, length) in lengths.into_iter().enumerate() {
        for place in 0..length {
            for word in [i32::MIN, -1, 1, 4, 65, i32::MAX] {
                let mut asking = right.clone();
                let Asking {
                    environment,
                    heap,
                    constraints,
                    ..
                } = &mut asking;
                [environment, heap, constraints][table][place] = word;
                told(&asking);
            }
        }
    }
}

#[test]
fn a_short_run_is_the_same() {
    let tally = compare(3, 4000).expect("no difference");
    assert_eq!(tally.cases(), 4000);
    assert!(is_met(&tally, 20), "{tally}");
}

#[test]
fn what_is_rare_is_told() {
    let full = || {
        let mut tally = Tally::default();
        tally.outcomes.fill(9);
        tally.noted.solvers = [9; 3];
        tally.noted.pairs = [[9; 5]; 5];
        tally
    };
    assert!(is_met(&full(), 9) && !is_met(&full(), 10));
    let mut tally = full();
    tally.noted.pairs[3][4] = 0;
    tally.noted.pairs[4][3] = 0;
    assert!(is_met(&tally, 9));
    tally.noted.pairs[4][4] = 8;
    assert!(!is_met(&tally, 9));
    let mut tally = full();
    tally.noted.solvers[2] = 8;
    assert!(!is_met(&tally, 9));
}
