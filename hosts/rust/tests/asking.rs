//! Two solvers on one statement: whose proposal is accepted, and every refusal.

use cordbasin::{ask, ask_words, run, Asked, Outcome, Program, Solver, Tables, Value};

const SHEET: &str = "x := new {bytes: 64, samples: 16};
always required x.bytes = 4 * x.samples;
x.samples := 32";

/// The word of the sheet's last statement.
const LAST: usize = 27;

/// Proposals for it: what the layout wants, no change, too few bytes, and the
/// old samples in place of those that it has just set.
const FITTING: &[i32] = &[1, 64, 128];
const IDLE: &[i32] = &[0];
const SPARING: &[i32] = &[1, 64, 96];
const STUBBORN: &[i32] = &[1, 65, 16];

/// Words left over behind a proposal, whatever that is worth.
const OVER: [&[i32]; 4] = [&[1, 64, 128, 0], &[0, 0], &[1, 65, 16, 1], &[0, 1, 64, 128]];

/// A text's program, the tables that its first statements leave without a
/// change, and the word of the next statement.
fn after(statements: i32, text: &str) -> (Program<'_>, Tables, usize) {
    let (program, mut tables) = (Program::read(text).expect("a program"), Tables::fresh());
    let answer = run(program.words(), &mut tables, &[0; 2], statements);
    assert_eq!(answer.outcome, Outcome::BudgetSpent);
    (program, tables, answer.place)
}

/// The worked sheet before its last statement: 64 bytes and 16 samples, at the
/// locations 64 and 65.
fn worked() -> (Program<'static>, Tables) {
    let (program, tables, place) = after(2, SHEET);
    assert_eq!(place, LAST);
    (program, tables)
}

/// The part that is handed back is the solver's own slice, not a copy.
fn accepted(first: &[i32], second: &[i32]) -> Solver {
    let (program, mut tables) = worked();
    let asked = ask(program.words(), &mut tables, LAST, first, second);
    assert_eq!((asked.outcome, asked.place), (Outcome::Finished, 27));
    let (solver, words) = asked.accepted.expect("an accepted proposal");
    let slice = match solver {
        Solver::First => first,
        Solver::Second => second,
    };
    assert_eq!((words, words.as_ptr()), (slice, slice.as_ptr()));
    assert_eq!(tables.at(0, &[0]), Some(Value::Int(128)));
    assert_eq!(tables.at(0, &[1]), Some(Value::Int(32)));
    assert_eq!(tables.kept_constraints(), [10]);
    let printed = format!("0 at word 27: finished, by the {solver} solver");
    assert_eq!(asked.to_string(), printed);
    assert_eq!(program.asked_refusal(&asked), None);
    solver
}

/// No words are handed back, and no table is changed.
fn refused<'p>(
    program: &[i32],
    tables: &Tables,
    word: i32,
    [first, second]: [&'p [i32]; 2],
) -> Asked<'p> {
    let mut after = tables.clone();
    let asked = ask_words(
        program,
        &mut after.environment,
        &mut after.heap,
        &mut after.constraints,
        word,
        first,
        second,
    );
    assert_ne!(asked.outcome, Outcome::Finished);
    assert_eq!((asked.word, asked.accepted), (word, None));
    assert_eq!(&after, tables);
    asked
}

/// The number that refuses the last statement, at its word.
fn in_vain(first: &[i32], second: &[i32]) -> Outcome {
    let (program, tables) = worked();
    let asked = refused(program.words(), &tables, 27, [first, second]);
    assert_eq!(asked.place, 27);
    asked.outcome
}

#[test]
fn the_first_is_accepted_whatever_the_second_is() {
    for second in [&[], FITTING, IDLE, SPARING, STUBBORN, OVER[0]] {
        assert_eq!(accepted(FITTING, second), Solver::First);
    }
    assert_eq!((Solver::First.number(), Solver::Second.number()), (1, 2));
}

#[test]
fn the_second_is_accepted_where_the_first_is_turned_down() {
    for first in [&[], IDLE, SPARING, STUBBORN, &[1, 64], &[577], &[-1]] {
        assert_eq!(accepted(first, FITTING), Solver::Second);
    }
}

#[test]
fn the_number_is_the_seconds_where_both_are_turned_down() {
    assert_eq!(in_vain(STUBBORN, SPARING), Outcome::RequiredUnmet);
    assert_eq!(in_vain(SPARING, STUBBORN), Outcome::UnfitEntry);
    assert_eq!(in_vain(STUBBORN, &[1, 64]), Outcome::UnfitProposal);
    assert_eq!(in_vain(&[], IDLE), Outcome::RequiredUnmet);
}

#[test]
fn the_number_is_the_firsts_where_the_second_has_no_words() {
    assert_eq!(in_vain(SPARING, &[]), Outcome::RequiredUnmet);
    assert_eq!(in_vain(STUBBORN, &[]), Outcome::UnfitEntry);
    assert_eq!(in_vain(&[1, 64], &[]), Outcome::UnfitProposal);
    assert_eq!(in_vain(&[], &[]), Outcome::NoProposal);
}

#[test]
fn words_left_over_are_16() {
    for over in OVER {
        assert_eq!(in_vain(over, &[]), Outcome::UnfitProposal);
        assert_eq!(in_vain(STUBBORN, over), Outcome::UnfitProposal);
        assert_eq!(in_vain(over, STUBBORN), Outcome::UnfitEntry);
        assert_eq!(accepted(over, FITTING), Solver::Second);
    }
    let (program, tables) = worked();
    let asked = refused(program.words(), &tables, 27, [OVER[0]; 2]);
    assert!(asked.to_string().ends_with("words left over"));
    let refusal = program.asked_refusal(&asked).expect("a word of it");
    assert!(refusal.to_string().contains("words left over\n"));
}

/// Both are only read, and may be one, or parts of one.
#[test]
fn the_slices_may_overlap() {
    let words = [0, 1, 64, 128, 1, 64, 96];
    assert_eq!(accepted(&words[1..4], &words[4..]), Solver::First);
    assert_eq!(accepted(&words[..1], &words[1..4]), Solver::Second);
    assert_eq!(accepted(&words[1..4], &words[1..4]), Solver::First);
    assert_eq!(in_vain(&words, &words[1..]), Outcome::UnfitProposal);
}

#[test]
fn a_needless_change_is_turned_down() {
    let (program, mut tables, place) = after(2, "x := 1; y := 1; once x = 1");
    let word = place as i32;
    let asked = refused(program.words(), &tables, word, [&[], &[1, 1, 2]]);
    assert_eq!(asked.outcome, Outcome::NeedlessChange);
    let asked = ask(program.words(), &mut tables, place, &[1, 1, 2], IDLE);
    assert_eq!(asked.accepted, Some((Solver::Second, IDLE)));
}

/// The position is the word of the always inside the if, and is kept once.
#[test]
fn an_always_is_kept_where_it_stands() {
    let text = "x := 1; if false then {skip; always x > 1} else {}";
    let (program, mut tables, _) = after(1, text);
    assert_eq!(program.words()[10..13], [3, 1, 3]);
    for first in [&[1, 0, 2], IDLE] {
        let asked = ask(program.words(), &mut tables, 10, first, &[]);
        assert_eq!(asked.accepted, Some((Solver::First, first)));
        assert_eq!(tables.kept_constraints(), [10]);
        assert_eq!(tables.variable(0), Some(Value::Int(2)));
    }
}

/// Inside a statement, before the program and behind it.
#[test]
fn a_word_that_begins_no_statement_is_2() {
    let (program, tables) = worked();
    for word in [i32::MIN, -1, 0, 2, 9, 28, 32, 33, 34, 4096, i32::MAX] {
        let asked = refused(program.words(), &tables, word, [FITTING; 2]);
        assert_eq!((asked.outcome, asked.place), (Outcome::UnfitProgram, word));
        let says = "no statement that reads a proposal begins there";
        assert_eq!(asked.to_string(), format!("2 at word {word}: {says}"));
        let shown = program.asked_refusal(&asked);
        assert_eq!(shown.is_some(), (0..33).contains(&word), "{word}");
    }
    let mut same = tables.clone();
    let asked = ask(program.words(), &mut same, usize::MAX, FITTING, FITTING);
    assert_eq!((asked.word, asked.place), (i32::MAX, i32::MAX));
    assert_eq!((asked.outcome, same), (Outcome::UnfitProgram, tables));
}

/// Skip, identities, if and while. What stands in blocks that no run would
/// enter may be asked about.
#[test]
fn a_statement_that_reads_no_proposal_is_2() {
    let text = "skip; x := nil; always x == x; once x == x;
        if false then {y := 1} else {}; while false do {once x = nil}";
    let (program, mut tables, _) = after(0, text);
    let verb = |word: i32| program.words()[word as usize];
    for (word, number) in [(1, 0), (6, 5), (11, 6), (16, 7), (25, 8)] {
        assert_eq!(verb(word), number);
        let asked = refused(program.words(), &tables, word, [IDLE; 2]);
        assert_eq!((asked.outcome, asked.place), (Outcome::UnfitProgram, word));
    }
    for (word, number) in [(2, 1), (19, 1), (28, 4)] {
        assert_eq!(verb(word), number);
        let asked = ask(program.words(), &mut tables, word as usize, IDLE, &[]);
        assert_eq!(asked.accepted, Some((Solver::First, IDLE)));
    }
    assert_eq!(tables.to_string(), "v0=nil\nv1=int 1\n");
}

/// 1, 2 for the program, 2 for the word, 3, 4, and then the statement.
#[test]
fn the_start_refuses_in_its_order() {
    let (program, mut tables) = worked();
    let told = |words: &[i32], tables: &Tables, word| {
        refused(words, tables, word, [FITTING; 2]).to_string()
    };
    let words = program.words();
    tables.heap[4] += 1;
    let unmet = told(words, &tables, 27);
    assert!(unmet.starts_with("4 at word 10: a kept"), "{unmet}");
    tables.heap[0] = 65;
    assert_eq!(
        told(words, &tables, 27),
        "3 at place 1: a table's content is unfit"
    );
    assert!(told(words, &tables, 28).starts_with("2 at word 28: no statement"));
    assert_eq!(
        told(&words[..32], &tables, 28),
        "2 at word 32: program does not read"
    );
    assert!(told(&[0; 4097], &tables, 28).starts_with("2 at word 4096: program"));
}

#[test]
fn tables_of_another_length_are_refused() {
    let lengths = [(127, 1601, 98), (128, 1602, 98), (128, 1601, 0)];
    for (environment, heap, constraints) in lengths {
        let mut tables = [environment, heap, constraints].map(|words| vec![7; words]);
        let before = tables.clone();
        let [environment, heap, constraints] = &mut tables;
        let asked = ask_words(&[9], environment, heap, constraints, -5, FITTING, IDLE);
        assert_eq!((asked.outcome, asked.place), (Outcome::WrongSize, 0));
        assert_eq!(asked.to_string(), "1 at place 0: a table's length is wrong");
        assert_eq!((asked.accepted, tables), (None, before));
    }
}

/// What the statement itself is refused by, told before any proposal is read.
#[test]
fn a_statement_that_cannot_be_done_is_refused_as_in_a_run() {
    let lost = SHEET.replace("x.samples := 32", "x := new {bytes: 128}");
    let sum = SHEET.replace(":= 32", ":= 2147483647 + 1");
    for (text, number, mark) in [
        (SHEET.replace("x.samples :=", "y.samples :="), 7, (3, 1)),
        (SHEET.replace(":= 32", ":= 1 + true"), 8, (3, 16)),
        (sum, 9, (3, 25)),
        (lost, 15, (2, 31)),
    ] {
        let (program, tables, place) = after(2, &text);
        for second in [&[], IDLE, OVER[0]] {
            let asked = refused(program.words(), &tables, place as i32, [&[], second]);
            assert_eq!(asked.outcome.number(), number);
            let spot = program.asked_refusal(&asked).expect("a refusal").spot;
            assert_eq!((spot.line, spot.column), mark, "{text}");
        }
    }
}

#[test]
fn refusals_are_shown_in_the_text() {
    let (program, tables) = worked();
    let shown = |word, first, second| {
        let asked = refused(program.words(), &tables, word, [first, second]);
        let refusal = program.asked_refusal(&asked).expect("a refusal");
        refusal.to_string()
    };
    assert_eq!(
        shown(27, SPARING, IDLE),
        "19 at line 3, column 1: a required part is not met\nx.samples := 32\n^"
    );
    assert_eq!(
        shown(32, FITTING, FITTING),
        "2 at line 3, column 14: no statement that reads a proposal begins there
x.samples := 32
             ^"
    );
}

/// The places of 1 and 3 are no words.
#[test]
fn what_has_no_word_is_not_shown() {
    let (program, mut tables) = worked();
    tables.heap[0] = 65;
    let asked = refused(program.words(), &tables, 27, [FITTING; 2]);
    assert_eq!((asked.outcome, asked.place), (Outcome::UnfitTable, 1));
    assert_eq!(program.asked_refusal(&asked), None);
    let asked = ask_words(
        program.words(),
        &mut [],
        &mut [],
        &mut [],
        27,
        FITTING,
        FITTING,
    );
    assert_eq!((asked.outcome, asked.place), (Outcome::WrongSize, 0));
    assert_eq!(program.asked_refusal(&asked), None);
}
