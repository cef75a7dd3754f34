//! Lists of entries, over the worked sheet and over kept identities.

use cordbasin::{assign, assign_words, run, Entries, Entry, Literal, Outcome};
use cordbasin::{Program, Tables, Value, LONGEST_ENTRY};

const SHEET: &str = "x := new {bytes: 64, samples: 16};
always required x.bytes = 4 * x.samples;
x.samples := 32";

const SHARED: &str = "core := new {length: 80}; box := new {core: core, number: 1};
always box.core == core";

/// A text's program, and the tables that its run leaves.
fn after<'t>(text: &'t str, proposals: &[i32]) -> (Program<'t>, Tables) {
    let (program, mut tables) = (Program::read(text).expect("a program"), Tables::fresh());
    let answer = run(program.words(), &mut tables, proposals, 100);
    assert_eq!(answer.outcome, Outcome::Finished);
    (program, tables)
}

/// The worked sheet: 128 bytes and 32 samples, at the locations 64 and 65.
fn worked() -> (Program<'static>, Tables) {
    after(SHEET, &[0, 0, 1, 64, 128])
}

fn list(program: &Program, entries: &[(&str, Literal)]) -> Vec<i32> {
    let mut list = Vec::new();
    for (path, literal) in entries {
        let entry = program.entry(path, *literal);
        list.extend(entry.expect("an entry").words());
    }
    list
}

/// Two hundred lengths of a morning: 33 samples to 232, with their bytes.
fn morning(program: &Program) -> (Vec<i32>, Vec<i32>) {
    let samples: Vec<_> = (33..233)
        .map(|samples| ("x.samples", Literal::Int(samples)))
        .collect();
    let proposals = (33..233).flat_map(|samples| [1, 64, 4 * samples]);
    (list(program, &samples), proposals.collect())
}

#[test]
fn a_mornings_list_goes_through() {
    let (program, mut tables) = worked();
    let (list, proposals) = morning(&program);
    let answer = assign(program.words(), &mut tables, &list, &proposals, 200);
    assert_eq!(answer.outcome, Outcome::Finished);
    assert_eq!((answer.steps, answer.accepted), (200, 200));
    assert_eq!((answer.place, answer.refused()), (200, None));
    assert!(answer.unread.is_empty());
    assert_eq!(answer.to_string(), "0 after 200 entries: finished");
    assert_eq!(tables.at(0, &[0]), Some(Value::Int(928)));
    assert_eq!(tables.at(0, &[1]), Some(Value::Int(232)));
}

/// The tables are those of the 100 entries before, the last word, which begins
/// no entry, is not looked at, and the unread part is a part of the caller's
/// slice, not a copy.
#[test]
fn a_list_stops_at_the_first_refusal() {
    let (program, mut tables) = worked();
    let (mut list, mut proposals) = morning(&program);
    list.push(64);
    proposals[302] += 1;
    let answer = assign(program.words(), &mut tables, &list, &proposals, 200);
    assert_eq!(answer.outcome, Outcome::RequiredUnmet);
    assert_eq!((answer.steps, answer.accepted), (101, 100));
    assert_eq!((answer.place, answer.refused()), (100, Some(100)));
    assert_eq!(
        answer.to_string(),
        "19 at entry 100: a required part is not met"
    );
    assert_eq!(answer.unread, &proposals[300..]);
    assert_eq!(answer.unread.as_ptr(), proposals[300..].as_ptr());
    assert_eq!(tables.at(0, &[0]), Some(Value::Int(528)));
    assert_eq!(tables.at(0, &[1]), Some(Value::Int(132)));
}

#[test]
fn no_entries_change_nothing() {
    let (program, before) = worked();
    let mut tables = before.clone();
    let answer = assign(program.words(), &mut tables, [], &[7], 0);
    assert_eq!((answer.outcome, answer.place), (Outcome::Finished, 0));
    assert_eq!((answer.steps, answer.accepted), (0, 0));
    assert_eq!(answer.unread, [7]);
    assert_eq!(tables, before);
}

#[test]
fn every_literal_is_given() {
    let (program, mut tables) = after("x := 1; y := 1; z := 1", &[0; 3]);
    let literals = [
        ("x", Literal::Nil),
        ("y", Literal::Bool(false)),
        ("z", Literal::Bool(true)),
        ("x", Literal::Int(i32::MIN)),
    ];
    let list = list(&program, &literals);
    assert_eq!(list, [0, 0, 20, 1, 0, 21, 2, 0, 22, 0, 0, 23, i32::MIN]);
    let answer = assign(program.words(), &mut tables, &list, &[0; 4], 4);
    assert_eq!((answer.outcome, answer.place), (Outcome::Finished, 4));
    assert_eq!(
        tables.to_string(),
        "v0=int -2147483648\nv1=bool 0\nv2=bool 1\n"
    );
}

/// What refuses an entry behind one that goes through, whose 160 bytes and 40
/// samples stay.
fn second(entry: &[i32], proposals: &[i32]) -> Outcome {
    let (program, mut tables) = worked();
    let mut list = list(&program, &[("x.samples", Literal::Int(40))]);
    list.extend(entry);
    let proposals = [&[1, 64, 160], proposals].concat();
    let answer = assign(program.words(), &mut tables, &list, &proposals, 100);
    assert_eq!((answer.refused(), answer.accepted), (Some(1), 1));
    let begun = 1 + u32::from(answer.outcome != Outcome::UnfitAssignment);
    assert_eq!(answer.steps, begun);
    assert_eq!(answer.unread, &proposals[3..]);
    assert_eq!(tables.at(0, &[0]), Some(Value::Int(160)));
    assert_eq!(tables.at(0, &[1]), Some(Value::Int(40)));
    answer.outcome
}

#[test]
fn an_entry_is_refused_as_an_assignment_is() {
    let samples = [0, 1, 1, 23, 48];
    assert_eq!(second(&samples, &[]), Outcome::NoProposal);
    assert_eq!(second(&[0, 1, 5, 23, 48], &[0]), Outcome::NoCell);
    assert_eq!(second(&[1, 1, 0, 23, 48], &[0]), Outcome::NoCell);
    assert_eq!(second(&[0, 1, 1, 20], &[0]), Outcome::LostConstraint);
    assert_eq!(second(&[0, 0, 20], &[0]), Outcome::LostConstraint);
    assert_eq!(second(&samples, &[1, 64]), Outcome::UnfitProposal);
    assert_eq!(second(&samples, &[1, 65, 40]), Outcome::UnfitEntry);
    let same = [0, 1, 1, 23, 40];
    assert_eq!(second(&same, &[1, 64, 164]), Outcome::NeedlessChange);
    assert_eq!(second(&samples, &[0]), Outcome::RequiredUnmet);
}

/// Whether a proposal stands ready or not.
#[test]
fn words_that_are_no_target_and_literal_are_23() {
    for entry in [
        &[64, 0, 20][..],
        &[-1, 0, 20],
        &[0, -1, 20],
        &[0, 8, 1],
        &[0, 1, 32, 20],
        &[0, 1, 1, 24],
        &[0, 1, 1, 19, 48],
        &[0, 1, 1, 23],
        &[0, 1, 1],
        &[0, 1],
        &[0],
    ] {
        assert_eq!(second(entry, &[1, 64, 192]), Outcome::UnfitAssignment);
        assert_eq!(second(entry, &[]), Outcome::UnfitAssignment);
    }
}

#[test]
fn the_budget_is_for_the_entries() {
    let (program, tables) = worked();
    let (list, proposals) = morning(&program);
    let ended = |list: &[i32], budget| {
        let mut tables = tables.clone();
        let answer = assign(program.words(), &mut tables, list, &proposals, budget);
        (answer.outcome, answer.place, answer.steps)
    };
    assert_eq!(ended(&list, 7), (Outcome::BudgetSpent, 7, 7));
    assert_eq!(ended(&list, 0), (Outcome::BudgetSpent, 0, 0));
    // 23 is told before 5, and only at its turn.
    assert_eq!(ended(&list[..14], 2), (Outcome::UnfitAssignment, 2, 2));
    assert_eq!(ended(&list[..14], 1), (Outcome::BudgetSpent, 1, 1));
}

/// box.core and core are one record: nil goes to both, a number to neither, and
/// box has to stay the record that it is.
#[test]
fn identities_are_kept() {
    let (program, mut tables) = after(SHARED, &[0; 2]);
    let mut set = |path, literal| {
        let list = list(
            &program,
            &[("box.number", Literal::Int(2)), (path, literal)],
        );
        let answer = assign(program.words(), &mut tables, &list, &[0, 0], 100);
        (answer.outcome, answer.place)
    };
    let plain = set("core", Literal::Int(80));
    assert_eq!(plain, (Outcome::PlainIdentity, 1));
    assert_eq!(set("box", Literal::Nil), (Outcome::IdentityClash, 1));
    assert_eq!(set("core", Literal::Nil), (Outcome::Finished, 2));
    assert_eq!(tables.at(1, &[1]), Some(Value::Nil));
}

/// 1 to 4 have the places of a run, and no entry is told.
#[test]
fn the_start_refuses_as_for_a_run() {
    let (program, fit) = worked();
    let (list, proposals) = morning(&program);
    let start = |words: &[i32], change: fn(&mut Tables), budget| {
        let mut before = fit.clone();
        change(&mut before);
        let mut tables = before.clone();
        let answer = assign(words, &mut tables, &list, &proposals, budget);
        assert_eq!(
            (answer.refused(), answer.steps, answer.accepted),
            (None, 0, 0)
        );
        assert_eq!((answer.unread, tables), (&proposals[..], before));
        answer.to_string()
    };
    let words = program.words();
    let size = "1 at place 0: a table's length or the budget is wrong";
    assert_eq!(start(words, |_| (), 1_000_001), size);
    let cut = start(&words[..32], |_| (), 100);
    assert_eq!(cut, "2 at place 32: program does not read");
    let heap = start(words, |tables| tables.heap[0] = 65, 100);
    assert_eq!(heap, "3 at place 1: a table's content is unfit");
    let unmet = start(words, |tables| tables.heap[4] += 1, 100);
    assert!(unmet.starts_with("4 at place 10: a kept"), "{unmet}");
}

#[test]
fn tables_of_another_length_are_refused() {
    let lengths = [(127, 1601, 98), (128, 1602, 98), (128, 1601, 0)];
    for (environment, heap, constraints) in lengths {
        let mut environment = vec![0; environment];
        let mut heap = vec![0; heap];
        let mut constraints = vec![0; constraints];
        let answer = assign_words(
            &[0],
            &mut environment,
            &mut heap,
            &mut constraints,
            &[0, 0, 20],
            &[0],
            100,
        );
        assert_eq!((answer.outcome, answer.place), (Outcome::WrongSize, 0));
        assert_eq!(answer.unread, [0]);
    }
}

#[test]
fn an_entry_has_a_target_or_is_none() {
    let words = |variable, labels: &[usize]| {
        let entry = Entry::new(variable, labels, Literal::Int(-5));
        entry.map(|entry| entry.words().to_vec())
    };
    let longest = vec![63, 7, 31, 31, 31, 31, 31, 31, 31, 23, -5];
    assert_eq!(words(63, &[31; 7]), Some(longest));
    assert_eq!(words(63, &[31; 8]), None);
    assert_eq!(words(64, &[]), None);
    assert_eq!(words(0, &[0, 32]), None);
    assert_eq!(words(usize::MAX, &[]), None);
}

#[test]
fn an_entry_is_made_from_names() {
    let program = Program::read(SHARED).expect("a program");
    let words = |path: &str| {
        let entry = program.entry(path, Literal::Nil);
        entry.map(|entry| entry.words().to_vec())
    };
    assert_eq!(words("box"), Some(vec![1, 0, 20]));
    assert_eq!(words("box.core.length"), Some(vec![1, 2, 1, 0, 20]));
    for path in [
        "",
        ".",
        "length",
        "box.",
        "box.box",
        " box",
        "core.length.core.log",
    ] {
        assert_eq!(words(path), None, "{path}");
    }
    let long = |labels: usize| words(&format!("box{}", ".core".repeat(labels)));
    assert_eq!(long(7).map(|words| words.len()), Some(10));
    assert_eq!(long(8), None);
}

/// The entry that finds no room leaves the list as it was.
#[test]
fn a_list_is_laid_in_lent_words() {
    let (program, mut tables) = worked();
    let mut room = [-1; LONGEST_ENTRY];
    let mut list = Entries::new(&mut room);
    let entry = |number| {
        let entry = program.entry("x.samples", Literal::Int(number));
        entry.expect("an entry")
    };
    assert!(list.push(entry(40)));
    assert!(list.push(entry(48)));
    assert!(!list.push(entry(56)));
    assert_eq!(list.words(), [0, 1, 1, 23, 40, 0, 1, 1, 23, 48]);
    let proposals = [1, 64, 160, 1, 64, 192];
    let answer = assign(program.words(), &mut tables, &list, &proposals, 2);
    assert_eq!(answer.to_string(), "0 after 2 entries: finished");
    assert_eq!(tables.at(0, &[0]), Some(Value::Int(192)));
}
