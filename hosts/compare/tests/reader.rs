//! The proved reader on lists whose answers are known, and on a short run.

use compare::comparison::compare;
use compare::limits;
use compare::proved::{Proved, Question};
use reference::program::Program;

#[test]
fn each_limit_has_its_place() {
    let mut proved = Proved::start().expect("the proved functions start");
    for limit in limits::all() {
        let name = &limit.name;
        let place = Program::decode(&limit.words).err();
        assert_eq!(place, limit.place, "independent program: {name}");
        let question = Question {
            program: limit.words,
            ..Question::default()
        };
        let answer = proved.ask_reader(&question).expect("an answer");
        let wanted = limit.place.map_or(0, |place| place + 1);
        assert_eq!(answer.program, wanted, "proved reader: {name}");
    }
}

/// The sheet of document 01: new at 1, always at 10, assign at 27.
#[test]
fn the_worked_sheet_has_three_statements() {
    let program = vec![
        3, 2, 0, 2, 0, 23, 64, 1, 23, 16, 3, 1, 3, 25, 6, 24, 0, 1, 0, 25, 3, 23, 4, 24, 0, 1, 1,
        1, 0, 1, 1, 23, 32,
    ];
    let kept = |values: i32, place: i32| {
        let mut table = vec![0; 98];
        table[0] = values;
        table[2] = place;
        table
    };
    let mut proved = Proved::start().expect("the proved functions start");
    let question = Question {
        program,
        places: vec![0, 1, 2, 10, 11, 27, 33],
        tables: vec![kept(0, 0), kept(1, 10), kept(1, 1), kept(0, 10)],
    };
    let answer = proved.ask_reader(&question).expect("an answer");
    assert_eq!(answer.program, 0);
    let statement = |verb: usize| 1 + 16 * verb + 7;
    let (new, always, assign) = (statement(2), statement(3), statement(1));
    assert_eq!(answer.statements, [0, new, 0, always, 0, assign, 0]);
    assert_eq!(answer.tables, [1, 1, 0, 0]);
}

#[test]
fn a_short_run_is_the_same() {
    let tally = compare(3, 4000).expect("no difference");
    assert_eq!(tally.lists, 4000);
    assert!(tally.read > 1000 && tally.refused > 1000, "{tally}");
    assert!(tally.places.len() > 100, "{tally}");
    assert!(
        tally.fit > 1000 && tally.tables - tally.fit > 1000,
        "{tally}"
    );
}
