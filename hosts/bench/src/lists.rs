//! The list that is timed.

use crate::cases::Case;
use crate::written::{self, Words};
use cordbasin::{Outcome, Tables};

/// Variables, in whose order the records are made.
const UPPER: i32 = 0;
const LOWER: i32 = 1;
const CORE: i32 = 2;

/// Labels of a section, which are the places of its fields too.
const SAMPLES: i32 = 0;
const BYTES: i32 = 1;
const DEPTH: i32 = 2;

/// Labels of the core, of which the last two refer to its sections.
const TRAY: i32 = 3;
const LOGGED: i32 = 4;
const ABOVE: i32 = 5;
const BELOW: i32 = 6;

const ROUNDS: i32 = 25;

/// A core of two sections, and a morning's list of 200 fields: samples, bytes
/// and depths of the sections by paths of one and of two labels, the tray and a
/// boolean of the core. Half of the entries need a change.
pub fn morning() -> Case {
    let program = sheet();
    let (mut entries, mut proposals) = (Words::new(), Words::new());
    for (entry, proposal) in (0..ROUNDS).flat_map(round) {
        entries.extend(entry);
        proposals.extend(proposal);
    }
    Case {
        name: "list",
        title: "list of 200 entries over 5 kept constraints",
        tables: left(&program),
        program,
        entries: Some(entries),
        proposals,
        budget: 1_000,
        runs: 16,
        outcome: Outcome::Finished,
        steps: 200,
    }
}

/// The sections and the core, and five constraints: two lengths in bytes, a
/// range of both together, a range of the depths, and their order.
fn sheet() -> Words {
    let [upper, lower] = [UPPER, LOWER].map(|own| move |label| written::field(own, label));
    let int = written::integer;
    let on = written::operator;
    let four = |samples| on(3, int(4), samples);
    let both = on(1, upper(BYTES), lower(BYTES));
    let kept = [
        on(6, upper(BYTES), four(upper(SAMPLES))),
        on(6, lower(BYTES), four(lower(SAMPLES))),
        on(10, on(9, upper(SAMPLES), int(0)), on(5, both, int(32_767))),
        on(
            10,
            on(8, upper(DEPTH), int(0)),
            on(5, lower(DEPTH), int(6_000)),
        ),
        on(4, upper(DEPTH), lower(DEPTH)),
    ];
    let mut statements = vec![
        written::new(UPPER, &[(SAMPLES, 16), (BYTES, 64), (DEPTH, 0)]),
        written::new(LOWER, &[(SAMPLES, 24), (BYTES, 96), (DEPTH, 1_000)]),
        written::new(CORE, &[(TRAY, 0), (LOGGED, 0), (ABOVE, 0), (BELOW, 0)]),
        written::assign(&written::field(CORE, ABOVE), written::variable(UPPER)),
        written::assign(&written::field(CORE, BELOW), written::variable(LOWER)),
    ];
    statements.extend(kept.map(|part| written::always(&[(3, part)])));
    written::block(&statements)
}

/// The tables that the sheet leaves, no statement of which needs a change.
fn left(program: &[i32]) -> Tables {
    let mut tables = Tables::fresh();
    let answer = cordbasin::run(program, &mut tables, &[0; 10], 10);
    assert_eq!(answer.outcome, Outcome::Finished, "the list's sheet");
    tables
}

/// Eight entries, each with its proposal. Each number differs from the one that
/// stands there, or the change beside it would be needless.
fn round(turn: i32) -> [(Words, Words); 8] {
    let (upper, lower, depth) = (17 + 2 * turn, 25 + 2 * turn, 10 + 10 * turn);
    let field = written::field;
    let through = |section, label| written::path(CORE, &[section, label]);
    let int = written::integer;
    let logged = [written::truth, written::falsity][turn as usize % 2]();
    [
        samples(field(UPPER, SAMPLES), UPPER, upper),
        alone(field(UPPER, DEPTH), int(depth)),
        samples(field(LOWER, SAMPLES), LOWER, lower),
        alone(field(LOWER, DEPTH), int(1_000 + depth)),
        alone(field(CORE, TRAY), int(turn + 1)),
        samples(through(ABOVE, SAMPLES), UPPER, upper + 1),
        alone(field(CORE, LOGGED), logged),
        bytes(through(BELOW, BYTES), LOWER, lower + 1),
    ]
}

/// Nothing else is to move.
fn alone(target: Words, literal: Words) -> (Words, Words) {
    (written::entry(&target, literal), vec![0])
}

/// A section's samples are set, and its bytes move.
fn samples(target: Words, section: i32, count: i32) -> (Words, Words) {
    let entry = written::entry(&target, written::integer(count));
    (entry, moved(section, BYTES, 4 * count))
}

/// A section's bytes are set for so many samples, and these move.
fn bytes(target: Words, section: i32, count: i32) -> (Words, Words) {
    let entry = written::entry(&target, written::integer(4 * count));
    (entry, moved(section, SAMPLES, count))
}

/// The proposal of one field: locations are those of 64 variables, then those of
/// 8 fields for each record.
fn moved(record: i32, place: i32, number: i32) -> Words {
    vec![1, 64 + 8 * record + place, number]
}

#[cfg(test)]
mod tests {
    use super::*;
    use crate::measured::{agree, run, Side};

    #[test]
    fn both_programs_leave_the_same_tables_for_the_list() {
        let sheet = Case {
            entries: None,
            tables: Tables::fresh(),
            proposals: vec![0; 10],
            steps: 10,
            ..morning()
        };
        assert_eq!(agree(&sheet), Ok(()));
    }

    #[test]
    fn the_list_is_of_its_size_and_half_of_it_needs_changes() {
        let case = morning();
        let answer = run(Side::Proved, &case, &mut case.tables.clone(), case.budget);
        assert_eq!(answer, (0, 200, 200, 200, 0));
        assert_eq!(case.proposals.len(), 100 + 3 * 100);
    }
}
