//! The sheets that are timed.

use crate::lists;
use crate::written::{self, Words};
use cordbasin::{Outcome, Tables};

/// A sheet with what its run, or a list on it, is known to give.
pub struct Case {
    pub name: &'static str,
    pub title: &'static str,
    pub program: Words,
    /// A list's entries; none where the program is run.
    pub entries: Option<Words>,
    pub tables: Tables,
    pub proposals: Words,
    pub budget: i32,
    /// How many runs are timed together.
    pub runs: usize,
    pub outcome: Outcome,
    pub steps: u32,
}

/// Every case, in the order of the table.
pub fn all() -> Vec<Case> {
    vec![
        k1(),
        five_constraints(),
        fifteen_constraints(),
        desk_constraints(),
        class_in_order("class", "class of 33 cells, 32 identities", false),
        class_in_order("class-back", "the same, kept from the far end", true),
        full_tables(),
        long_program(),
        lists::morning(),
    ]
}

fn k1() -> Case {
    let bytes = written::field(0, 0);
    let samples = written::field(0, 1);
    let four = written::operator(3, written::integer(4), samples.clone());
    let program = written::block(&[
        written::new(0, &[(0, 64), (1, 16)]),
        written::always(&[(3, written::operator(6, bytes, four))]),
        written::assign(&samples, written::integer(32)),
    ]);
    Case {
        name: "k1",
        title: "K1 from start to end",
        program,
        entries: None,
        tables: Tables::fresh(),
        proposals: vec![0, 0, 1, 64, 128],
        budget: 100,
        runs: 64,
        outcome: Outcome::Finished,
        steps: 3,
    }
}

/// A record of bytes, samples and count, five constraints on them, and count
/// counted up.
fn five_constraints() -> Case {
    let turns = 499_996;
    let (bytes, samples, count) = (
        written::field(0, 0),
        written::field(0, 1),
        written::field(0, 2),
    );
    let four = written::operator(3, written::integer(4), samples.clone());
    let up = written::operator(1, count.clone(), written::integer(1));
    let kept = [
        written::operator(6, bytes.clone(), four),
        written::operator(9, samples, written::integer(0)),
        written::operator(5, bytes, written::integer(32_767)),
        written::operator(8, count.clone(), written::integer(0)),
        written::operator(5, count.clone(), written::integer(1_000_000)),
    ];
    let mut statements = vec![
        written::new(0, &[(0, 64), (1, 16), (2, 0)]),
        written::skip(),
    ];
    statements.extend(kept.map(|part| written::always(&[(3, part)])));
    statements.push(written::repeat(
        written::operator(4, count.clone(), written::integer(turns)),
        &[written::assign(&count, up)],
    ));
    Case {
        name: "five",
        title: "loop over 5 kept constraints",
        program: written::block(&statements),
        entries: None,
        tables: Tables::fresh(),
        proposals: vec![0; 1_000_000],
        budget: 1_000_000,
        runs: 1,
        outcome: Outcome::Finished,
        steps: 1_000_000,
    }
}

/// 16 variables, 15 constraints with a part for each, a third of the parts of
/// each priority, and the first variable counted up.
fn fifteen_constraints() -> Case {
    let turns = 1_000;
    let mut statements: Vec<Words> = (0..16)
        .map(|variable| written::assign(&written::variable(variable), written::integer(variable)))
        .collect();
    for constraint in 0..15 {
        let parts: Vec<(i32, Words)> = (0..16)
            .map(|variable| {
                let bound = written::integer(10_000 + constraint);
                let part = written::operator(4, written::variable(variable), bound);
                (1 + (constraint + variable) % 3, part)
            })
            .collect();
        statements.push(written::always(&parts));
    }
    let first = written::variable(0);
    let up = written::operator(1, first.clone(), written::integer(1));
    statements.push(written::repeat(
        written::operator(4, first.clone(), written::integer(turns)),
        &[written::assign(&first, up)],
    ));
    Case {
        name: "fifteen",
        title: "loop over 15 kept constraints of 16 parts",
        program: written::block(&statements),
        entries: None,
        tables: Tables::fresh(),
        proposals: vec![0; 2_000],
        budget: 1_000_000,
        runs: 1,
        outcome: Outcome::Finished,
        steps: 31 + 1 + 2 * turns as u32,
    }
}

/// A core's file as a desk lays it out, and its depth counted up: a multiple,
/// a sum of three fields, a product, `and`, `or`, and paths of two labels.
fn desk_constraints() -> Case {
    let turns = 10_000;
    let core = |label| written::field(1, label);
    let [samples, bytes, header, trailer, total, depth, limit] = [0, 1, 2, 3, 4, 5, 6].map(core);
    let in_file = |label| written::path(1, &[7, label]);
    let in_block = |label| written::field(2, label);
    let int = written::integer;
    let on = written::operator;
    let sum = on(1, on(1, header, bytes.clone()), trailer);
    let enough = on(9, samples.clone(), int(0));
    let kept = [
        vec![(3, on(6, bytes, on(3, int(4), samples.clone())))],
        vec![(3, on(6, total.clone(), sum))],
        vec![(3, on(6, in_block(2), on(3, in_block(0), in_block(1))))],
        vec![(3, on(10, enough, on(5, samples, int(1_000_000))))],
        vec![(
            3,
            on(11, on(8, in_file(0), total), on(6, depth.clone(), int(0))),
        )],
        vec![
            (1, on(6, in_file(1), int(512))),
            (3, on(5, depth.clone(), limit)),
        ],
    ];
    let fields = [16, 64, 128, 8, 200, 0, turns, 0];
    let labelled: Vec<(i32, i32)> = (0..).zip(fields).collect();
    let mut statements = vec![
        written::new(0, &[(0, 100_000), (1, 512)]),
        written::new(1, &labelled),
        written::new(2, &[(0, 8), (1, 8), (2, 64)]),
        written::assign(&written::field(1, 7), written::variable(0)),
    ];
    statements.extend(kept.iter().map(|parts| written::always(parts)));
    statements.push(written::repeat(
        on(4, depth.clone(), int(turns)),
        &[written::assign(&depth, on(1, depth.clone(), int(1)))],
    ));
    Case {
        name: "desk",
        title: "loop over 6 constraints as a desk writes them",
        program: written::block(&statements),
        entries: None,
        tables: Tables::fresh(),
        proposals: vec![0; 10 + turns as usize],
        budget: 1_000_000,
        runs: 1,
        outcome: Outcome::Finished,
        steps: 11 + 2 * turns as u32,
    }
}

/// 33 variables tied in a chain; the first is given one record and another in
/// turn, to the end of the budget.
fn class_in_order(name: &'static str, title: &'static str, back: bool) -> Case {
    let chain: Vec<Words> = (0..32)
        .map(|link| if back { 31 - link } else { link })
        .map(|link| written::always_same(link, link + 1))
        .collect();
    let mut statements = vec![written::new(40, &[]), written::new(41, &[])];
    let one = written::variable(40);
    statements.extend((0..33).map(|cell| written::assign(&written::variable(cell), one.clone())));
    statements.extend(chain);
    let first = written::variable(0);
    let moves = [41, 40].map(|record| written::assign(&first, written::variable(record)));
    statements.push(written::repeat(written::truth(), &moves));
    Case {
        name,
        title,
        program: written::block(&statements),
        entries: None,
        tables: Tables::fresh(),
        proposals: vec![0; 3_000],
        budget: 3_000,
        runs: 1,
        outcome: Outcome::BudgetSpent,
        steps: 3_000,
    }
}

/// Every variable and every field of every record is used: references, and in
/// each record integers and a reference to itself.
fn full_cells() -> Tables {
    let mut tables = Tables::fresh();
    for (variable, cell) in (0..).zip(tables.environment.chunks_mut(2)) {
        cell.copy_from_slice(&[4, variable]);
    }
    tables.heap[0] = 64;
    for (record, words) in (0..).zip(tables.heap[1..].chunks_mut(25)) {
        words[0] = 8;
        for (place, field) in (0..).zip(words[1..].chunks_mut(3)) {
            let [kind, payload] = if place == 7 { [4, record] } else { [3, 100] };
            field.copy_from_slice(&[4 * place, kind, payload]);
        }
    }
    tables
}

/// Every cell and every kept position is used, and the budget is spent before
/// the first step: only the start is timed.
fn full_tables() -> Case {
    let mut tables = full_cells();
    let mut statements: Vec<Words> = (0..64)
        .map(|own| {
            let part = written::operator(5, written::field(own, 0), written::field(own, 24));
            written::always(&[(3, part)])
        })
        .collect();
    statements.extend((0..32).map(|own| written::always_same_field(own, 28)));
    let mut place = 1;
    for (number, statement) in statements.iter().enumerate() {
        tables.constraints[2 + number] = place;
        place += statement.len() as i32;
    }
    tables.constraints[..2].copy_from_slice(&[64, 32]);
    Case {
        name: "start",
        title: "start over full tables",
        program: written::block(&statements),
        entries: None,
        tables,
        proposals: Vec::new(),
        budget: 0,
        runs: 16,
        outcome: Outcome::BudgetSpent,
        steps: 0,
    }
}

/// 4,096 words of every sort of statement, on fresh tables; the budget is
/// spent before the first step: only reading is timed.
fn long_program() -> Case {
    let mut statements = Vec::new();
    let mut words = 1;
    for turn in 0.. {
        let next = written::statement(turn);
        if words + next.len() > cordbasin::LONGEST_PROGRAM {
            break;
        }
        words += next.len();
        statements.push(next);
    }
    let skips = cordbasin::LONGEST_PROGRAM - words;
    statements.extend((0..skips).map(|_| written::skip()));
    Case {
        name: "reading",
        title: "reading 4,096 words",
        program: written::block(&statements),
        entries: None,
        tables: Tables::fresh(),
        proposals: Vec::new(),
        budget: 0,
        runs: 16,
        outcome: Outcome::BudgetSpent,
        steps: 0,
    }
}

#[cfg(test)]
mod tests {
    use super::*;
    use crate::measured::{agree, run, Side};

    #[test]
    fn both_programs_give_what_each_case_says() {
        let told: Result<Vec<()>, String> = all().iter().map(agree).collect();
        assert_eq!(told.map(|cases| cases.len()), Ok(9));
    }

    #[test]
    fn the_cases_are_of_their_sizes() {
        let tables = full_tables().tables;
        assert_eq!(long_program().program.len(), 4096);
        assert_eq!(tables.records(), 64);
        assert!((0..64).all(|own| tables.variable(own).is_some()));
        assert!((0..64).all(|own| tables.fields(own).count() == 8));
        assert_eq!(tables.kept_constraints().len(), 64);
        assert_eq!(tables.kept_identities().len(), 32);
    }

    /// How many constraints and identities are kept where a case ends.
    fn kept(case: Case) -> (usize, usize) {
        let mut tables = case.tables.clone();
        let answer = run(Side::Proved, &case, &mut tables, case.budget);
        assert_eq!(answer.0, case.outcome.number());
        (
            tables.kept_constraints().len(),
            tables.kept_identities().len(),
        )
    }

    #[test]
    fn the_cases_keep_what_they_say() {
        assert_eq!(kept(five_constraints()), (5, 0));
        assert_eq!(kept(fifteen_constraints()), (15, 0));
        assert_eq!(kept(desk_constraints()), (6, 0));
        assert_eq!(kept(lists::morning()), (5, 0));
        assert_eq!(kept(class_in_order("", "", false)), (0, 32));
        assert_eq!(kept(class_in_order("", "", true)), (0, 32));
    }
}
