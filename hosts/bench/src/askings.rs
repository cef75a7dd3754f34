//! The askings that are timed.

use crate::clock;
use crate::measured::Side;
use crate::typed;
use crate::written::Words;
use cordbasin::{Outcome, Tables};
use reference::asking::{self, Answer};
use reference::text;

/// A statement's word, the tables before it, and both solvers' slices.
pub struct Asking {
    word: usize,
    tables: Tables,
    first: Words,
    second: Words,
}

/// A sheet with its askings, of which each is known to take the second slice.
pub struct Sheet {
    pub name: &'static str,
    pub title: &'static str,
    pub program: Words,
    pub askings: Vec<Asking>,
}

const CORES: i32 = 10;

/// How many statements read a proposal before the samples are set; none of them
/// needs a change.
const UNCHANGED: usize = 61;

/// Every sheet, in the order of the table.
pub fn all() -> Vec<Sheet> {
    vec![desk()]
}

/// The desk's ten cores, and the samples of each set afterwards: both solvers
/// are asked about every statement that reads a proposal.
fn desk() -> Sheet {
    let set: Vec<String> = (1..=CORES)
        .map(|core| format!("core{core}.samples := 32"))
        .collect();
    let text = format!("{};\n{}", typed::desk().text, set.join(";\n"));
    let program = text::read(text.as_bytes()).words;
    let right = [vec![vec![0]; UNCHANGED], (1..=CORES).map(moved).collect()].concat();
    Sheet {
        name: "asked-desk",
        title: "both solvers asked about ten cores",
        askings: asked(&program, &right),
        program,
    }
}

/// The bytes and the total of a core with 32 samples: locations are those of 64
/// variables, then those of 8 fields for each record.
fn moved(core: i32) -> Words {
    let first = 64 + 8 * core;
    vec![2, first + 1, 128, first + 2, 264]
}

/// Asks before each step of the run that is to read a proposal.
fn asked(program: &[i32], right: &[Words]) -> Vec<Asking> {
    let proposals = right.concat();
    let mut askings: Vec<Asking> = Vec::new();
    for budget in 0.. {
        let mut tables = Tables::fresh();
        let answer = cordbasin::run(program, &mut tables, &proposals, budget);
        if answer.outcome != Outcome::BudgetSpent {
            assert_eq!(answer.outcome, Outcome::Finished, "the desk's sheet");
            break;
        }
        if !(1..=4).contains(&program[answer.place]) {
            continue;
        }
        let second = right[askings.len()].clone();
        askings.push(Asking {
            word: answer.place,
            tables,
            first: wrong(&second),
            second,
        });
    }
    askings
}

/// One change is left out, which is 19; or a field is named that there is not,
/// which is 17.
fn wrong(right: &[i32]) -> Words {
    match right {
        [2, location, number, ..] => vec![1, *location, *number],
        _ => vec![1, 575, 1],
    }
}

/// One asking.
pub fn ask(side: Side, program: &[i32], asking: &Asking, tables: &mut Tables) -> Answer {
    let Asking {
        word,
        first,
        second,
        ..
    } = asking;
    match side {
        Side::Proved => {
            let told = cordbasin::ask(program, tables, *word, first, second);
            let (solver, words) = told
                .accepted
                .map_or((0, 0), |(solver, words)| (solver.number(), words.len()));
            Answer {
                outcome: told.outcome.number(),
                place: told.place,
                solver,
                words,
            }
        }
        Side::Independent => asking::ask(
            program,
            &mut tables.environment,
            &mut tables.heap,
            &mut tables.constraints,
            *word as i32,
            first,
            second,
        ),
    }
}

/// The tables of so many rounds, before each asking.
pub fn before(sheet: &Sheet, rounds: usize) -> Vec<Tables> {
    let askings = sheet.askings.iter().cycle();
    let askings = askings.take(rounds * sheet.askings.len());
    askings.map(|asking| asking.tables.clone()).collect()
}

/// So many rounds of all askings.
pub fn ask_all(side: Side, sheet: &Sheet, tables: &mut [Tables], rounds: usize) {
    let askings = sheet.askings.iter().cycle();
    let askings = askings.take(rounds * sheet.askings.len());
    for (asking, tables) in askings.zip(tables) {
        std::hint::black_box(ask(side, &sheet.program, asking, tables));
    }
}

/// Nanoseconds of all askings, once each.
pub fn time(side: Side, sheet: &Sheet) -> f64 {
    let mut tables = before(sheet, 1);
    let start = clock::nanoseconds();
    ask_all(side, sheet, &mut tables, 1);
    (clock::nanoseconds() - start) as f64
}

/// Both programs take the second slice of each asking, and leave the same
/// tables.
pub fn agree(sheet: &Sheet) -> Result<(), String> {
    let (program, name) = (&sheet.program, sheet.name);
    for asking in &sheet.askings {
        let [proved, independent] = Side::BOTH.map(|side| {
            let mut tables = asking.tables.clone();
            (ask(side, program, asking, &mut tables), tables)
        });
        let (answer, word) = (proved.0, asking.word);
        if (answer.outcome, answer.solver) != (0, 2) {
            return Err(format!("{name}: {answer:?} at word {word}"));
        }
        if proved != independent {
            return Err(format!("{name}: {answer:?} and {:?}", independent.0));
        }
    }
    Ok(())
}

#[cfg(test)]
mod tests {
    use super::*;

    #[test]
    fn both_programs_take_every_second_slice() {
        let told: Result<Vec<()>, String> = all().iter().map(agree).collect();
        assert_eq!(told.map(|sheets| sheets.len()), Ok(1));
    }

    #[test]
    fn the_desk_is_asked_about_every_statement_that_reads_a_proposal() {
        let desk = desk();
        assert_eq!(desk.program.len(), 1596);
        assert_eq!(desk.askings.len(), UNCHANGED + CORES as usize);
        let last = desk.askings.last().expect("an asking");
        assert_eq!(last.tables.kept_constraints().len(), 20);
        assert_eq!(last.tables.kept_identities().len(), 10);
    }

    /// 17 where no change is needed, and 19 where one is.
    #[test]
    fn the_first_slice_is_turned_down() {
        let desk = desk();
        for (number, asking) in desk.askings.iter().enumerate() {
            let mut tables = asking.tables.clone();
            let told = cordbasin::ask(&desk.program, &mut tables, asking.word, &asking.first, &[]);
            let expected = if number < UNCHANGED { 17 } else { 19 };
            assert_eq!(told.outcome.number(), expected, "{told}");
        }
    }
}
