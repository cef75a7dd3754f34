//! An asking gives what a run does that comes to the same statement.

mod common;
use common::askings::{asked, in_sheet};
use reference::asking::{named, TURNED_DOWN};
use reference::batch::{Asking, Finish, Sheet};
use reference::generator::lists::{moved, MOVED};
use reference::generator::{asking, sheet};
use reference::outcome::Outcome;
use reference::program::{Program, Statement};
use reference::proposal::Proposal;

const SEED: u64 = 20_240_501;

/// A program's own words behind an `if false`, then one of its statements.
struct AsRun {
    sheet: Sheet,
    /// Where the statement stands there, and in its own program.
    at: usize,
    word: usize,
}

/// None where the asking does not come to its statement, or there is no room.
fn as_run(asking: &Asking) -> Option<AsRun> {
    let program = Program::decode(&asking.program).ok()?;
    let word = named(&program, asking.word)?.position;
    let (_, end) = Statement::decode(&asking.program, word).ok()?;
    let mut words = [&[2, 7, 21], &asking.program[..], &[0]].concat();
    let at = words.len();
    words.extend(&asking.program[word..end]);
    Program::decode(&words).ok()?;
    let mut sheet = Sheet::fresh(words, Vec::new(), 2);
    sheet.environment.clone_from(&asking.environment);
    sheet.heap.clone_from(&asking.heap);
    sheet.constraints = moved(&asking.constraints, MOVED)?;
    Some(AsRun { sheet, at, word })
}

impl AsRun {
    /// A word of this program as one of the asking's.
    fn place(&self, place: usize) -> i32 {
        let place = match place >= self.at {
            true => place - self.at + self.word,
            false => place - MOVED as usize,
        };
        i32::try_from(place).unwrap()
    }

    /// The kept positions as the asking tells them.
    fn constraints(&self, finish: &Finish) -> Vec<i32> {
        let copy = i32::try_from(self.at).unwrap();
        let word = i32::try_from(self.word).unwrap();
        let kept = moved(&finish.constraints, -MOVED).unwrap();
        let back = |own: &i32| if *own == copy - MOVED { word } else { *own };
        let (counts, positions) = kept.split_at(2);
        let positions = positions.iter().map(back);
        counts.iter().copied().chain(positions).collect()
    }
}

/// A slice that is one whole proposal, cut short or none.
fn has_nothing_left(words: &[i32]) -> bool {
    Proposal::read(words).map_or(true, |proposal| proposal.length() == words.len())
}

/// A kept always-statement would be kept once more under its copy's position.
fn is_kept(asking: &Asking) -> bool {
    asking.constraints[2..66].contains(&asking.word)
}

fn alone(asking: &Asking, words: &[i32]) -> Asking {
    Asking {
        first: words.to_vec(),
        second: Vec::new(),
        ..asking.clone()
    }
}

fn check_alone(asking: &Asking, run: &AsRun) {
    let (finish, line) = (asking.answer(), asking.line());
    let mut sheet = run.sheet.clone();
    sheet.proposals.clone_from(&asking.first);
    let done = sheet.answer();
    let answer = finish.answer;
    assert_eq!(done.answer.outcome, answer.outcome, "{line}");
    let expected = match answer.outcome {
        0 => (asking.word, 1, asking.first.len()),
        1 | 3 => (i32::try_from(done.answer.place).unwrap(), 0, 0),
        _ => (run.place(done.answer.place), 0, 0),
    };
    let told = (answer.place, answer.solver, answer.words);
    assert_eq!(told, expected, "{line}");
    if answer.outcome == 0 {
        assert_eq!(done.environment, finish.environment, "{line}");
        assert_eq!(done.heap, finish.heap, "{line}");
        assert_eq!(run.constraints(&done), finish.constraints, "{line}");
    }
}

#[test]
fn each_slice_by_itself_is_a_run() {
    let (mut checked, mut accepted) = (0, 0);
    for index in 0..4000 {
        let asking = asking(SEED, index);
        let Some(run) = as_run(&asking).filter(|_| !is_kept(&asking)) else {
            continue;
        };
        for words in [&asking.first, &asking.second] {
            if has_nothing_left(words) {
                let asking = alone(&asking, words);
                check_alone(&asking, &run);
                accepted += usize::from(asking.answer().answer.outcome == 0);
                checked += 1;
            }
        }
    }
    assert!(checked > 3500 && accepted > 450, "{checked} and {accepted}");
}

/// What the first gives where it is accepted, is refused by the statement or has
/// no other behind it; otherwise what the second gives.
#[test]
fn both_together_from_each_by_itself() {
    let turned_down = TURNED_DOWN.map(Outcome::number);
    for index in 0..6000 {
        let asking = asking(SEED, index);
        let first = alone(&asking, &asking.first).answer();
        let tried = turned_down.contains(&first.answer.outcome) && !asking.second.is_empty();
        let mut expected = first;
        if tried {
            expected = alone(&asking, &asking.second).answer();
            expected.answer.solver *= 2;
        }
        assert_eq!(asking.answer(), expected, "{}", asking.line());
    }
}

/// An accepted slice in a program that holds nothing but the statement.
#[test]
fn a_statement_by_itself() {
    let mut checked = 0;
    for index in 0..6000 {
        let asking = asking(SEED, index);
        let finish = asking.answer();
        let kept = asking.constraints.iter().any(|word| *word != 0);
        if finish.answer.outcome != 0 || kept {
            continue;
        }
        let word = usize::try_from(asking.word).unwrap();
        let (_, end) = Statement::decode(&asking.program, word).unwrap();
        let program = [&[1], &asking.program[word..end]].concat();
        let accepted = [&asking.first, &asking.second][finish.answer.solver as usize - 1];
        let mut sheet = Sheet::fresh(program, accepted.clone(), 1);
        sheet.environment.clone_from(&asking.environment);
        sheet.heap.clone_from(&asking.heap);
        let done = sheet.answer();
        assert_eq!((done.answer.outcome, done.answer.unread), (0, 0));
        assert_eq!(done.environment, finish.environment);
        assert_eq!(done.heap, finish.heap);
        assert_eq!(done.constraints[0], finish.constraints[0]);
        assert_eq!(finish.constraints[2], asking.word * done.constraints[0]);
        checked += 1;
    }
    assert!(checked > 100, "only {checked}");
}

/// A run with a budget, and one with a step more: between them is one statement.
fn check_step(sheet: &Sheet, budget: i32) -> Option<i32> {
    let with = |budget| Sheet {
        budget,
        ..sheet.clone()
    };
    let (before, after) = (with(budget).answer(), with(budget + 1).answer());
    let program = Program::decode(&sheet.program).ok()?;
    let word = i32::try_from(before.answer.place).ok()?;
    named(&program, word).filter(|_| before.answer.outcome == 5)?;
    let unread = &sheet.proposals[sheet.proposals.len() - before.answer.unread..];
    let length = Proposal::read(unread).map_or(unread.len(), |proposal| proposal.length());
    let mut asking = in_sheet(sheet, word, &unread[..length], &[]);
    asking.environment = before.environment;
    asking.heap = before.heap;
    asking.constraints = before.constraints;
    let finish = asking.answer();
    let line = asking.line();
    assert_eq!(finish.environment, after.environment, "{line}");
    assert_eq!(finish.heap, after.heap, "{line}");
    assert_eq!(finish.constraints, after.constraints, "{line}");
    let accepted = after.answer.accepted > before.answer.accepted;
    let expected = match accepted {
        true => (0, word, 1, length),
        false => (after.answer.outcome, after.answer.place as i32, 0, 0),
    };
    assert_eq!(asked(&finish.answer), expected, "{line}");
    Some(finish.answer.outcome)
}

#[test]
fn steps_of_runs_are_askings() {
    let mut outcomes = [0; 20];
    for index in 0..2000 {
        let sheet = sheet(SEED, index);
        let steps = i32::try_from(sheet.answer().answer.steps).unwrap();
        for budget in (0..steps.min(600)).rev().take(6) {
            if let Some(outcome) = check_step(&sheet, budget) {
                outcomes[outcome as usize] += 1;
            }
        }
    }
    for (outcome, found) in outcomes.into_iter().enumerate() {
        let asked = ![1, 2, 3, 4, 5, 11].contains(&outcome);
        assert!(found >= 10 || !asked, "{outcome} only {found} times");
    }
}
