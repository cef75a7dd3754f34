//! Sheets that start from the tables an earlier run left.

use super::draft::Draft;
use super::numbers::Numbers;
use super::search::Searcher;
use super::states;
use crate::batch::Sheet;
use crate::classes::Moves;
use crate::program::{Always, Program};
use crate::run::unfit_at_start;
use crate::statements::Machine;
use crate::tables::{Tables, Value};

const MOST_STEPS: u32 = 800;

/// Runs a draft, then the same or a longer program on what it left.
pub fn again(mut draft: Draft) -> Sheet {
    let count = 3 + draft.numbers.below(12);
    draft.grow(count);
    while draft.tables.values.is_empty() && draft.numbers.chance(90) {
        draft.grow(2);
    }
    if draft.numbers.chance(40) {
        states::named_fields(&mut draft);
    }
    let mut left = draft.tables.clone();
    if draft.numbers.chance(40) {
        draft.grow(3);
    }
    let mut program = draft.program();
    let mut numbers = draft.numbers;
    rearrange(&mut numbers, &mut left.values);
    rearrange(&mut numbers, &mut left.identities);
    if numbers.chance(25) {
        change_literals(&mut numbers, &mut program);
    }
    let decoded = Program::decode(&program).ok();
    let proposals = match &decoded {
        Some(decoded) => {
            if numbers.chance(45) {
                left = spoilt(&mut numbers, left, &decoded.always());
            }
            search(&mut numbers, decoded, &left)
        }
        None => vec![0; 8],
    };
    let mut sheet = Sheet::fresh(program, proposals, 800);
    sheet.fill(&left);
    sheet
}

/// Sometimes another order of kept positions, or one of them less.
pub fn rearrange(numbers: &mut Numbers, positions: &mut Vec<usize>) {
    match numbers.below(10) {
        0 | 1 => positions.reverse(),
        2 => {
            positions.pop();
        }
        _ => {}
    }
}

/// Changes words behind a 23, which are literals mostly.
fn change_literals(numbers: &mut Numbers, program: &mut [i32]) {
    for _ in 0..3 {
        let place = numbers.below(program.len());
        let rest = program.iter_mut().skip(place);
        let mut after = rest.skip_while(|word| **word != 23).skip(1);
        if let Some(literal) = after.next() {
            *literal = numbers.literal();
        }
    }
}

/// Proposals that lead as far as possible through a whole program.
fn search(numbers: &mut Numbers, program: &Program, tables: &Tables) -> Vec<i32> {
    let always = program.always();
    let mut machine = Machine {
        always: &always,
        tables: tables.clone(),
        source: Searcher::new(Numbers::new(numbers.next(), 1)),
        budget: MOST_STEPS,
        steps: 0,
        accepted: 0,
        moves: Moves::default(),
    };
    let _ = machine.block(&program.block);
    machine.source.words
}

/// Start tables in which a kept constraint fails, if that can be had.
pub fn spoil_start(numbers: &mut Numbers, sheet: &mut Sheet) {
    let Ok(program) = Program::decode(&sheet.program) else {
        return;
    };
    let always = program.always();
    let tables = Tables::decode(&sheet.environment, &sheet.heap, &sheet.constraints, &always);
    if let Ok(tables) = tables {
        sheet.fill(&spoilt(numbers, tables, &always));
    }
}

/// One cell changed, so that a kept constraint fails if that can be had.
fn spoilt(numbers: &mut Numbers, tables: Tables, always: &Always) -> Tables {
    let cells: Vec<(usize, Value)> = tables.cells().collect();
    for _ in 0..12 {
        let Some((location, value)) = numbers.pick(&cells) else {
            break;
        };
        let mut changed = tables.clone();
        changed.set(location, other(numbers, value, tables.record_count()));
        if unfit_at_start(&changed, always).is_some() {
            return changed;
        }
    }
    tables
}

fn other(numbers: &mut Numbers, value: Value, records: usize) -> Value {
    if numbers.chance(50) {
        return of_another_kind(numbers, value);
    }
    match value {
        Value::Integer(_) => Value::Integer(numbers.literal()),
        Value::Boolean(truth) => Value::Boolean(!truth),
        Value::Reference(_) if records > 1 && numbers.chance(50) => {
            Value::Reference(numbers.below(records))
        }
        Value::Nil if records > 0 => Value::Reference(numbers.below(records)),
        _ => Value::Nil,
    }
}

/// Nil, a boolean or an integer.
fn of_another_kind(numbers: &mut Numbers, value: Value) -> Value {
    let truth = Value::Boolean(numbers.chance(50));
    let all = [Value::Nil, truth, Value::Integer(numbers.literal())];
    let mut others = all.into_iter().filter(|own| own.kind() != value.kind());
    others.nth(numbers.below(2)).unwrap_or(Value::Nil)
}
