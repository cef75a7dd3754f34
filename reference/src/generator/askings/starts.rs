//! Askings that are refused before the statement.

use super::any;
use super::words::{outside, wrong};
use crate::asking::named;
use crate::batch::{Asking, Sheet};
use crate::generator::again::spoil_start;
use crate::generator::damage::{spoil, spoil_lengths, spoil_list};
use crate::generator::numbers::Numbers;
use crate::program::{Always, Program};
use crate::run::unfit_at_start;
use crate::tables::{Tables, CONSTRAINT_WORDS, ENVIRONMENT_WORDS, HEAP_WORDS};

/// What is tried before the statement, in its order.
#[derive(Clone, Copy, Debug, PartialEq, Eq, PartialOrd, Ord)]
pub enum Check {
    Sizes,
    Program,
    Word,
    Tables,
    Start,
}

impl Check {
    pub const ALL: [Check; 5] = [
        Check::Sizes,
        Check::Program,
        Check::Word,
        Check::Tables,
        Check::Start,
    ];

    /// What can fail together, each with the one that is told first.
    pub const PAIRS: [(Check, Option<Check>); 11] = [
        (Check::Sizes, None),
        (Check::Sizes, Some(Check::Program)),
        (Check::Sizes, Some(Check::Word)),
        (Check::Program, None),
        (Check::Program, Some(Check::Word)),
        (Check::Program, Some(Check::Tables)),
        (Check::Word, None),
        (Check::Word, Some(Check::Tables)),
        (Check::Word, Some(Check::Start)),
        (Check::Tables, None),
        (Check::Start, None),
    ];

    /// Whether it fails by itself. Where the sizes are wrong no tables are read;
    /// where the program does not read, no statement and no position is looked
    /// for in it.
    pub fn fails(self, asking: &Asking) -> bool {
        let tree = Program::decode(&asking.program).ok();
        let always = tree.as_ref().map(Program::always).unwrap_or_default();
        match self {
            Check::Sizes => !has_sizes(asking),
            Check::Program => tree.is_none(),
            Check::Word => match &tree {
                Some(tree) => named(tree, asking.word).is_none(),
                None => is_outside(asking),
            },
            Check::Tables => has_sizes(asking) && tables(asking, tree, &always).is_none(),
            Check::Start => {
                let tables = tables(asking, tree, &always).filter(|_| has_sizes(asking));
                tables.is_some_and(|tables| unfit_at_start(&tables, &always).is_some())
            }
        }
    }
}

fn has_sizes(asking: &Asking) -> bool {
    asking.environment.len() == ENVIRONMENT_WORDS
        && asking.heap.len() == HEAP_WORDS
        && asking.constraints.len() == CONSTRAINT_WORDS
}

fn is_outside(asking: &Asking) -> bool {
    let word = usize::try_from(asking.word);
    word.map_or(true, |word| word >= asking.program.len())
}

fn tables(asking: &Asking, tree: Option<Program>, always: &Always) -> Option<Tables> {
    let constraints = match tree {
        Some(_) => asking.constraints.clone(),
        None => vec![0; CONSTRAINT_WORDS],
    };
    Tables::decode(&asking.environment, &asking.heap, &constraints, always).ok()
}

/// One of them fails or two do, with slices that would be accepted mostly.
pub fn asking(numbers: &mut Numbers) -> Asking {
    let pair = numbers.pick(&Check::PAIRS);
    let (first, second) = pair.unwrap_or((Check::Sizes, None));
    let question = any(numbers);
    let [one, other] = [(); 2].map(|()| question.written(numbers, None));
    let mut asking = question.asking(one, other);
    if let Some(second) = second {
        spoil_for(numbers, &mut asking, second, first);
    }
    spoil_for(numbers, &mut asking, first, first);
    asking
}

/// Makes a check fail, if a few tries find how. The first one is told.
fn spoil_for(numbers: &mut Numbers, asking: &mut Asking, check: Check, first: Check) {
    if check == Check::Word {
        asking.word = match first {
            Check::Program => outside(numbers, &asking.program),
            _ => wrong(numbers, &asking.program),
        };
        return;
    }
    for _ in 0..20 {
        let mut spoilt = asking.clone();
        on_sheet(&mut spoilt, |sheet| match check {
            Check::Sizes => spoil_lengths(numbers, sheet),
            Check::Program => spoil_list(numbers, &mut sheet.program),
            Check::Start => spoil_start(numbers, sheet),
            _ => spoil(numbers, sheet),
        });
        if check.fails(&spoilt) {
            *asking = spoilt;
            return;
        }
    }
}

/// Changes what an asking and a sheet have in common.
fn on_sheet(asking: &mut Asking, change: impl FnOnce(&mut Sheet)) {
    let mut sheet = Sheet::fresh(asking.program.clone(), Vec::new(), 0);
    sheet.environment.clone_from(&asking.environment);
    sheet.heap.clone_from(&asking.heap);
    sheet.constraints.clone_from(&asking.constraints);
    change(&mut sheet);
    asking.program = sheet.program;
    asking.environment = sheet.environment;
    asking.heap = sheet.heap;
    asking.constraints = sheet.constraints;
}
