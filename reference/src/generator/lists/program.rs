//! A list as a run: the same assignments in a program.

use crate::batch::{List, Sheet};
use crate::entries::{decode, starts};
use crate::program::Program;
use crate::run::LARGEST_BUDGET;
use crate::tables::{CONSTRAINT_WORDS, VALUE_POSITIONS};

/// `if false`, which stands between the block's n and the list's own program.
const BEFORE: [i32; 2] = [7, 21];

/// How much further on that program stands there.
pub const MOVED: i32 = 3;

/// The run over the same assignments, behind an `if false` that holds the
/// list's own program. Kept positions are 3 greater and the steps one more, as
/// is the budget. None where an entry does not read or there is no room.
pub fn as_program(list: &List) -> Option<Sheet> {
    let program = program(list)?;
    let budget = u32::try_from(list.sheet.budget).ok()?;
    if budget >= LARGEST_BUDGET {
        return None;
    }
    Some(Sheet {
        program,
        constraints: moved(&list.sheet.constraints, MOVED)?,
        budget: list.sheet.budget + 1,
        ..list.sheet.clone()
    })
}

fn program(list: &List) -> Option<Vec<i32>> {
    Program::decode(&list.sheet.program).ok()?;
    let starts = starts(&list.entries);
    let mut program = vec![i32::try_from(1 + starts.len()).ok()?];
    program.extend(BEFORE);
    program.extend(&list.sheet.program);
    program.push(0);
    for start in starts {
        let (_, end) = decode(&list.entries, start).ok()?;
        program.push(1);
        program.extend(list.entries.get(start..end)?);
    }
    Program::decode(&program).ok().map(|_| program)
}

/// The table with each kept position so much further on. None where it has
/// another length, or a count or a position that no table has.
pub fn moved(constraints: &[i32], by: i32) -> Option<Vec<i32>> {
    if constraints.len() != CONSTRAINT_WORDS {
        return None;
    }
    let mut words = constraints.to_vec();
    let (counts, positions) = words.split_at_mut_checked(2)?;
    let (values, identities) = positions.split_at_mut_checked(VALUE_POSITIONS)?;
    for (count, positions) in counts.iter().zip([values, identities]) {
        let kept = usize::try_from(*count).ok()?;
        for word in positions.get_mut(..kept)? {
            *word = word.checked_add(by)?;
        }
    }
    Some(words)
}
