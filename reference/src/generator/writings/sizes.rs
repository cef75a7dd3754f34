//! Texts about 65,536 bytes, and names so long.

use super::programs;
use super::tables::{small, used, Table, SLOTS};
use super::WriteCase;
use crate::generator::numbers::Numbers;
use crate::text::{LARGEST_TEXT, VARIABLES};

/// A text of just so many bytes, by the length of its names.
pub fn exact(numbers: &mut Numbers) -> WriteCase {
    let target = LARGEST_TEXT + numbers.below(5) / 2 - usize::from(numbers.chance(20));
    let (program, last) = with_a_last_name(numbers);
    let mut table = Table::new(Vec::new());
    let slots = used(&program);
    let slot = numbers.pick(&slots).unwrap_or(last);
    let bare = length_with(&program, &mut table, &[(slot, 1), (last, 1)]);
    let twice = length_with(&program, &mut table, &[(slot, 2), (last, 1)]);
    let times = twice.saturating_sub(bare).max(1);
    let missing = target.saturating_sub(bare);
    let more = match slot == last {
        true => 0,
        false => numbers.below(missing / times + 1),
    };
    let rest = missing - more * times;
    length_with(&program, &mut table, &[(slot, 1 + more), (last, 1 + rest)]);
    WriteCase::new(program, table).with_room(numbers)
}

/// A program behind which a variable stands that is used nowhere else.
fn with_a_last_name(numbers: &mut Numbers) -> (Vec<i32>, usize) {
    loop {
        let mut program = programs::any(numbers);
        let variables = used(&program).iter().filter(|s| **s < VARIABLES).count();
        let count = program.first().copied().unwrap_or(0);
        if variables < VARIABLES && count < 255 && program.len() < 4000 {
            program.extend([1, small(variables), 0, 20]);
            program.splice(0..1, [count + 1]);
            return (program, variables);
        }
    }
}

/// Gives slots names of so many bytes, the last of them if one comes twice,
/// and tells the text's length.
fn length_with(program: &[i32], table: &mut Table, names: &[(usize, usize)]) -> usize {
    table.source.clear();
    for ((slot, length), letter) in names.iter().zip(b'q'..) {
        table.set(*slot, small(table.source.len()), small(*length));
        table.source.extend(vec![letter; *length]);
    }
    let case = WriteCase::new(program.to_vec(), table.clone());
    case.length().unwrap_or(0)
}

/// The longest names there can be, all of different lengths, often over a
/// program that uses them many times.
pub fn huge(numbers: &mut Numbers) -> WriteCase {
    let program = programs::any(numbers);
    let mut table = Table::new(vec![b'q'; LARGEST_TEXT]);
    let mut length = LARGEST_TEXT - numbers.below(2) * numbers.below(1000);
    for slot in used(&program) {
        if numbers.chance(60) {
            table.set(slot, 0, small(length));
            length -= 1 + numbers.below(100);
        }
    }
    WriteCase::new(program, table).with_room(numbers)
}

/// A name of as many bytes as it may have, or one more, that is used or not.
pub fn long_name(numbers: &mut Numbers) -> WriteCase {
    let program = programs::small(numbers);
    let mut table = Table::any(numbers, &program);
    let slots = used(&program);
    let slot = match numbers.chance(30) {
        true => numbers.pick(&slots).unwrap_or(0),
        false => numbers.below(SLOTS),
    };
    let mut name = vec![b'q'; LARGEST_TEXT + numbers.below(2)];
    if numbers.chance(20) {
        name.splice(0..1, [b'Q']);
    }
    table.give(numbers, slot, &name);
    WriteCase::new(program, table).with_room(numbers)
}
