//! States in which a certain statement or entry is refused.

use super::draft::Draft;
use super::inside::{behind_parts, joined, under_truths};
use super::numbers::Numbers;

/// One of each kind that 6 and 7 take two of.
const LITERALS: [&[i32]; 3] = [&[23, 1], &[22], &[20]];

/// v20.0 holds the record that v20 does, so that it is on its own way.
pub fn self_reference(draft: &mut Draft) {
    let _ = draft.attempt(&[2, 20, 1, 0, 20]);
    let _ = draft.attempt(&[1, 20, 1, 0, 24, 20, 0]);
}

/// v21 is on the way of v21.0 == v22.
pub fn tied_field(draft: &mut Draft) {
    let _ = draft.attempt(&[2, 21, 2, 0, 20, 1, 23, 4]);
    let _ = draft.attempt(&[1, 22, 0, 20]);
    let _ = draft.attempt(&[5, 21, 1, 0, 22, 0]);
}

/// v31.0, which is v32.0 too, is on the way of v31.0.1 == v33.
pub fn tied_inner_field(draft: &mut Draft) {
    let _ = draft.attempt(&[2, 30, 1, 1, 20]);
    let _ = draft.attempt(&[2, 31, 1, 0, 24, 30, 0]);
    let _ = draft.attempt(&[1, 32, 0, 24, 31, 0]);
    let _ = draft.attempt(&[1, 33, 0, 20]);
    let _ = draft.attempt(&[5, 31, 2, 0, 1, 33, 0]);
}

/// v23, v24 and v25 are one class, two of them on the way of v23.0 == v24.0.
pub fn tied_family(draft: &mut Draft) {
    let _ = draft.attempt(&[2, 23, 1, 0, 20]);
    let _ = draft.attempt(&[1, 24, 0, 24, 23, 0]);
    let _ = draft.attempt(&[1, 25, 0, 24, 23, 0]);
    let _ = draft.attempt(&[5, 24, 0, 25, 0]);
    let _ = draft.attempt(&[5, 23, 0, 24, 0]);
    let _ = draft.attempt(&[6, 23, 0, 25, 0]);
    let _ = draft.attempt(&[5, 23, 1, 0, 24, 1, 0]);
}

/// Keeps an identity of any two cells that allow it, and gives a side's path.
pub fn tied_pair(draft: &mut Draft) -> Vec<i32> {
    let pair = draft.composer().identical_paths();
    let (left, right) = match pair {
        Some((left, right)) => (left.words, right.words),
        None => {
            let _ = draft.attempt(&[1, 26, 0, 20]);
            (vec![26, 0], vec![26, 0])
        }
    };
    let _ = draft.attempt(&[&[5][..], &left, &right].concat());
    match draft.numbers.chance(50) {
        true => left,
        false => right,
    }
}

fn record(name: i32, [first, second, third]: [&[i32]; 3]) -> Vec<i32> {
    [&[2, name, 3, 0], first, &[1], second, &[2], third].concat()
}

/// The fields of v27 and v35 are an integer, a boolean and nil. Keeps
/// constraints on fields of v27, and gives the last one's field.
pub fn named_fields(draft: &mut Draft) -> usize {
    for name in [27, 35] {
        let _ = draft.attempt(&record(name, LITERALS));
    }
    let mut field = 0;
    for _ in 0..=draft.numbers.below(2) {
        field = draft.numbers.below(LITERALS.len());
        let part = match field == 1 && draft.numbers.chance(50) {
            true => vec![24, 27, 1, 1],
            false => compared(&mut draft.numbers, field),
        };
        let part = under_truths(&mut draft.numbers, &part);
        let constraint = behind_parts(&mut draft.numbers, &part);
        let _ = draft.attempt(&[&[3][..], &constraint].concat());
    }
    field
}

pub fn path(name: i32, field: usize) -> [i32; 3] {
    [name, 1, i32::try_from(field).unwrap_or(0)]
}

/// 6 or 7 over a field of v27 and that of v35 or a literal, in either order.
fn compared(numbers: &mut Numbers, field: usize) -> Vec<i32> {
    let operator = numbers.between(6, 7);
    let other = match numbers.chance(50) {
        true => [&[24][..], &path(35, field)].concat(),
        false => LITERALS[field].to_vec(),
    };
    let own = [&[24][..], &path(27, field)].concat();
    joined(numbers, operator, &other, &own)
}

/// A field of v27 or v35 with a literal of another kind: an entry.
pub fn other_field(numbers: &mut Numbers, field: usize) -> Vec<i32> {
    let name = numbers.one_of(&[27, 27, 35]);
    let other = (field + 1 + numbers.below(2)) % LITERALS.len();
    [&path(name, field), LITERALS[other]].concat()
}

/// A new record for v27 or v35, with fields of any kinds.
pub fn other_record(numbers: &mut Numbers) -> Vec<i32> {
    let name = numbers.one_of(&[27, 27, 35]);
    let mut literal = || LITERALS[numbers.below(LITERALS.len())];
    record(name, [literal(), literal(), literal()])
}

/// v28 < v29 is required, and v28 is 3.
pub fn less_than_another(draft: &mut Draft) {
    let _ = draft.attempt(&[1, 28, 0, 23, 3]);
    let _ = draft.attempt(&[1, 29, 0, 23, 4]);
    let _ = draft.attempt(&[3, 1, 3, 25, 4, 24, 28, 0, 24, 29, 0]);
}
