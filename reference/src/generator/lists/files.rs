//! Files of cores, whose length is that of the header and four bytes for each
//! sample.

use crate::generator::compose::VARIABLE_NAMES;
use crate::generator::draft::Draft;

/// Makes some files and keeps what must hold of each, and of all together.
pub fn keep(draft: &mut Draft) {
    let count = 1 + draft.numbers.below(5);
    let first = draft.numbers.below(VARIABLE_NAMES.len());
    let names = VARIABLE_NAMES.iter().cycle().skip(first).take(count);
    for name in names.clone() {
        let (header, samples) = (draft.numbers.between(0, 20), draft.numbers.between(0, 30));
        let length = header + 4 * samples;
        let file = [2, *name, 3, 0, 23, length, 1, 23, header, 2, 23, samples];
        let _ = draft.attempt(&file);
        let words = layout(draft, *name);
        let _ = draft.attempt(&words);
    }
    let names: Vec<i32> = names.copied().collect();
    if let (&[one, other, ..], true) = (names.as_slice(), draft.numbers.chance(40)) {
        let sum = [25, 1, 24, one, 1, 0, 24, other, 1, 0];
        let _ = draft.attempt(&[&[1, 50, 0][..], &sum].concat());
        let _ = draft.attempt(&[&[3, 1, 3, 25, 6, 24, 50, 0][..], &sum].concat());
    }
    if let (Some(name), true) = (draft.numbers.pick(&names), draft.numbers.chance(30)) {
        let _ = draft.attempt(&[1, 51, 0, 24, name, 0]);
        let _ = draft.attempt(&[5, 51, 0, name, 0]);
    }
}

/// What is kept of one file: the required part, and others that are soft.
fn layout(draft: &mut Draft, name: i32) -> Vec<i32> {
    let mut parts = vec![vec![
        3, 25, 6, 24, name, 1, 0, 25, 1, 24, name, 1, 1, 25, 3, 23, 4, 24, name, 1, 2,
    ]];
    let numbers = &mut draft.numbers;
    if numbers.chance(40) {
        let wish = vec![1, 25, 6, 24, name, 1, 1, 23, numbers.between(0, 20)];
        parts.push(wish);
    }
    if numbers.chance(30) {
        let priority = numbers.between(1, 2);
        parts.push(vec![
            priority,
            25,
            4,
            24,
            name,
            1,
            0,
            23,
            numbers.between(20, 90),
        ]);
    }
    if numbers.chance(20) {
        parts.push(vec![3, 25, 8, 24, name, 1, 1, 23, numbers.between(-200, 0)]);
    }
    if numbers.chance(30) {
        parts.reverse();
    }
    let count = i32::try_from(parts.len()).unwrap_or(1);
    [&[3, count][..], &parts.concat()].concat()
}
