//! The generated askings: always the same ones, of every class.

mod common;
use common::digest;
use reference::batch::{answer_line, Asking, Sheet};
use reference::generator::asking;
use reference::generator::askings::classes::{Class, OWN};
use reference::generator::askings::histogram;
use reference::outcome::Outcome;

const SEED: u64 = 20_240_501;

#[test]
fn every_class_comes_up() {
    let counts = histogram(SEED, 10_000);
    for class in Class::all() {
        let askings = counts[&class];
        assert!(askings >= 50, "{class:?} only {askings} times");
    }
    let sum = |wanted: fn(&Class) -> bool| -> u64 {
        let of = counts.iter().filter(|(class, _)| wanted(class));
        of.map(|(_, askings)| askings).sum()
    };
    assert_eq!(sum(|class| matches!(class, Class::Outcome(_))), 10_000);
    assert_eq!(sum(|class| matches!(class, Class::Solver(_))), 10_000);
    let reached = sum(|class| matches!(class, Class::Statement(..)));
    assert_eq!(sum(|class| matches!(class, Class::Kept(..))), reached);
    let slices = sum(|class| matches!(class, Class::Pair(..)));
    let own = sum(|class| matches!(class, Class::Own(..)));
    assert_eq!(slices + own, reached);
}

/// No asking counts steps, is about an identity or has a needless change where
/// a required part can be unmet.
#[test]
fn what_never_comes_up() {
    let counts = histogram(SEED, 3000);
    for class in [
        Class::Outcome(5),
        Class::Outcome(11),
        Class::Pair(18, 19),
        Class::Pair(19, 18),
    ] {
        assert_eq!(counts.get(&class), None, "{class:?}");
    }
    let outcomes = Outcome::OF_ASKINGS.map(Outcome::number);
    let all = counts.keys().filter_map(|class| match class {
        Class::Outcome(number) => Some(*number),
        _ => None,
    });
    assert_eq!(all.collect::<Vec<i32>>(), outcomes);
    assert!(OWN.iter().all(|own| Outcome::OF_ASKINGS.contains(own)));
}

/// Whatever the sort of the statement, slices are accepted and refused by each
/// number, and proposals with several entries are.
#[test]
fn slices_of_all_sorts_come_up() {
    let askings: Vec<Asking> = (0..8000).map(|index| asking(SEED, index)).collect();
    let sort = |asking: &Asking| {
        let word = usize::try_from(asking.word).ok()?;
        asking.program.get(word).copied()
    };
    for wanted in 1..=4 {
        for number in [0, 16, 17, 18, 19] {
            let own = askings.iter().filter(|own| sort(own) == Some(wanted));
            let found = own.filter(|own| own.answer().answer.outcome == number);
            let found = found.count();
            assert!(found >= 50, "{wanted} with {number} only {found} times");
        }
    }
    for number in [0, 16, 17, 18, 19] {
        let wide = askings.iter().filter(|own| own.first.len() > 4);
        let found = wide.filter(|own| {
            let alone = Asking {
                second: Vec::new(),
                ..(*own).clone()
            };
            alone.answer().answer.outcome == number
        });
        let found = found.count();
        assert!(found >= 30, "{number} with entries only {found} times");
    }
}

#[test]
fn a_seed_and_number_give_the_same_asking() {
    for index in 0..200 {
        assert_eq!(asking(SEED, index), asking(SEED, index));
    }
    assert_ne!(asking(SEED, 0), asking(SEED + 1, 0));
    assert_ne!(asking(SEED, 0), asking(SEED, 1));
}

#[test]
fn the_same_askings_on_every_machine() {
    let lines = (0..500).map(|index| asking(1, index).line());
    assert_eq!(digest(lines), 9_690_859_607_626_022_854);
}

#[test]
fn askings_survive_their_lines() {
    for index in 0..600 {
        let asking = asking(SEED, index);
        let line = asking.line();
        assert_eq!(Asking::parse(line.as_bytes()).as_ref(), Some(&asking));
        let answer = asking.answer().line(&asking);
        assert_eq!(answer_line(line.as_bytes()), answer);
    }
}

/// A refusal changes nothing and hands nothing back. What an accepted slice
/// leaves is fit to start from, and the words are the whole slice.
#[test]
fn what_is_left_behind() {
    for index in 0..3000 {
        let asking = asking(SEED, index);
        let finish = asking.answer();
        let answer = finish.answer;
        if answer.outcome != 0 {
            assert_eq!((answer.solver, answer.words), (0, 0));
            assert_eq!(finish.environment, asking.environment);
            assert_eq!(finish.heap, asking.heap);
            assert_eq!(finish.constraints, asking.constraints);
            continue;
        }
        let slices = [&asking.first, &asking.second];
        let slice = slices[answer.solver as usize - 1];
        assert_eq!((answer.place, answer.words), (asking.word, slice.len()));
        let start = Sheet {
            program: asking.program,
            environment: finish.environment,
            heap: finish.heap,
            constraints: finish.constraints,
            proposals: Vec::new(),
            budget: 0,
        };
        assert_eq!(start.answer().answer.outcome, 5);
    }
}
