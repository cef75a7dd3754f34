//! Words that do not read: what comes before the first unfit word may be
//! refused first, as pieces are evaluated where they are met.

use super::held;
use reference::outcome::{Fault, Outcome};
use reference::program::{Constraint, Expression, Path, Term};

/// Words that are fit where others are not, in the order in which they are tried.
const FILLING: [i32; 3] = [20, 0, 1];

/// The piece that begins with the fit words, ended with words of this module.
/// The first unfit word is at `place`.
pub fn completed<T>(
    words: &[i32],
    start: usize,
    place: usize,
    decode: impl Fn(&[i32], usize) -> Result<(T, usize), usize>,
) -> Option<T> {
    let mut words = words.get(..place)?.to_vec();
    loop {
        if let Ok((piece, _)) = decode(&words, start) {
            return Some(piece);
        }
        let fit = FILLING.into_iter().find(|word| {
            words.push(*word);
            let fits = decode(&words, start).map_or_else(|at| at >= words.len(), |_| true);
            words.pop();
            fits
        });
        match fit {
            Some(word) => words.push(word),
            // A level too deep: a leaf that ends past `place` instead of the
            // operation that holds it.
            None => {
                words.truncate(words.len().checked_sub(2).filter(|n| *n >= start)?);
                words.extend([24, 0, 0]);
            }
        }
    }
}

/// The refusal of a piece whose first unfit word is at `place`, from its
/// completed form's fault and paths: the number, and the word at fault.
/// Labels are not tested when a path is followed, so a path whose labels are
/// unfit is 7; where a table has such a label there is no answer to compare.
pub fn refusal(
    words: &[i32],
    place: usize,
    fault: Option<Fault>,
    paths: &[&Path],
    leads: impl Fn(&Path) -> bool,
) -> Option<(i32, usize)> {
    if let Some((outcome, word)) = fault.and_then(|fault| before(words.get(..place)?, fault)) {
        return Some((outcome.number(), word));
    }
    let end = |path: &Path| path.position + 2 + path.labels.len();
    let holds = |path: &&&Path| path.position + 2 <= place && place < end(path);
    let Some(path) = paths.iter().find(holds) else {
        return Some((2, place));
    };
    let labels = (0..path.labels.len()).map(|i| held::number(words, path.position + 2 + i));
    let written = Path {
        position: path.position,
        variable: path.variable,
        labels: labels.collect(),
    };
    (!leads(&written)).then_some((7, path.position))
}

/// The outcome and word of a fault whose piece stands whole among the fit
/// words: a path, an operation, or what follows a priority.
fn before(fit: &[i32], fault: Fault) -> Option<(Outcome, usize)> {
    let word = fault.word?;
    let ends = match fault.outcome {
        Outcome::NoCell => Path::decode(fit, word).is_ok(),
        _ if fit.get(word) == Some(&25) => Expression::decode(fit, word).is_ok(),
        _ => Expression::decode(fit, word + 1).is_ok(),
    };
    ends.then_some((fault.outcome, word))
}

pub fn paths(expression: &Expression) -> Vec<&Path> {
    match &expression.term {
        Term::Read(path) => vec![path],
        Term::Identical(identity) => vec![&identity.left, &identity.right],
        Term::Apply(_, left, right) => [paths(left), paths(right)].concat(),
        _ => Vec::new(),
    }
}

pub fn constraint_paths(constraint: &Constraint) -> Vec<&Path> {
    let parts = constraint.parts.iter();
    parts.flat_map(|part| paths(&part.expression)).collect()
}
