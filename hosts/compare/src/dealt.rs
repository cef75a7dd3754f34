//! Many cases, dealt out to a thread for each processor.

use crate::cases::{self, Agreed, Case, Noted};
use crate::comparison::Stop;
use crate::proved::Proved;
use std::fmt;
use std::io;
use std::sync::atomic::{AtomicU64, Ordering};
use std::thread;
use std::time::Instant;

/// How many cases were compared, all of them the same.
#[derive(Debug)]
pub struct Tally<C: Case> {
    /// For each of `C::OUTCOMES`.
    pub outcomes: Vec<u64>,
    pub noted: C::Noted,
    /// How many of them x86-64 code answered under the emulator too.
    pub emulated: u64,
    pub seconds: f64,
}

/// What one thread saw: what it counted, and the first difference.
struct Seen<C: Case> {
    tally: Tally<C>,
    difference: Option<(u64, String)>,
}

/// The calls have no state, so that the cases of one thread do not touch those
/// of another.
pub fn compare<C: Case>(seed: u64, count: u64) -> Result<Tally<C>, Stop> {
    let start = Instant::now();
    let threads = thread::available_parallelism().map_or(1, usize::from);
    let end = AtomicU64::new(count);
    let all = thread::scope(|scope| {
        let work = |own: usize| compare_some::<C>(seed, &end, (own as u64..).step_by(threads));
        let started: Vec<_> = (0..threads)
            .map(|own| scope.spawn(move || work(own)))
            .collect();
        let ended = started.into_iter().map(|thread| thread.join());
        ended.collect::<Result<io::Result<Vec<Seen<C>>>, _>>()
    });
    let all = all.map_err(|_| io::Error::other("a thread panicked"))??;
    let differences = all.iter().filter_map(|seen| seen.difference.as_ref());
    if let Some((_, text)) = differences.min() {
        return Err(Stop::Difference(text.clone()));
    }
    let mut tally = Tally::default();
    all.iter().for_each(|seen| tally.add(&seen.tally));
    tally.seconds = start.elapsed().as_secs_f64();
    Ok(tally)
}

/// Compares the cases of these numbers up to the end, which the first
/// difference of any thread brings nearer.
fn compare_some<C: Case>(
    seed: u64,
    end: &AtomicU64,
    numbers: impl Iterator<Item = u64>,
) -> io::Result<Seen<C>> {
    let mut proved = Proved::start()?;
    let mut seen = Seen {
        tally: Tally::default(),
        difference: None,
    };
    for index in numbers.take_while(|index| *index < end.load(Ordering::Relaxed)) {
        let case = C::generated(seed, index);
        let agreed = cases::compare(&case, &mut proved)?;
        if let Err(text) = agreed.and_then(|agreed| seen.tally.count(&case, &agreed)) {
            end.fetch_min(index, Ordering::Relaxed);
            let text = format!("{} {index} of seed {seed}\n{text}", C::NAME);
            seen.difference = Some((index, text));
        }
    }
    Ok(seen)
}

impl<C: Case> Tally<C> {
    /// How many cases there were.
    pub fn cases(&self) -> u64 {
        self.outcomes.iter().sum()
    }

    fn count(&mut self, case: &C, agreed: &Agreed<C>) -> Result<(), String> {
        self.noted.note(case, &agreed.finish)?;
        self.outcomes[agreed.outcome] += 1;
        self.emulated += u64::from(agreed.emulated);
        Ok(())
    }

    fn add(&mut self, other: &Tally<C>) {
        for (count, more) in self.outcomes.iter_mut().zip(&other.outcomes) {
            *count += more;
        }
        self.noted.add(&other.noted);
        self.emulated += other.emulated;
    }
}

impl<C: Case> Default for Tally<C> {
    fn default() -> Tally<C> {
        Tally {
            outcomes: vec![0; C::OUTCOMES.len()],
            noted: C::Noted::default(),
            emulated: 0,
            seconds: 0.0,
        }
    }
}

impl<C: Case> fmt::Display for Tally<C> {
    fn fmt(&self, out: &mut fmt::Formatter<'_>) -> fmt::Result {
        let (cases, name) = (self.cases(), C::NAME);
        write!(out, "{cases} {name}s the same; outcomes")?;
        for (outcome, count) in C::OUTCOMES.iter().zip(&self.outcomes) {
            write!(out, " {}: {count}", outcome.number())?;
        }
        write!(out, "; {}", self.noted)?;
        if self.emulated > 0 {
            write!(out, "; {} of them by x86-64 code too", self.emulated)?;
        }
        write!(out, "; {:.0} {name}s a second", cases as f64 / self.seconds)
    }
}
