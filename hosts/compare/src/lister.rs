//! The run lister: the proved output and the independent one for the same text.

use crate::answering::{self, MOST_BYTES};
use crate::comparison::Stop;
use crate::texts;
use reference::lister;
use std::collections::BTreeMap;
use std::fmt;

/// What the bytes of an output hold before it is written.
const BEFORE: u8 = 0xA5;

/// How many texts were compared, all of them the same, by the first line of
/// their output.
#[derive(Debug, Default)]
pub struct Tally {
    pub texts: u64,
    pub first: BTreeMap<(usize, String), u64>,
}

pub fn compare(seed: u64, count: u64) -> Result<Tally, Stop> {
    let mut tally = Tally::default();
    for index in 0..count {
        let text = texts::text(seed, index);
        let first = compare_text(&text).map_err(|difference| {
            Stop::Difference(format!(
                "text {index} of seed {seed}\n{}\n{difference}",
                shown(&text)
            ))
        })?;
        tally.texts += 1;
        *tally.first.entry((first.len(), first)).or_default() += 1;
    }
    Ok(tally)
}

/// The first line of the output, where both give the same bytes: in a buffer
/// that is large enough, and, as far as it goes, in one that is too small.
pub fn compare_text(text: &[u8]) -> Result<String, String> {
    let independent = lister::list(text);
    let whole = independent.as_bytes();
    for room in [MOST_BYTES, whole.len() / 2] {
        let mut output = vec![BEFORE; room];
        let written = answering::answer(text, &mut output);
        let mut expected = whole.to_vec();
        expected.resize(room, BEFORE);
        if written != room.min(whole.len()) || output != expected {
            return Err(format!(
                "proved, {written} bytes in {room}: {}\nindependent: {}",
                shown(&output),
                shown(whole)
            ));
        }
    }
    Ok(independent.lines().next().unwrap_or_default().to_string())
}

/// The first bytes of a text, as a difference shows them.
pub fn shown(bytes: &[u8]) -> String {
    bytes.escape_ascii().take(2000).map(char::from).collect()
}

impl fmt::Display for Tally {
    fn fmt(&self, out: &mut fmt::Formatter<'_>) -> fmt::Result {
        write!(out, "{} texts the same;", self.texts)?;
        for ((_, first), texts) in &self.first {
            write!(out, " {first}: {texts}")?;
        }
        Ok(())
    }
}
