//! The programs that are written back.

use crate::clock;
use crate::measured::Side;
use crate::typed;
use cordbasin::LONGEST_TEXT;
use reference::text;
use reference::writer::{self, Answer};

/// A program with the names of the text that it was read from, and how many
/// bytes it is known to be written in.
pub struct Printed {
    pub name: &'static str,
    pub title: &'static str,
    pub source: Vec<u8>,
    pub program: Vec<i32>,
    pub names: Vec<i32>,
    /// How many writings are timed together.
    pub runs: usize,
    pub bytes: usize,
}

/// Every program, in the order of the table: those of the texts that are read.
pub fn all() -> Vec<Printed> {
    let known = [
        ("printed-k1", "K1 written back", 91),
        ("printed-desk", "the desk's ten cores written back", 4872),
    ];
    let texts = typed::all().into_iter().zip(known);
    texts
        .map(|(typed, (name, title, bytes))| {
            let source = typed.text.into_bytes();
            let reading = text::read(&source);
            Printed {
                name,
                title,
                source,
                program: reading.words,
                names: reading.names,
                runs: typed.runs,
                bytes,
            }
        })
        .collect()
}

/// Room for every text.
pub fn page() -> Vec<u8> {
    vec![0; LONGEST_TEXT]
}

/// One writing.
pub fn write(side: Side, printed: &Printed, page: &mut [u8]) -> Answer {
    let (program, source, names) = (&printed.program, &printed.source, &printed.names);
    match side {
        Side::Proved => {
            let writing = cordbasin::write_words(program, source, names, page);
            Answer {
                outcome: writing.outcome.number(),
                place: writing.place,
                variables: writing.variables,
                labels: writing.labels,
                bytes: writing.bytes,
            }
        }
        Side::Independent => writer::write_into(program, source, names, page),
    }
}

/// Nanoseconds of one writing.
pub fn time(side: Side, printed: &Printed) -> f64 {
    let mut page = page();
    let start = clock::nanoseconds();
    for _ in 0..printed.runs {
        std::hint::black_box(write(side, printed, &mut page));
    }
    (clock::nanoseconds() - start) as f64 / printed.runs as f64
}

/// Both programs write as many bytes as is known, and the same ones.
pub fn agree(printed: &Printed) -> Result<(), String> {
    let [proved, independent] = Side::BOTH.map(|side| {
        let mut page = page();
        (write(side, printed, &mut page), page)
    });
    let (answer, name) = (proved.0, printed.name);
    let known = (0, printed.program.len(), printed.bytes);
    if (answer.outcome, answer.place, answer.bytes) != known {
        return Err(format!(
            "{name}: {answer:?} is not what it is known to give"
        ));
    }
    if proved != independent {
        return Err(format!("{name}: the two programs differ"));
    }
    Ok(())
}

#[cfg(test)]
mod tests {
    use super::*;

    #[test]
    fn both_programs_write_each_program_to_the_same() {
        let told: Result<Vec<()>, String> = all().iter().map(agree).collect();
        assert_eq!(told.map(|programs| programs.len()), Ok(2));
    }

    /// The text that K1 was read from has no other spaces or priorities.
    #[test]
    fn k1_is_written_as_it_was_typed() {
        let k1 = all().swap_remove(0);
        let mut page = page();
        let answer = write(Side::Proved, &k1, &mut page);
        assert_eq!(page.get(..answer.bytes), Some(k1.source.as_slice()));
    }
}
