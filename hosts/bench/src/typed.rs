//! The texts that are read.

use crate::clock;
use crate::measured::Side;
use cordbasin::{LONGEST_PROGRAM, NAMES_WORDS};
use reference::text;

/// A text with the words that it is known to give.
pub struct Typed {
    pub name: &'static str,
    pub title: &'static str,
    pub text: String,
    /// How many readings are timed together.
    pub runs: usize,
    pub words: usize,
}

/// What a text is read into.
#[derive(Clone, PartialEq, Eq)]
pub struct Lent {
    program: [i32; LONGEST_PROGRAM],
    origins: [i32; LONGEST_PROGRAM],
    names: [i32; NAMES_WORDS],
}

impl Lent {
    pub fn fresh() -> Lent {
        Lent {
            program: [0; LONGEST_PROGRAM],
            origins: [0; LONGEST_PROGRAM],
            names: [0; NAMES_WORDS],
        }
    }
}

/// Every text, in the order of the table.
pub fn all() -> Vec<Typed> {
    vec![k1(), desk()]
}

fn k1() -> Typed {
    Typed {
        name: "typed-k1",
        title: "K1 from its text",
        text: "x := new {bytes: 64, samples: 16};\n\
               always required x.bytes = 4 * x.samples;\n\
               x.samples := 32"
            .to_string(),
        runs: 256,
        words: 33,
    }
}

/// Ten cores in one file: for each its record, its length in bytes, bounds
/// that are wished for, and a test.
pub fn desk() -> Typed {
    let cores: Vec<String> = (1..=10).map(core).collect();
    let text = format!(
        "file := new {{record_length: 512, header: 128, trailer: 8, cores: 0}};\n{}",
        cores.join(";\n")
    );
    Typed {
        name: "typed-desk",
        title: "ten cores as a desk types them",
        text,
        runs: 16,
        words: 1536,
    }
}

fn core(number: usize) -> String {
    let core = format!("core{number}");
    format!(
        "{core} := new {{samples: 16, bytes: 64, total: 200, depth: 0, file: nil}};\n\
         {core}.file := file;\n\
         always required {core}.bytes = 4 * {core}.samples /\\\n\
        \x20 required {core}.total = file.header + {core}.bytes + file.trailer;\n\
         always {core}.file.record_length >= {core}.total or {core}.depth = 0 /\\ weak {core}.depth <= 6000;\n\
         always {core}.file == file;\n\
         if {core}.samples > 0 and {core}.samples <= 1000000 then {{\n\
        \x20 {core}.depth := ({core}.depth + 25) * 2;\n\
        \x20 file.cores := file.cores + 1\n\
         }} else {{}}"
    )
}

/// One reading: outcome, place and words.
pub fn read(side: Side, typed: &Typed, lent: &mut Lent) -> (i32, usize, usize) {
    let bytes = typed.text.as_bytes();
    let (program, origins, names) = (&mut lent.program, &mut lent.origins, &mut lent.names);
    match side {
        Side::Proved => {
            let reading = cordbasin::read_words(bytes, program, origins, names);
            (reading.outcome.number(), reading.place, reading.words)
        }
        Side::Independent => {
            let answer = text::read_into(bytes, program, origins, names);
            (answer.outcome, answer.place, answer.words)
        }
    }
}

/// Nanoseconds of one reading.
pub fn time(side: Side, typed: &Typed) -> f64 {
    let mut lent = Lent::fresh();
    let start = clock::nanoseconds();
    for _ in 0..typed.runs {
        std::hint::black_box(read(side, typed, &mut lent));
    }
    (clock::nanoseconds() - start) as f64 / typed.runs as f64
}

/// Both programs give the text's known words, and the same ones.
pub fn agree(typed: &Typed) -> Result<(), String> {
    let [proved, independent] = Side::BOTH.map(|side| {
        let mut lent = Lent::fresh();
        (read(side, typed, &mut lent), lent)
    });
    let known = (0, typed.text.len(), typed.words);
    if proved.0 != known {
        return Err(format!(
            "{}: {:?} is not what it is known to give",
            typed.name, proved.0
        ));
    }
    if proved != independent {
        return Err(format!("{}: the two programs differ", typed.name));
    }
    Ok(())
}

#[cfg(test)]
mod tests {
    use super::*;

    #[test]
    fn both_programs_read_each_text_to_the_same() {
        let told: Result<Vec<()>, String> = all().iter().map(agree).collect();
        assert_eq!(told.map(|texts| texts.len()), Ok(2));
    }
}
