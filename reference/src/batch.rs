//! Sheets, lists, askings and their answers, one to a line.

use crate::asking::{self, ask};
use crate::entries::assign;
use crate::lister::number;
use crate::run::{run, Answer, Lent};
use crate::tables::{Tables, CONSTRAINT_WORDS, ENVIRONMENT_WORDS, HEAP_WORDS};
use std::io::{BufRead, Write};

/// All that a run takes.
#[derive(Clone, Debug, PartialEq, Eq)]
pub struct Sheet {
    pub program: Vec<i32>,
    pub environment: Vec<i32>,
    pub heap: Vec<i32>,
    pub constraints: Vec<i32>,
    pub proposals: Vec<i32>,
    pub budget: i32,
}

/// All that a list of entries takes: what a run does, and the entries.
#[derive(Clone, Debug, PartialEq, Eq)]
pub struct List {
    pub sheet: Sheet,
    pub entries: Vec<i32>,
}

/// All that an asking takes: what a run starts from, the statement's word and
/// both solvers' slices.
#[derive(Clone, Debug, PartialEq, Eq)]
pub struct Asking {
    pub program: Vec<i32>,
    pub environment: Vec<i32>,
    pub heap: Vec<i32>,
    pub constraints: Vec<i32>,
    pub word: i32,
    pub first: Vec<i32>,
    pub second: Vec<i32>,
}

/// All that a run or a list gives back, or an asking with its own answer.
#[derive(Clone, Debug, PartialEq, Eq)]
pub struct Finish<A = Answer> {
    pub answer: A,
    pub environment: Vec<i32>,
    pub heap: Vec<i32>,
    pub constraints: Vec<i32>,
}

/// Where the entries stand among the fields of a list's line.
const ENTRIES: usize = 4;

impl Sheet {
    /// A sheet that starts from fresh tables.
    pub fn fresh(program: Vec<i32>, proposals: Vec<i32>, budget: i32) -> Sheet {
        Sheet {
            program,
            environment: vec![0; ENVIRONMENT_WORDS],
            heap: vec![0; HEAP_WORDS],
            constraints: vec![0; CONSTRAINT_WORDS],
            proposals,
            budget,
        }
    }

    /// Gives the sheet other tables to start from.
    pub fn fill(&mut self, tables: &Tables) {
        tables.encode(&mut self.environment, &mut self.heap, &mut self.constraints);
    }

    /// Reads a line `program|environment|heap|constraints|proposals|budget`.
    pub fn parse(line: &[u8]) -> Option<Sheet> {
        Sheet::of(&split(line))
    }

    fn of(fields: &[&[u8]]) -> Option<Sheet> {
        let &[program, environment, heap, constraints, proposals, budget] = fields else {
            return None;
        };
        Some(Sheet {
            program: numbers(program)?,
            environment: table(environment, ENVIRONMENT_WORDS)?,
            heap: table(heap, HEAP_WORDS)?,
            constraints: table(constraints, CONSTRAINT_WORDS)?,
            proposals: numbers(proposals)?,
            budget: number(budget)?,
        })
    }

    /// The line that parses to this sheet; fresh tables are written `F`.
    pub fn line(&self) -> String {
        self.fields().join("|")
    }

    fn fields(&self) -> Vec<String> {
        vec![
            joined(&self.program),
            shown(&self.environment, ENVIRONMENT_WORDS),
            shown(&self.heap, HEAP_WORDS),
            shown(&self.constraints, CONSTRAINT_WORDS),
            joined(&self.proposals),
            self.budget.to_string(),
        ]
    }

    /// Runs the sheet on copies of its tables.
    pub fn answer(&self) -> Finish {
        self.on_copies(|(environment, heap, constraints)| {
            run(
                &self.program,
                environment,
                heap,
                constraints,
                &self.proposals,
                self.budget,
            )
        })
    }

    pub fn on_copies(&self, call: impl FnOnce(Lent) -> Answer) -> Finish {
        on_copies(self.tables(), call)
    }

    fn tables(&self) -> [&Vec<i32>; 3] {
        [&self.environment, &self.heap, &self.constraints]
    }
}

fn on_copies<A>(tables: [&Vec<i32>; 3], call: impl FnOnce(Lent) -> A) -> Finish<A> {
    let [mut environment, mut heap, mut constraints] = tables.map(Vec::clone);
    let answer = call((&mut environment, &mut heap, &mut constraints));
    Finish {
        answer,
        environment,
        heap,
        constraints,
    }
}

impl List {
    /// Reads a line
    /// `program|environment|heap|constraints|entries|proposals|budget`.
    pub fn parse(line: &[u8]) -> Option<List> {
        let mut fields = split(line);
        if fields.len() <= ENTRIES {
            return None;
        }
        let entries = numbers(fields.remove(ENTRIES))?;
        let sheet = Sheet::of(&fields)?;
        Some(List { sheet, entries })
    }

    /// The line that parses to this list.
    pub fn line(&self) -> String {
        let mut fields = self.sheet.fields();
        fields.insert(ENTRIES, joined(&self.entries));
        fields.join("|")
    }

    /// Carries out the list on copies of its tables.
    pub fn answer(&self) -> Finish {
        let sheet = &self.sheet;
        sheet.on_copies(|(environment, heap, constraints)| {
            assign(
                &sheet.program,
                environment,
                heap,
                constraints,
                &self.entries,
                &sheet.proposals,
                sheet.budget,
            )
        })
    }
}

impl Asking {
    /// Reads a line
    /// `ask|program|environment|heap|constraints|word|first|second`.
    pub fn parse(line: &[u8]) -> Option<Asking> {
        let fields = split(line);
        let &[b"ask", program, environment, heap, constraints, word, first, second] =
            fields.as_slice()
        else {
            return None;
        };
        Some(Asking {
            program: numbers(program)?,
            environment: table(environment, ENVIRONMENT_WORDS)?,
            heap: table(heap, HEAP_WORDS)?,
            constraints: table(constraints, CONSTRAINT_WORDS)?,
            word: number(word)?,
            first: numbers(first)?,
            second: numbers(second)?,
        })
    }

    /// The line that parses to this asking.
    pub fn line(&self) -> String {
        let fields = [
            "ask".to_string(),
            joined(&self.program),
            shown(&self.environment, ENVIRONMENT_WORDS),
            shown(&self.heap, HEAP_WORDS),
            shown(&self.constraints, CONSTRAINT_WORDS),
            self.word.to_string(),
            joined(&self.first),
            joined(&self.second),
        ];
        fields.join("|")
    }

    /// Asks on copies of the tables.
    pub fn answer(&self) -> Finish<asking::Answer> {
        on_copies(self.tables(), |(environment, heap, constraints)| {
            ask(
                &self.program,
                environment,
                heap,
                constraints,
                self.word,
                &self.first,
                &self.second,
            )
        })
    }

    fn tables(&self) -> [&Vec<i32>; 3] {
        [&self.environment, &self.heap, &self.constraints]
    }
}

impl Finish {
    /// The answer line; a table that did not change is written `=`. That of a
    /// list is told against the list's sheet.
    pub fn line(&self, sheet: &Sheet) -> String {
        let answer = &self.answer;
        let told = format!(
            "{} {} {} {} {}",
            answer.outcome, answer.place, answer.steps, answer.accepted, answer.unread
        );
        self.behind(told, sheet.tables())
    }
}

impl Finish<asking::Answer> {
    /// The answer line, told against the asking.
    pub fn line(&self, asking: &Asking) -> String {
        let answer = &self.answer;
        let told = format!(
            "{} {} {} {}",
            answer.outcome, answer.place, answer.solver, answer.words
        );
        self.behind(told, asking.tables())
    }
}

impl<A> Finish<A> {
    /// The tables behind what is told, against those from before.
    fn behind(&self, mut line: String, before: [&Vec<i32>; 3]) -> String {
        let after = [&self.environment, &self.heap, &self.constraints];
        for (old, new) in before.into_iter().zip(after) {
            line.push('|');
            match old == new {
                true => line.push('='),
                false => line.push_str(&joined(new)),
            }
        }
        line
    }
}

fn joined(words: &[i32]) -> String {
    let words: Vec<String> = words.iter().map(i32::to_string).collect();
    words.join(" ")
}

fn shown(table: &[i32], words: usize) -> String {
    match table.len() == words && table.iter().all(|word| *word == 0) {
        true => "F".to_string(),
        false => joined(table),
    }
}

fn split(line: &[u8]) -> Vec<&[u8]> {
    line.split(|byte| *byte == b'|').collect()
}

fn numbers(field: &[u8]) -> Option<Vec<i32>> {
    let pieces = field.split(|byte| *byte == b' ');
    let filled = pieces.filter(|piece| !piece.is_empty());
    filled.map(number).collect()
}

fn table(field: &[u8], words: usize) -> Option<Vec<i32>> {
    match field {
        b"F" => Some(vec![0; words]),
        _ => numbers(field),
    }
}

/// The answer line for one line of batch input, a sheet, a list or an asking,
/// or `unfit`.
pub fn answer_line(line: &[u8]) -> String {
    if let Some(sheet) = Sheet::parse(line) {
        return sheet.answer().line(&sheet);
    }
    if let Some(asking) = Asking::parse(line) {
        return asking.answer().line(&asking);
    }
    match List::parse(line) {
        Some(list) => list.answer().line(&list.sheet),
        None => "unfit".to_string(),
    }
}

/// Answers every line of the input in order.
pub fn answer_all(mut input: impl BufRead, mut output: impl Write) -> std::io::Result<()> {
    let mut line = Vec::new();
    loop {
        line.clear();
        if input.read_until(b'\n', &mut line)? == 0 {
            return output.flush();
        }
        let asked = line.strip_suffix(b"\n").unwrap_or(&line);
        writeln!(output, "{}", answer_line(asked))?;
    }
}
