//! The proved archives in a program of their own, run by the kit's emulator.

use super::{Answer, Four, Pieces, Question, Told};
use std::io::{self, BufReader, Read, Write};
use std::process::{Child, ChildStdin, ChildStdout, Command, Stdio};

pub struct Proved {
    bridge: Child,
    questions: Option<ChildStdin>,
    answers: BufReader<ChildStdout>,
}

impl Proved {
    pub fn start() -> io::Result<Proved> {
        let mut bridge = Command::new(env!("EMULATOR"))
            .arg(env!("BRIDGE"))
            .stdin(Stdio::piped())
            .stdout(Stdio::piped())
            .spawn()?;
        let answers = bridge.stdout.take().ok_or(io::ErrorKind::BrokenPipe)?;
        Ok(Proved {
            questions: bridge.stdin.take(),
            bridge,
            answers: BufReader::new(answers),
        })
    }

    pub fn ask_reader(&mut self, question: &Question) -> io::Result<Answer> {
        self.send(&bytes(question))?;
        let program = self.number()?;
        let statements = self.numbers(question.places.len())?;
        let tables = self.numbers(question.tables.len())?;
        Ok(Answer {
            program,
            statements,
            tables,
        })
    }

    pub fn ask_pieces(&mut self, question: &Pieces) -> io::Result<Vec<Four>> {
        self.send(&piece_bytes(question))?;
        (0..question.pieces.len()).map(|_| self.row()).collect()
    }

    /// What `cordbasin_read` answers and returns; program, origins and names
    /// are lent.
    pub fn read(&mut self, text: &[u8], lent: &mut [Vec<i32>; 3]) -> io::Result<Option<Told>> {
        self.send(&text_bytes(text, lent))?;
        self.told(lent)
    }

    /// What `cordbasin_run` answers and returns; environment, heap and
    /// constraints are lent.
    pub fn run(
        &mut self,
        program: &[i32],
        tables: &mut [Vec<i32>; 3],
        proposals: &[i32],
        budget: i32,
    ) -> io::Result<Option<Told>> {
        self.call(3, program, tables, &[proposals], budget)
    }

    /// What `cordbasin_assign` answers and returns, in the same way.
    pub fn assign(
        &mut self,
        program: &[i32],
        tables: &mut [Vec<i32>; 3],
        entries: &[i32],
        proposals: &[i32],
        budget: i32,
    ) -> io::Result<Option<Told>> {
        self.call(4, program, tables, &[entries, proposals], budget)
    }

    /// What `cordbasin_ask` answers and returns, in the same way.
    pub fn ask(
        &mut self,
        program: &[i32],
        tables: &mut [Vec<i32>; 3],
        word: i32,
        first: &[i32],
        second: &[i32],
    ) -> io::Result<Option<Told<3>>> {
        self.call(6, program, tables, &[first, second], word)
    }

    /// What `cordbasin_write` answers and returns; the text's bytes are lent.
    pub fn write(
        &mut self,
        program: &[i32],
        source: &[u8],
        names: &[i32],
        text: &mut [u8],
    ) -> io::Result<Option<Told>> {
        let counts = [5, program.len(), source.len(), names.len(), text.len()];
        let rows = [&words([program]), source, &words([names]), &*text];
        self.send(&[numbers(counts), rows.concat()].concat())?;
        let (four, number) = (self.row()?, self.number()?);
        self.answers.read_exact(text)?;
        Ok(Some((four, number)))
    }

    /// The single word is a budget, or that of a statement.
    fn call<const WORDS: usize>(
        &mut self,
        question: usize,
        program: &[i32],
        tables: &mut [Vec<i32>; 3],
        rest: &[&[i32]],
        single: i32,
    ) -> io::Result<Option<Told<WORDS>>> {
        let [environment, heap, constraints] = &*tables;
        let rows = [&[program, environment, heap, constraints], rest].concat();
        self.send(&call_bytes(question, &rows, single))?;
        self.told(tables)
    }

    fn told<const WORDS: usize>(
        &mut self,
        lent: &mut [Vec<i32>; 3],
    ) -> io::Result<Option<Told<WORDS>>> {
        let answer = self.row()?;
        let number = self.number()?;
        for word in lent.iter_mut().flatten() {
            *word = self.word()?;
        }
        Ok(Some((answer, number)))
    }

    fn send(&mut self, bytes: &[u8]) -> io::Result<()> {
        let questions = self.questions.as_mut();
        let questions = questions.ok_or(io::ErrorKind::BrokenPipe)?;
        questions.write_all(bytes)?;
        questions.flush()
    }

    fn row<const WORDS: usize>(&mut self) -> io::Result<[i32; WORDS]> {
        let mut row = [0; WORDS];
        for word in &mut row {
            *word = self.word()?;
        }
        Ok(row)
    }

    fn word(&mut self) -> io::Result<i32> {
        let mut bytes = [0; 4];
        self.answers.read_exact(&mut bytes)?;
        Ok(i32::from_le_bytes(bytes))
    }

    fn numbers(&mut self, count: usize) -> io::Result<Vec<usize>> {
        (0..count).map(|_| self.number()).collect()
    }

    fn number(&mut self) -> io::Result<usize> {
        let mut bytes = [0; 8];
        self.answers.read_exact(&mut bytes)?;
        Ok(usize::from_le_bytes(bytes))
    }
}

impl Drop for Proved {
    /// The bridge ends when its input does.
    fn drop(&mut self) {
        self.questions = None;
        let _ = self.bridge.wait();
    }
}

fn bytes(question: &Question) -> Vec<u8> {
    let (program, tables) = (&question.program, &question.tables);
    let mut counts = vec![0, program.len(), question.places.len(), tables.len()];
    counts.extend(&question.places);
    [numbers(counts), words([program]), words(tables)].concat()
}

fn piece_bytes(question: &Pieces) -> Vec<u8> {
    let lists = [
        &question.words,
        &question.environment,
        &question.heap,
        &question.constraints,
    ];
    let mut counts = vec![1];
    counts.extend(lists.map(Vec::len));
    counts.push(question.pieces.len());
    for piece in &question.pieces {
        counts.extend([piece.call as usize, piece.start]);
    }
    [numbers(counts), words(lists)].concat()
}

fn text_bytes(text: &[u8], lent: &[Vec<i32>; 3]) -> Vec<u8> {
    let counts = [2, text.len()].into_iter().chain(lent.iter().map(Vec::len));
    [numbers(counts), text.to_vec(), words(lent)].concat()
}

fn call_bytes(question: usize, rows: &[&[i32]], single: i32) -> Vec<u8> {
    let counts = rows.iter().map(|row| row.len());
    let counts = [question].into_iter().chain(counts);
    [numbers(counts), words([[single]]), words(rows)].concat()
}

fn numbers(numbers: impl IntoIterator<Item = usize>) -> Vec<u8> {
    numbers.into_iter().flat_map(usize::to_le_bytes).collect()
}

fn words(lists: impl IntoIterator<Item = impl AsRef<[i32]>>) -> Vec<u8> {
    let lists = lists.into_iter();
    lists
        .flat_map(|list| {
            let words = list.as_ref().iter();
            words
                .flat_map(|word| word.to_le_bytes())
                .collect::<Vec<u8>>()
        })
        .collect()
}
