//! The proved archive linked into this program.

use super::{Answer, Call, Four, Piece, Pieces, Question, Told};
use std::io;

extern "C" {
    fn compared_program(program: *const i32, words: usize) -> usize;
    fn compared_statement(program: *const i32, words: usize, at: usize) -> usize;
    fn compared_constraints(
        program: *const i32,
        words: usize,
        constraints: *const i32,
        count: usize,
    ) -> usize;
    fn compared_kept(
        program: *const i32,
        words: usize,
        environment: *const i32,
        e: usize,
        heap: *const i32,
        h: usize,
        constraints: *const i32,
        c: usize,
        answer: *mut i32,
        a: usize,
    );
    fn compared_path(
        environment: *const i32,
        e: usize,
        heap: *const i32,
        h: usize,
        p: *const i32,
        n: usize,
        answer: *mut i32,
        a: usize,
    );
    fn compared_expression(
        environment: *const i32,
        e: usize,
        heap: *const i32,
        h: usize,
        p: *const i32,
        n: usize,
        answer: *mut i32,
        a: usize,
    );
    fn compared_test(
        environment: *const i32,
        e: usize,
        heap: *const i32,
        h: usize,
        p: *const i32,
        n: usize,
        answer: *mut i32,
        a: usize,
    );
    fn compared_parts(
        environment: *const i32,
        e: usize,
        heap: *const i32,
        h: usize,
        p: *const i32,
        n: usize,
        answer: *mut i32,
        a: usize,
    );
}

pub struct Proved;

impl Proved {
    pub fn start() -> io::Result<Proved> {
        Ok(Proved)
    }

    pub fn ask_reader(&mut self, question: &Question) -> io::Result<Answer> {
        let program = &question.program;
        let places = question.places.iter();
        let tables = question.tables.iter();
        Ok(Answer {
            program: whole(program),
            statements: places.map(|place| statement(program, *place)).collect(),
            tables: tables.map(|table| constraints(program, table)).collect(),
        })
    }

    pub fn ask_pieces(&mut self, question: &Pieces) -> io::Result<Vec<Four>> {
        let pieces = question.pieces.iter();
        Ok(pieces.map(|piece| answer(question, *piece)).collect())
    }

    /// Nothing here: the calls of hosts/rust are x86-64 code already.
    pub fn read(&mut self, _text: &[u8], _lent: &mut [Vec<i32>; 3]) -> io::Result<Option<Told>> {
        Ok(None)
    }

    /// As `read`.
    pub fn run(
        &mut self,
        _program: &[i32],
        _tables: &mut [Vec<i32>; 3],
        _proposals: &[i32],
        _budget: i32,
    ) -> io::Result<Option<Told>> {
        Ok(None)
    }

    /// As `read`.
    pub fn assign(
        &mut self,
        _program: &[i32],
        _tables: &mut [Vec<i32>; 3],
        _entries: &[i32],
        _proposals: &[i32],
        _budget: i32,
    ) -> io::Result<Option<Told>> {
        Ok(None)
    }

    /// As `read`.
    pub fn ask(
        &mut self,
        _program: &[i32],
        _tables: &mut [Vec<i32>; 3],
        _word: i32,
        _first: &[i32],
        _second: &[i32],
    ) -> io::Result<Option<Told<3>>> {
        Ok(None)
    }

    /// As `read`.
    pub fn write(
        &mut self,
        _program: &[i32],
        _source: &[u8],
        _names: &[i32],
        _text: &mut [u8],
    ) -> io::Result<Option<Told>> {
        Ok(None)
    }
}

// In each call below the pointer and the count are those of one slice, which
// is only read, or is lent for writing, and which lives until the call returns.

fn whole(program: &[i32]) -> usize {
    unsafe { compared_program(program.as_ptr(), program.len()) }
}

fn statement(program: &[i32], at: usize) -> usize {
    unsafe { compared_statement(program.as_ptr(), program.len(), at) }
}

fn constraints(program: &[i32], table: &[i32]) -> usize {
    unsafe { compared_constraints(program.as_ptr(), program.len(), table.as_ptr(), table.len()) }
}

fn answer(question: &Pieces, piece: Piece) -> Four {
    let ask = match piece.call {
        Call::Path => compared_path,
        Call::Expression => compared_expression,
        Call::Test => compared_test,
        Call::Constraint => compared_parts,
        Call::Kept => return kept(question),
    };
    let (environment, heap) = (&question.environment, &question.heap);
    let part = question.words.get(piece.start..).unwrap_or(&[]);
    let mut four = [0; 4];
    unsafe {
        ask(
            environment.as_ptr(),
            environment.len(),
            heap.as_ptr(),
            heap.len(),
            part.as_ptr(),
            part.len(),
            four.as_mut_ptr(),
            four.len(),
        );
    }
    four
}

fn kept(question: &Pieces) -> Four {
    let (environment, heap) = (&question.environment, &question.heap);
    let mut four = [0; 4];
    unsafe {
        compared_kept(
            question.words.as_ptr(),
            question.words.len(),
            environment.as_ptr(),
            environment.len(),
            heap.as_ptr(),
            heap.len(),
            question.constraints.as_ptr(),
            question.constraints.len(),
            four.as_mut_ptr(),
            four.len(),
        );
    }
    four
}
