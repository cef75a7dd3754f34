//! The pieces of generated programs, over the tables that their runs leave.

use super::questions::ask;
use crate::proved::{Call, Pieces};
use reference::generator;
use reference::program::{Action, Block, Program, Statement};

/// Of a program with more pieces, these many are asked about.
const MOST_PIECES: usize = 200;

pub fn question(seed: u64, index: u64) -> Pieces {
    let sheet = generator::sheet(seed, index);
    let finish = sheet.answer();
    let mut question = Pieces {
        words: sheet.program,
        environment: finish.environment,
        heap: finish.heap,
        constraints: finish.constraints,
        pieces: Vec::new(),
    };
    match Program::decode(&question.words) {
        Ok(program) => gather(&mut question, &program.block),
        Err(place) => ask(&mut question, Call::Expression, place),
    }
    question.pieces.truncate(MOST_PIECES);
    question
}

fn gather(question: &mut Pieces, block: &Block) {
    for statement in &block.statements {
        gather_statement(question, statement);
    }
}

fn gather_statement(question: &mut Pieces, statement: &Statement) {
    match &statement.action {
        Action::Skip => {}
        Action::Assign(target, value) => {
            ask(question, Call::Path, target.position);
            ask(question, Call::Expression, value.position);
        }
        Action::New(_, fields) => {
            for (_, value) in fields {
                ask(question, Call::Expression, value.position);
            }
        }
        Action::Always(constraint) => ask(question, Call::Constraint, constraint.position),
        Action::Once(constraint) => ask(question, Call::Constraint, constraint.position),
        Action::AlwaysIdentity(identity) => ask(question, Call::Path, identity.right.position),
        Action::OnceIdentity(identity) => ask(question, Call::Path, identity.right.position),
        Action::If(test, yes, no) => {
            ask(question, Call::Expression, test.position);
            gather(question, yes);
            gather(question, no);
        }
        Action::While(test, body) => {
            ask(question, Call::Expression, test.position);
            gather(question, body);
        }
    }
}
