//! What is special about a generated case of the writer, in a few words each.
#![allow(dead_code)]

use reference::generator::writings::WriteCase;
use reference::program::{Action, Block, Expression, Program, Statement, Term};
use reference::text::{read, KEYWORDS};
use reference::writer::{appearances, write, Fault, Sort, Writing};

/// Everything that a case can have.
pub const TRAITS: [&str; 65] = [
    "1 over an unfit program",
    "2 past 4,096 words",
    "2 with no words",
    "room exact",
    "room one too long",
    "room longer",
    "no room for nothing",
    "one byte short",
    "no room",
    "just 65,536 bytes",
    "room of 65,536 for 65,537",
    "room of 65,537 for 65,537",
    "room of 65,535 for 65,536",
    "millions of bytes",
    "negative place",
    "negative length",
    "past the source",
    "long name",
    "keyword",
    "first byte",
    "? inside",
    "byte inside",
    "unused at fault",
    "variable",
    "label",
    "twice given",
    "twice, both unused",
    "twice, one unused",
    "default of an earlier",
    "default given earlier",
    "after a gap",
    "too early",
    "no names",
    "all given",
    "some given",
    "unused given",
    "as read",
    "own default",
    "default of an unused",
    "the longest name",
    "64 variables",
    "32 labels",
    "blocks on level 8",
    "operands on level 16",
    "16 parts",
    "7 labels",
    "255 statements",
    "negative literal",
    "least literal",
    "deep on the left",
    "deep on the right",
    "empty then and else",
    "empty then",
    "empty else",
    "empty body",
    "innermost indent",
    "no field",
    "1 field",
    "2 fields",
    "3 fields",
    "4 fields",
    "5 fields",
    "6 fields",
    "7 fields",
    "8 fields",
];

/// The numbers that a program uses, labels from 64 on.
fn used(program: &Program) -> [bool; 96] {
    let mut used = [false; 96];
    for name in appearances(program) {
        let first = if name.sort == Sort::Variable { 0 } else { 64 };
        used[first + name.number] = true;
    }
    used
}

fn pair(case: &WriteCase, number: usize) -> (i32, i32) {
    (case.names[2 * number], case.names[2 * number + 1])
}

/// The bytes of a given name that is a part of the source.
fn given(case: &WriteCase, number: usize) -> Option<&[u8]> {
    let (place, length) = pair(case, number);
    let (place, length) = (usize::try_from(place).ok()?, usize::try_from(length).ok()?);
    let name = case.source.get(place..place + length)?;
    (length > 0).then_some(name)
}

pub fn traits_of(case: &WriteCase) -> Vec<&'static str> {
    let writing = write(&case.program, &case.source, &case.names, case.room);
    let mut traits = rooms(case, &writing);
    if let (Some(fault), Ok(tree)) = (writing.fault, Program::decode(&case.program)) {
        traits.extend(faults(case, &tree, writing.place, fault));
    }
    if let (0, Ok(tree)) = (writing.outcome, Program::decode(&case.program)) {
        traits.extend(accepted_names(case, &tree));
        let mut forms = Forms::default();
        forms.block(&tree.block, 1);
        traits.extend(forms.traits());
        traits.extend(braces(&writing.text));
    }
    traits
}

fn chosen(all: &[(&'static str, bool)]) -> Vec<&'static str> {
    let those = all.iter().filter(|(_, is)| *is);
    those.map(|(name, _)| *name).collect()
}

fn rooms(case: &WriteCase, writing: &Writing) -> Vec<&'static str> {
    let (place, bytes) = (writing.place, writing.text.len());
    let (written, short) = (writing.outcome == 0, writing.outcome == 25);
    let long_program = case.program.len() > 4096;
    let exact = written && case.room == bytes;
    chosen(&[
        (
            "1 over an unfit program",
            writing.outcome == 1 && Program::decode(&case.program).is_err(),
        ),
        (
            "2 past 4,096 words",
            writing.outcome == 2 && long_program && place == 4096,
        ),
        (
            "2 with no words",
            writing.outcome == 2 && case.program.is_empty(),
        ),
        ("room exact", exact && bytes > 0),
        ("room one too long", written && case.room == bytes + 1),
        ("room longer", written && case.room > bytes + 100),
        ("no room for nothing", exact && bytes == 0),
        ("one byte short", short && case.room + 1 == place),
        ("no room", short && case.room == 0),
        ("just 65,536 bytes", written && bytes == 65_536),
        (
            "room of 65,536 for 65,537",
            short && place == 65_537 && case.room == 65_536,
        ),
        (
            "room of 65,537 for 65,537",
            short && place == 65_537 && case.room >= 65_537,
        ),
        (
            "room of 65,535 for 65,536",
            short && place == 65_536 && case.room == 65_535,
        ),
        ("millions of bytes", short && place > 1_000_000),
    ])
}

fn faults(case: &WriteCase, tree: &Program, number: usize, fault: Fault) -> Vec<&'static str> {
    let used = used(tree);
    let first = if number < 64 { 0 } else { 64 };
    let before = number > first && used[number - 1];
    let mut traits = match fault {
        Fault::Outside | Fault::Long => misplaced(case, number, fault),
        Fault::NoName => misspelled(given(case, number).unwrap_or(&[])),
        Fault::Twice => twice(case, number, &used),
        Fault::Order => chosen(&[("after a gap", !before), ("too early", before)]),
    };
    traits.extend(chosen(&[
        ("unused at fault", fault != Fault::Twice && !used[number]),
        ("variable", number < 64),
        ("label", number >= 64),
    ]));
    traits
}

fn misplaced(case: &WriteCase, number: usize, fault: Fault) -> Vec<&'static str> {
    let (place, length) = pair(case, number);
    let is_inside = fault == Fault::Long;
    chosen(&[
        ("long name", is_inside),
        ("negative place", place < 0),
        ("negative length", length < 0),
        ("past the source", !is_inside && place >= 0 && length > 0),
    ])
}

fn misspelled(name: &[u8]) -> Vec<&'static str> {
    let keyword = KEYWORDS.iter().any(|word| word.as_bytes() == name);
    let first_byte = !name[0].is_ascii_lowercase();
    let question_mark = name[..name.len() - 1].contains(&b'?');
    chosen(&[
        ("keyword", keyword),
        ("first byte", first_byte),
        ("? inside", !first_byte && question_mark),
        ("byte inside", !keyword && !first_byte && !question_mark),
    ])
}

fn twice(case: &WriteCase, number: usize, used: &[bool; 96]) -> Vec<&'static str> {
    let Some(name) = given(case, number) else {
        return vec!["default given earlier"];
    };
    let first = if number < 64 { 0 } else { 64 };
    let earlier = (first..number).find(|other| given(case, *other) == Some(name));
    let Some(other) = earlier else {
        return vec!["default of an earlier"];
    };
    chosen(&[
        ("twice given", true),
        ("twice, both unused", !used[number] && !used[other]),
        ("twice, one unused", used[number] != used[other]),
    ])
}

fn accepted_names(case: &WriteCase, tree: &Program) -> Vec<&'static str> {
    let used = used(tree);
    let is_given = |number: &usize| given(case, *number).is_some();
    let count = (0..96).filter(|n| used[*n]).count();
    let used_given = (0..96).filter(|n| used[*n] && is_given(n)).count();
    let unused_given = (0..96).filter(|n| !used[*n] && is_given(n)).count();
    let defaults: Vec<String> = (0..64)
        .map(|variable| format!("v{variable}"))
        .chain((0..32).map(|label| format!("f{label}")))
        .collect();
    let numbers_of = |name: &[u8]| defaults.iter().position(|own| own.as_bytes() == name);
    let defaults_given = || (0..96).filter_map(|n| Some((n, numbers_of(given(case, n)?)?)));
    let as_read = case.names.iter().any(|word| *word != 0) && {
        let reading = read(&case.source);
        reading.words == case.program && reading.names == case.names
    };
    let lengths = (0..96).filter_map(|n| given(case, n).map(<[u8]>::len));
    chosen(&[
        ("no names", count > 0 && used_given + unused_given == 0),
        ("all given", count > 0 && used_given == count),
        ("some given", used_given > 0 && used_given < count),
        ("unused given", unused_given > 0),
        ("as read", as_read),
        ("own default", defaults_given().any(|(n, of)| n == of)),
        (
            "default of an unused",
            defaults_given().any(|(n, of)| n != of && !used[of]),
        ),
        ("the longest name", lengths.max() == Some(65_536)),
        ("64 variables", used[63]),
        ("32 labels", used[95]),
    ])
}

/// What stands in a program, at its greatest.
#[derive(Default)]
struct Forms {
    blocks: usize,
    levels: usize,
    parts: usize,
    fields: [bool; 9],
    labels: usize,
    statements: usize,
    negative: bool,
    least: bool,
    left: usize,
    right: usize,
}

impl Forms {
    fn traits(&self) -> Vec<&'static str> {
        let mut traits = chosen(&[
            ("blocks on level 8", self.blocks == 8),
            ("operands on level 16", self.levels == 16),
            ("16 parts", self.parts == 16),
            ("7 labels", self.labels == 7),
            ("255 statements", self.statements == 255),
            ("negative literal", self.negative),
            ("least literal", self.least),
            ("deep on the left", self.left > 6),
            ("deep on the right", self.right > 6),
        ]);
        let names = [
            "no field", "1 field", "2 fields", "3 fields", "4 fields", "5 fields", "6 fields",
            "7 fields", "8 fields",
        ];
        traits.extend(names.iter().zip(self.fields).filter(|f| f.1).map(|f| *f.0));
        traits
    }

    fn block(&mut self, block: &Block, depth: usize) {
        self.blocks = self.blocks.max(depth);
        self.statements = self.statements.max(block.statements.len());
        for statement in &block.statements {
            self.statement(statement, depth);
        }
    }

    fn statement(&mut self, statement: &Statement, depth: usize) {
        match &statement.action {
            Action::Assign(target, value) => {
                self.labels = self.labels.max(target.labels.len());
                self.expression(value, (1, 0, 0));
            }
            Action::New(_, fields) => {
                self.fields[fields.len()] = true;
                for (_, value) in fields {
                    self.expression(value, (1, 0, 0));
                }
            }
            Action::Always(constraint) => self.parts = self.parts.max(constraint.parts.len()),
            Action::Once(constraint) => self.parts = self.parts.max(constraint.parts.len()),
            Action::If(test, yes, no) => {
                self.expression(test, (1, 0, 0));
                self.block(yes, depth + 1);
                self.block(no, depth + 1);
            }
            Action::While(test, body) => {
                self.expression(test, (1, 0, 0));
                self.block(body, depth + 1);
            }
            _ => {}
        }
    }

    /// Its level, and how many operators it is on the left and right of.
    fn expression(&mut self, expression: &Expression, at: (usize, usize, usize)) {
        let (level, left, right) = at;
        self.levels = self.levels.max(level);
        self.left = self.left.max(left);
        self.right = self.right.max(right);
        match &expression.term {
            Term::Integer(number) => {
                self.negative |= *number < 0;
                self.least |= *number == i32::MIN;
            }
            Term::Read(path) => self.labels = self.labels.max(path.labels.len()),
            Term::Apply(_, one, other) => {
                self.expression(one, (level + 1, left + 1, right));
                self.expression(other, (level + 1, left, right + 1));
            }
            _ => {}
        }
    }
}

fn braces(text: &[u8]) -> Vec<&'static str> {
    let text = String::from_utf8_lossy(text);
    let has = |part: &str| text.contains(part);
    chosen(&[
        ("empty then and else", has("then {} else {}")),
        ("empty then", has("then {} else {\n")),
        ("empty else", has("} else {}") && has("then {\n")),
        ("empty body", has("do {}")),
        ("innermost indent", has(&format!("\n{}", " ".repeat(14)))),
    ])
}
