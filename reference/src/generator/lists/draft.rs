//! A list under way: each entry is carried out as soon as it is written.

use super::asked;
use crate::batch::List;
use crate::generator::draft::Draft;
use crate::generator::numbers::Numbers;

pub struct ListDraft {
    pub draft: Draft,
    program: Vec<i32>,
    pub entries: Vec<i32>,
}

/// The statement that an entry stands for.
fn assignment(entry: &[i32]) -> Vec<i32> {
    [&[1][..], entry].concat()
}

impl ListDraft {
    /// A list over the program of a draft and the tables that it left.
    pub fn new(mut draft: Draft) -> ListDraft {
        let program = draft.program();
        draft.start_anew();
        ListDraft {
            draft,
            program,
            entries: Vec::new(),
        }
    }

    pub fn numbers(&mut self) -> &mut Numbers {
        &mut self.draft.numbers
    }

    /// Carries out an entry; a refused one is taken back.
    pub fn attempt(&mut self, entry: &[i32]) -> bool {
        let accepted = self.draft.attempt(&assignment(entry)).is_ok();
        if accepted {
            self.entries.extend(entry);
        }
        accepted
    }

    /// Carries out an entry; a refused one ends the list.
    pub fn attempt_last(&mut self, entry: &[i32]) {
        if self.draft.refused.is_none() {
            self.entries.extend(entry);
            self.draft.attempt_last(&assignment(entry));
        }
    }

    /// Adds entries that are accepted, as many as can be had.
    pub fn grow(&mut self, count: usize) {
        for _ in 0..count {
            for _ in 0..4 {
                let entry = asked::entry(&mut self.draft.composer());
                if self.attempt(&entry) {
                    break;
                }
            }
        }
    }

    /// Adds words behind a refused entry, which are not looked at.
    pub fn trail(&mut self) {
        for _ in 0..self.numbers().below(4) {
            let words = match self.numbers().below(3) {
                0 => {
                    let numbers = self.numbers();
                    (0..=numbers.below(4)).map(|_| numbers.word()).collect()
                }
                _ => asked::entry(&mut self.draft.composer()),
            };
            self.entries.extend(words);
        }
    }

    pub fn list(mut self) -> List {
        let mut sheet = self.draft.sheet();
        sheet.program = self.program;
        List {
            sheet,
            entries: self.entries,
        }
    }
}
