//! Programs at random by the grammar, which need not run: every form at every
//! depth, with a number one past its limit now and then.

use reference::generator::numbers::Numbers;

/// The words of a program and how many more of them there may be.
struct Growth<'a> {
    numbers: &'a mut Numbers,
    words: Vec<i32>,
    room: usize,
    /// One number in so many is one past its limit.
    slips: usize,
}

pub fn program(numbers: &mut Numbers) -> Vec<i32> {
    let room = numbers.below(400);
    let slips = [40, 400, usize::MAX].get(numbers.below(3)).copied();
    let mut growth = Growth {
        numbers,
        words: Vec::new(),
        room,
        slips: slips.unwrap_or(400),
    };
    growth.block(1);
    growth.words
}

impl Growth<'_> {
    fn slip(&mut self) -> bool {
        self.numbers.below(self.slips) == 1
    }

    /// There is room for pieces that hold pieces.
    fn roomy(&self) -> bool {
        self.words.len() < self.room
    }

    fn push(&mut self, word: i32) {
        self.words.push(word);
    }

    /// A number from low to high, and the same number for what follows.
    fn number(&mut self, low: i32, high: i32) -> i32 {
        let number = match self.numbers.below(6) {
            0 => high,
            _ => self.numbers.between(low, high),
        };
        let slip = self.slip();
        let past = self.numbers.one_of(&[low - 1, high + 1]);
        self.push(if slip { past } else { number });
        number
    }

    fn block(&mut self, depth: usize) {
        let most = if self.roomy() { 5 } else { 1 };
        let count = self.numbers.between(0, most);
        let slip = self.slip();
        self.push(if slip { 256 } else { count });
        for _ in 0..count {
            self.statement(depth);
        }
    }

    fn statement(&mut self, depth: usize) {
        let holds = self.roomy() && (depth < 8 || self.slip());
        let verb = match holds && self.numbers.chance(60) {
            true => self.numbers.between(7, 8),
            false => self.numbers.between(0, 6),
        };
        let slip = self.slip();
        self.push(if slip { 9 } else { verb });
        match verb {
            1 => {
                self.path();
                self.expression(1, false);
            }
            2 => self.fields(),
            3 | 4 => self.constraint(),
            5 | 6 => self.paths(),
            7 => {
                self.expression(1, false);
                self.block(depth + 1);
                self.block(depth + 1);
            }
            8 => {
                self.expression(1, false);
                self.block(depth + 1);
            }
            _ => {}
        }
    }

    fn path(&mut self) {
        self.number(0, 63);
        let count = self.number(0, 7);
        for _ in 0..count {
            self.number(0, 31);
        }
    }

    fn paths(&mut self) {
        self.path();
        self.path();
    }

    fn fields(&mut self) {
        self.number(0, 63);
        let count = self.number(0, 8);
        let first = self.numbers.between(0, 31);
        for field in 0..count {
            let again = self.slip();
            self.push(if again {
                first
            } else {
                (first + 5 * field) % 32
            });
            self.expression(1, false);
        }
    }

    fn constraint(&mut self) {
        let most = if self.roomy() { 16 } else { 2 };
        let count = self.numbers.between(1, most);
        let slip = self.slip();
        let past = self.numbers.one_of(&[0, 17]);
        self.push(if slip { past } else { count });
        for _ in 0..count {
            self.number(1, 3);
            self.expression(1, true);
        }
    }

    /// Often one operand is a leaf, so that the other may go deep.
    fn expression(&mut self, level: usize, in_c: bool) {
        let deeper = level < 16 || self.slip();
        let holds = self.roomy() && deeper && self.numbers.chance(55);
        let form = match (holds, in_c && !self.slip()) {
            (true, _) => 25,
            (false, true) => self.numbers.between(20, 24),
            (false, false) => self.numbers.one_of(&[20, 21, 22, 23, 24, 26]),
        };
        let slip = self.slip();
        let past = self.numbers.one_of(&[19, 27]);
        self.push(if slip { past } else { form });
        match form {
            23 => {
                let literal = self.numbers.literal();
                self.push(literal);
            }
            24 => self.path(),
            25 => {
                self.number(1, 11);
                self.expression(level + 1, in_c);
                self.expression(level + 1, in_c);
            }
            26 => self.paths(),
            _ => {}
        }
    }
}
