//! Expressions, constraints and paths at random, for given tables. Most get
//! the kinds they want and lead to cells that are there.

use reference::generator::numbers::Numbers;
use reference::tables::{Kind, Tables, Value, LABELS, VARIABLES};

/// The words of a piece.
pub struct Growth<'a> {
    pub numbers: &'a mut Numbers,
    pub tables: &'a Tables,
    pub words: Vec<i32>,
    /// How many words there may be before only leaves are added.
    room: usize,
    /// One piece in so many is of another kind than wanted, or leads nowhere.
    slips: usize,
    deepest: usize,
    in_c: bool,
}

impl Growth<'_> {
    pub fn new<'a>(numbers: &'a mut Numbers, tables: &'a Tables) -> Growth<'a> {
        let room = [4, 20, 60, 150].get(numbers.below(4)).copied();
        let slips = [30, 200, usize::MAX].get(numbers.below(3)).copied();
        let deepest = if numbers.below(60) == 0 { 17 } else { 16 };
        numbers.extremes = [0, 3, 30, 80].get(numbers.below(4)).copied().unwrap_or(3);
        Growth {
            numbers,
            tables,
            words: Vec::new(),
            room: room.unwrap_or(20),
            slips: slips.unwrap_or(200),
            deepest,
            in_c: false,
        }
    }

    fn slip(&mut self) -> bool {
        self.numbers.below(self.slips) == 1
    }

    fn kind(&mut self) -> Kind {
        match self.numbers.below(10) {
            0 => Kind::Nil,
            1 => Kind::Reference,
            2..=5 => Kind::Boolean,
            _ => Kind::Integer,
        }
    }

    pub fn any_expression(&mut self) {
        let kind = self.kind();
        self.expression(kind, 1);
    }

    pub fn constraint(&mut self) {
        self.in_c = true;
        let most = self.numbers.one_of(&[1, 3, 16]);
        let count = self.numbers.between(1, most);
        self.words.push(count);
        for _ in 0..count {
            let priority = self.numbers.between(1, 3);
            self.words.push(priority);
            self.expression(Kind::Boolean, 1);
        }
    }

    /// Often one operand is a leaf, so that the other may go deep.
    fn expression(&mut self, wanted: Kind, level: usize) {
        let kind = if self.slip() { self.kind() } else { wanted };
        let roomy = self.words.len() < self.room && level < self.deepest;
        let leaves = if level == 1 { 5 } else { 25 };
        if !roomy || self.numbers.chance(leaves) {
            return self.leaf(kind);
        }
        let (operator, left, right) = match kind {
            Kind::Integer => (self.numbers.between(1, 3), kind, kind),
            Kind::Boolean => self.comparison(),
            Kind::Nil | Kind::Reference => return self.leaf(kind),
        };
        self.words.extend([25, operator]);
        if self.numbers.chance(40) {
            self.leaf(left);
        } else {
            self.expression(left, level + 1);
        }
        self.expression(right, level + 1);
    }

    fn comparison(&mut self) -> (i32, Kind, Kind) {
        match self.numbers.between(4, 11) {
            operator @ 6..=7 => {
                let left = self.kind();
                let right = self.kind();
                let same = self.numbers.chance(90);
                (operator, left, if same { left } else { right })
            }
            operator @ 10..=11 => (operator, Kind::Boolean, Kind::Boolean),
            operator => (operator, Kind::Integer, Kind::Integer),
        }
    }

    fn leaf(&mut self, kind: Kind) {
        if !self.in_c && kind == Kind::Boolean && self.numbers.chance(15) {
            self.words.push(26);
            self.any_path();
            return self.any_path();
        }
        if kind == Kind::Reference || self.numbers.chance(60) {
            if let Some(path) = self.path_to(kind) {
                self.words.push(24);
                return self.words.extend(path);
            }
        }
        match kind {
            Kind::Nil | Kind::Reference => self.words.push(20),
            Kind::Boolean => {
                let truth = self.numbers.between(21, 22);
                self.words.push(truth);
            }
            Kind::Integer => {
                let literal = self.numbers.literal();
                self.words.extend([23, literal]);
            }
        }
    }

    /// A path to a cell of this kind, if a few walks meet one; now and then
    /// one that leads anywhere.
    fn path_to(&mut self, kind: Kind) -> Option<Vec<i32>> {
        if self.slip() {
            return Some(self.stray());
        }
        for _ in 0..6 {
            let (path, value) = self.walk();
            if value.map(Value::kind) == Some(kind) {
                return Some(path);
            }
        }
        None
    }

    pub fn any_path(&mut self) {
        let path = match self.slip() {
            true => self.stray(),
            false => self.walk().0,
        };
        self.words.extend(path);
    }

    /// A variable, and labels as long as there are records with fields.
    fn walk(&mut self) -> (Vec<i32>, Option<Value>) {
        let mut cell = self.numbers.below(VARIABLES);
        let mut labels = Vec::new();
        let variable = word(cell);
        while let Some(Value::Reference(record)) = self.tables.cell(cell) {
            let label = self.numbers.pick(self.tables.labels(record));
            let label = label.filter(|label| *label < LABELS);
            let next = label.and_then(|label| self.tables.field(record, label));
            let (Some(label), Some(next)) = (label, next) else {
                break;
            };
            if labels.len() == 7 || self.numbers.chance(20) {
                break;
            }
            labels.push(word(label));
            cell = next;
        }
        let mut path = vec![variable, word(labels.len())];
        path.extend(labels);
        (path, self.tables.cell(cell))
    }

    /// A path whose labels need not be there.
    fn stray(&mut self) -> Vec<i32> {
        let count = self.numbers.between(0, 7);
        let mut path = vec![self.numbers.between(0, 63), count];
        path.extend((0..count).map(|_| self.numbers.one_of(&[0, 1, 2, 3, 30, 31])));
        path
    }
}

fn word(number: usize) -> i32 {
    i32::try_from(number).unwrap_or(i32::MAX)
}
