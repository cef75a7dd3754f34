//! Nothing that comes in, however unfit, stops the program.

use reference::asking::ask;
use reference::batch::{answer_all, answer_line, Asking, List, Sheet};
use reference::entries::assign;
use reference::lister::list;
use reference::run::run;
use reference::writer::write_into;

/// A small generator of numbers for these tests alone.
struct Numbers(u64);

impl Numbers {
    fn next(&mut self) -> u64 {
        self.0 ^= self.0 << 13;
        self.0 ^= self.0 >> 7;
        self.0 ^= self.0 << 17;
        self.0
    }

    fn below(&mut self, limit: usize) -> usize {
        (self.next() % limit as u64) as usize
    }

    fn word(&mut self) -> i32 {
        match self.below(4) {
            0 => self.next() as i32,
            1 => [i32::MIN, i32::MAX, -1, 1_000_001][self.below(4)],
            _ => self.below(30) as i32,
        }
    }

    fn words(&mut self, most: usize) -> Vec<i32> {
        let count = self.below(most);
        (0..count).map(|_| self.word()).collect()
    }

    fn bytes(&mut self, most: usize, letters: &[u8]) -> Vec<u8> {
        let count = self.below(most);
        let letter = |numbers: &mut Numbers| letters[numbers.below(letters.len())];
        (0..count).map(|_| letter(self)).collect()
    }
}

#[test]
fn random_bytes() {
    let mut numbers = Numbers(88_172_645_463_325_252);
    let all: Vec<u8> = (0..=255).collect();
    let likely = b"0123456789- |F\n=";
    for round in 0..3000 {
        let letters: &[u8] = if round % 2 == 0 { &all } else { likely };
        let bytes = numbers.bytes(200, letters);
        assert!(list(&bytes).ends_with('\n'));
        assert!(!answer_line(&bytes).contains('\n'));
        let lines = bytes.split_inclusive(|byte| *byte == b'\n').count();
        let mut output = Vec::new();
        answer_all(&bytes[..], &mut output).unwrap();
        assert_eq!(output.iter().filter(|byte| **byte == b'\n').count(), lines);
    }
}

#[test]
fn random_lister_lines() {
    let mut numbers = Numbers(7);
    let join = |words: Vec<i32>| {
        let words: Vec<String> = words.iter().map(i32::to_string).collect();
        words.join(" ")
    };
    for _ in 0..3000 {
        let program = join(numbers.words(40));
        let proposals = join(numbers.words(20));
        let budget = numbers.below(1000);
        let input = format!("program={program}\nproposals={proposals}\nbudget={budget}\n");
        assert!(list(input.as_bytes()).starts_with("outcome="));
    }
}

/// Tables of random words, of their right lengths mostly.
fn tables(numbers: &mut Numbers) -> [Vec<i32>; 3] {
    let mut tables = [numbers.words(140), numbers.words(50), numbers.words(100)];
    let sizes = [128, 1601, 98];
    for (table, size) in tables.iter_mut().zip(sizes) {
        if numbers.below(8) > 0 {
            table.truncate(numbers.below(12));
            table.resize(size, 0);
        }
    }
    tables
}

#[test]
fn random_words() {
    let mut numbers = Numbers(99);
    for _ in 0..20_000 {
        let program = numbers.words(60);
        let [mut environment, mut heap, mut constraints] = tables(&mut numbers);
        let proposals = numbers.words(20);
        let answer = run(
            &program,
            &mut environment,
            &mut heap,
            &mut constraints,
            &proposals,
            numbers.word(),
        );
        assert!((0..20).contains(&answer.outcome));
        assert!(answer.unread <= proposals.len());
    }
}

#[test]
fn random_entries() {
    let mut numbers = Numbers(101);
    let mut outcomes = [0; 24];
    for _ in 0..20_000 {
        let [mut environment, mut heap, mut constraints] = tables(&mut numbers);
        if numbers.below(2) == 0 {
            (environment, heap, constraints) = (vec![0; 128], vec![0; 1601], vec![0; 98]);
        }
        let (entries, proposals) = (numbers.words(20), numbers.words(8));
        let answer = assign(
            &[0],
            &mut environment,
            &mut heap,
            &mut constraints,
            &entries,
            &proposals,
            numbers.below(8) as i32,
        );
        outcomes[answer.outcome as usize] += 1;
        assert!((3..=4).contains(&answer.outcome) || answer.place <= entries.len());
        assert!(answer.unread <= proposals.len());
    }
    assert!(outcomes[23] > 1000 && outcomes[20..23] == [0; 3]);
}

#[test]
fn random_askings() {
    let mut numbers = Numbers(105);
    let program = [
        2, 7, 22, 1, 1, 0, 0, 23, 3, 0, 4, 1, 3, 25, 6, 24, 0, 0, 23, 3,
    ];
    let mut outcomes = [0; 20];
    for round in 0..20_000 {
        let [mut environment, mut heap, mut constraints] = tables(&mut numbers);
        if numbers.below(4) > 0 {
            (environment, heap, constraints) = (vec![0; 128], vec![0; 1601], vec![0; 98]);
        }
        let program = match round % 2 {
            0 => program.to_vec(),
            _ => numbers.words(12),
        };
        let word = match numbers.below(2) {
            0 => numbers.word(),
            _ => 4,
        };
        let (first, mut second) = (numbers.words(4), numbers.words(4));
        if numbers.below(8) == 0 {
            second = vec![0];
        }
        let answer = ask(
            &program,
            &mut environment,
            &mut heap,
            &mut constraints,
            word,
            &first,
            &second,
        );
        outcomes[answer.outcome as usize] += 1;
        let accepted = [&[], &first[..], &second][answer.solver as usize];
        assert_eq!(answer.words, accepted.len());
        assert_eq!(answer.solver == 0, answer.outcome > 0);
    }
    let common = [0, 1, 2, 3, 16].iter().all(|n| outcomes[*n] > 50);
    let none = [5, 11].iter().all(|n| outcomes[*n] == 0);
    assert!(common && none, "{outcomes:?}");
}

#[test]
fn random_names() {
    let mut numbers = Numbers(103);
    let all: Vec<u8> = (0..=255).collect();
    let mut outcomes = [0; 26];
    for round in 0..20_000 {
        let program = match round % 2 {
            0 => vec![1, 1, 0, 1, 0, 24, 1, 0],
            _ => numbers.words(12),
        };
        let source = numbers.bytes(40, if round % 3 == 0 { &all } else { b"abz" });
        let mut names = numbers.words(200);
        if numbers.below(20) > 0 {
            names.truncate(numbers.below(6));
            names.resize(192, 0);
        }
        let mut text = vec![0; numbers.below(30)];
        let answer = write_into(&program, &source, &names, &mut text);
        outcomes[answer.outcome as usize] += 1;
        assert!(answer.bytes <= text.len());
        assert!(answer.outcome == 0 || text.iter().all(|byte| *byte == 0));
    }
    assert!(
        [0, 1, 2, 24, 25].iter().all(|n| outcomes[*n] > 50),
        "{outcomes:?}"
    );
}

#[test]
fn lines_that_are_no_sheets() {
    for line in [
        "",
        "|||||",
        "0|F|F|F||",
        "0|F|F|F|",
        "0|F|F|F||1|",
        "F|F|F|F||1",
        "0|F|F|F|F|1",
        "0|F|F|F||1 1",
        "0|F|F|F||+1",
        "0|F|F|F||2147483648",
        "0|f|F|F||1",
        "0|FF|F|F||1",
        "0\t|F|F|F||1",
        "0|F|F|F|||1|",
        "0|F|F|F|F||1",
        "0|F|F|F|1 x||1",
        "0|F|F|F|||",
        "ask|0|F|F|F|0|",
        "ask|0|F|F|F|0|||",
        "ask|0|F|F|F|||",
        "ask|0|F|F|F|0 0||",
        "ask|0|F|F|F|2147483648||",
        "ask|0|F|F|F|0|F|",
        "ask|F|F|F|F|0||",
        "ask|0|F|F|=|0||",
        "Ask|0|F|F|F|0||",
        "|0|F|F|F|0||",
        "0|0|F|F|F|0||",
    ] {
        assert_eq!(answer_line(line.as_bytes()), "unfit", "for {line:?}");
    }
    assert_eq!(answer_line(b"0|F|F|F|\xff|1"), "unfit");
    assert_eq!(answer_line(b"0|F|F|F||1"), "0 1 0 0 0|=|=|=");
    assert_eq!(answer_line(b"0||F|1 2 3|7|1"), "1 0 0 0 1|=|=|=");
    assert_eq!(answer_line(b"0|F|F|F|||1"), "0 0 0 0 0|=|=|=");
    assert_eq!(answer_line(b"0|F|F|F|64|7|1"), "23 0 0 0 1|=|=|=");
    assert_eq!(answer_line(b"ask|0|F|F|F|-3||"), "2 -3 0 0|=|=|=");
    assert_eq!(answer_line(b"ask|||F|F|7|0|0"), "1 0 0 0|=|=|=");
    let asked = answer_line(b"ask|1 2 0 0|F|F|F|1|0 0|0");
    assert!(asked.starts_with("0 1 2 1|4 0 0 0"), "{asked}");
    assert!(asked.ends_with("|="), "{asked}");
}

#[test]
fn sheets_and_lines_correspond() {
    let line = "3 -4|1 2|F||9 9|-7";
    let sheet = Sheet::parse(line.as_bytes()).unwrap();
    assert_eq!(sheet.program, [3, -4]);
    assert_eq!(sheet.environment, [1, 2]);
    assert_eq!(sheet.heap, vec![0; 1601]);
    assert!(sheet.constraints.is_empty());
    assert_eq!((sheet.proposals.len(), sheet.budget), (2, -7));
    assert_eq!(sheet.line(), line);
}

#[test]
fn lists_and_lines_correspond() {
    let line = "3 -4|1 2|F||5 6|9 9|-7";
    let list = List::parse(line.as_bytes()).unwrap();
    let sheet = Sheet::parse(b"3 -4|1 2|F||9 9|-7").unwrap();
    assert_eq!((&list.sheet, &list.entries[..]), (&sheet, &[5, 6][..]));
    assert_eq!(list.line(), line);
    assert_eq!(Sheet::parse(line.as_bytes()), None);
    assert_eq!(List::parse(sheet.line().as_bytes()), None);
}

#[test]
fn askings_and_lines_correspond() {
    let line = "ask|3 -4|1 2|F||-7|5 6|9";
    let asking = Asking::parse(line.as_bytes()).unwrap();
    assert_eq!((&asking.program[..], asking.word), (&[3, -4][..], -7));
    assert_eq!(asking.environment, [1, 2]);
    assert_eq!(asking.heap, vec![0; 1601]);
    assert!(asking.constraints.is_empty());
    assert_eq!(
        (&asking.first[..], &asking.second[..]),
        (&[5, 6][..], &[9][..])
    );
    assert_eq!(asking.line(), line);
    assert_eq!(Sheet::parse(line.as_bytes()), None);
    assert_eq!(List::parse(line.as_bytes()), None);
}
