//! Each limit of "The program's words" at its edge and one past it.

/// A list, and the place of its first unfit word where it does not read.
pub struct Limit {
    pub name: String,
    pub words: Vec<i32>,
    pub place: Option<usize>,
}

const READS: Option<usize> = None;
const NIL: [i32; 1] = [20];
const ONE: [i32; 2] = [23, 1];
const TRUE: [i32; 1] = [22];

pub fn all() -> Vec<Limit> {
    let mut limits = Limits(Vec::new());
    limits.length();
    limits.cut();
    limits.blocks();
    limits.nested_blocks();
    limits.nested_expressions();
    limits.deepest_leaves();
    limits.statements();
    limits.records();
    limits.paths();
    limits.constraints();
    limits.identities();
    limits.expressions();
    limits.0
}

/// Lists one after the other.
fn row(lists: &[&[i32]]) -> Vec<i32> {
    lists.concat()
}

/// 15 times an if with a block of 255 skips, then skips; `count` is the first word.
fn long(count: i32, skips: usize) -> Vec<i32> {
    let branch = row(&[&[7, 22, 255], &[0; 255], &[0]]);
    row(&[&[count], &branch.repeat(15), &vec![0; skips]])
}

struct Limits(Vec<Limit>);

impl Limits {
    fn add(&mut self, name: &str, lists: &[&[i32]], place: Option<usize>) {
        self.0.push(Limit {
            name: name.to_string(),
            words: row(lists),
            place,
        });
    }

    fn length(&mut self) {
        self.add("no words", &[], Some(0));
        self.add("an empty block", &[&[0]], READS);
        self.add("an extra word", &[&[0, 0]], Some(1));
        self.add("extra words", &[&[1, 0, 0, 0]], Some(2));
        self.add("4096 words", &[&long(225, 210)], READS);
        self.add("4096 words, one extra", &[&long(224, 210)], Some(4095));
        self.add("4096 words, one too few", &[&long(226, 210)], Some(4096));
        self.add("4097 words", &[&long(226, 211)], Some(4096));
        self.add("4097 words, one extra", &[&long(225, 211)], Some(4096));
        self.add("4097 unfit words", &[&[-1; 4097]], Some(4096));
        self.add("4096 unfit words", &[&[-1; 4096]], Some(0));
        self.add("4097 empty blocks", &[&[0; 4097]], Some(4096));
        self.add("4096 empty blocks", &[&[0; 4096]], Some(1));
        self.add("8000 words", &[&[0; 8000]], Some(4096));
    }

    /// A program with every form of statement, cut after each word.
    fn cut(&mut self) {
        let whole = row(&[
            &[
                9, 0, 1, 0, 1, 3, 25, 1, 23, 7, 24, 1, 0, 2, 5, 2, 0, 20, 1, 26,
            ],
            &[
                0, 0, 1, 1, 9, 3, 2, 1, 21, 3, 22, 4, 1, 2, 22, 5, 0, 0, 1, 0,
            ],
            &[6, 0, 1, 2, 1, 0, 7, 22, 1, 0, 1, 0, 8, 21, 2, 0, 0],
        ]);
        self.add("every statement", &[&whole], READS);
        for count in 0..whole.len() {
            let name = format!("every statement, cut after {count} words");
            self.add(&name, &[whole.get(..count).unwrap_or(&[])], Some(count));
        }
    }

    fn blocks(&mut self) {
        self.add("255 statements", &[&[255], &[0; 255]], READS);
        self.add("256 statements", &[&[256], &[0; 256]], Some(0));
        self.add("-1 statements", &[&[-1]], Some(0));
        self.add("most statements", &[&[i32::MAX, 0]], Some(0));
        self.add("least statements", &[&[i32::MIN, 0]], Some(0));
        self.add("too few statements", &[&[3, 0, 0]], Some(3));
        self.add("255 inside", &[&[1, 8, 21, 255], &[0; 255]], READS);
        self.add("256 inside", &[&[1, 8, 21, 256], &[0; 256]], Some(3));
        self.add("256 in the second block", &[&[1, 7, 21, 0, 256]], Some(4));
    }

    fn nested_blocks(&mut self) {
        for (levels, [loops, yes, no]) in [(7, [READS; 3]), (8, [Some(24), Some(24), Some(31)])] {
            let depth = levels + 1;
            let name = |form: &str| format!("{form} to depth {depth}");
            self.add(&name("while"), &[&[1, 8, 21].repeat(levels), &[0]], loops);
            let ends = vec![0; levels + 1];
            self.add(&name("if"), &[&[1, 7, 22].repeat(levels), &ends], yes);
            self.add(&name("else"), &[&[1, 7, 22, 0].repeat(levels), &[0]], no);
        }
        let seven = [1, 8, 21].repeat(6);
        self.add(
            "if and while",
            &[&seven, &[2, 7, 22, 0, 0, 8, 22, 0]],
            READS,
        );
        let nine = [1, 7, 22, 1, 8, 21, 0];
        self.add("while in if, too deep", &[&seven, &nine], Some(24));
        self.add(
            "too deep, words run out",
            &[&[1, 8, 21].repeat(8)],
            Some(24),
        );
        self.add(
            "too deep, unfit too",
            &[&[1, 8, 21].repeat(8), &[-1]],
            Some(24),
        );
    }

    fn nested_expressions(&mut self) {
        let left = |levels: usize| row(&[&[25, 1].repeat(levels), &ONE.repeat(levels + 1)]);
        let right = |levels: usize| row(&[&[25, 1, 23, 1].repeat(levels), &ONE]);
        let starts: [(&str, &[i32], &[i32]); 7] = [
            ("assign", &[1, 1, 0, 0], &[]),
            ("new", &[1, 2, 0, 1, 0], &[]),
            ("always", &[1, 3, 1, 3], &[]),
            ("once", &[1, 4, 1, 1], &[]),
            ("if", &[1, 7], &[0, 0]),
            ("while", &[1, 8], &[0]),
            ("second field", &[1, 2, 0, 2, 0, 20, 1], &[]),
        ];
        for (name, start, end) in starts {
            let first = start.len();
            let name = |depth: &str| format!("{name}, expression to depth {depth}");
            self.add(&name("16"), &[start, &left(15), end], READS);
            self.add(&name("17"), &[start, &left(16), end], Some(first + 32));
            self.add(&name("16, right"), &[start, &right(15), end], READS);
            self.add(
                &name("17, right"),
                &[start, &right(16), end],
                Some(first + 62),
            );
        }
    }

    fn deepest_leaves(&mut self) {
        let leaves =
            |levels: usize, leaf: &[i32]| row(&[&[25, 6].repeat(levels), &leaf.repeat(levels + 1)]);
        let same = [26, 0, 0, 0, 0];
        let start = [1, 1, 0, 0];
        self.add("identities at 16", &[&start, &leaves(15, &same)], READS);
        self.add("identities at 17", &[&start, &leaves(16, &same)], Some(36));
        self.add("17 and no word", &[&start, &[25, 1].repeat(16)], Some(36));
        self.add(
            "17 and unfit",
            &[&start, &[25, 1].repeat(16), &[-1]],
            Some(36),
        );
    }

    fn statements(&mut self) {
        self.add("skip", &[&[1, 0]], READS);
        self.add("verb 9", &[&[1, 9]], Some(1));
        self.add("verb 20", &[&[1, 20]], Some(1));
        self.add("verb -1", &[&[1, -1]], Some(1));
        self.add("least verb", &[&[1, i32::MIN]], Some(1));
        self.add("most verb", &[&[1, i32::MAX]], Some(1));
        self.add("the first of two unfit", &[&[2, 9, 9]], Some(1));
        self.add("the second statement", &[&[2, 0, 9]], Some(2));
    }

    fn records(&mut self) {
        let fields =
            |count: i32| -> Vec<i32> { (0..count).flat_map(|label| [label, 20]).collect() };
        self.add("8 fields", &[&[1, 2, 0, 8], &fields(8)], READS);
        self.add("9 fields", &[&[1, 2, 0, 9], &fields(9)], Some(3));
        self.add("-1 fields", &[&[1, 2, 0, -1]], Some(3));
        self.add("no fields", &[&[1, 2, 63, 0]], READS);
        self.add("new 64", &[&[1, 2, 64, 0]], Some(2));
        self.add("new -1", &[&[1, 2, -1, 0]], Some(2));
        self.add("label 31", &[&[1, 2, 0, 1, 31, 20]], READS);
        self.add("label 32", &[&[1, 2, 0, 1, 32, 20]], Some(4));
        self.add("label -1", &[&[1, 2, 0, 1, -1, 20]], Some(4));
        self.add("a label twice", &[&[1, 2, 0, 2, 5, 20, 5, 20]], Some(6));
        self.add("31 twice", &[&[1, 2, 0, 2, 31, 20, 31, 20]], Some(6));
        self.add(
            "the eighth as the first",
            &[&[1, 2, 0, 8], &fields(7), &[0, 20]],
            Some(18),
        );
        let uneven = [1, 2, 0, 3, 5, 23, 7, 6, 24, 0, 1, 5, 5, 20];
        self.add("twice after other words", &[&uneven], Some(12));
        self.add(
            "a label of two records",
            &[&[2, 2, 0, 1, 5, 20, 2, 0, 1, 5, 20]],
            READS,
        );
        self.add(
            "twice, and unfit before",
            &[&[1, 2, 0, 2, 5, 27, 5, 20]],
            Some(5),
        );
    }

    fn paths(&mut self) {
        let targets: [(&str, &[i32], &[i32]); 6] = [
            ("target", &[1, 1], &NIL),
            ("read", &[1, 1, 0, 0, 24], &[]),
            ("left of an identity", &[1, 5], &[0, 0]),
            ("right of an identity", &[1, 6, 0, 1, 2], &[]),
            ("right of 26", &[1, 8, 26, 0, 0], &[0]),
            ("read in C", &[1, 4, 1, 2, 24], &[]),
        ];
        for (name, start, end) in targets {
            let at = start.len();
            let edges: [(&str, &[i32], Option<usize>); 8] = [
                ("variable 63", &[63, 0], READS),
                ("variable 64", &[64, 0], Some(at)),
                ("variable -1", &[-1, 0], Some(at)),
                ("7 labels", &[0, 7, 31, 31, 31, 31, 31, 31, 31], READS),
                ("8 labels", &[0, 8, 1, 1, 1, 1, 1, 1, 1, 1], Some(at + 1)),
                ("-1 labels", &[0, -1], Some(at + 1)),
                (
                    "seventh label 32",
                    &[0, 7, 1, 1, 1, 1, 1, 1, 32],
                    Some(at + 8),
                ),
                ("first label -1", &[0, 2, -1, 32], Some(at + 2)),
            ];
            for (edge, path, place) in edges {
                self.add(&format!("{name}: {edge}"), &[start, path, end], place);
            }
        }
    }

    fn constraints(&mut self) {
        for verb in [3, 4] {
            let name = |text: &str| format!("verb {verb}, {text}");
            let parts = |count: usize| [1, 22].repeat(count);
            self.add(&name("0 parts"), &[&[1, verb, 0]], Some(2));
            self.add(&name("-1 parts"), &[&[1, verb, -1]], Some(2));
            self.add(&name("1 part"), &[&[1, verb, 1], &parts(1)], READS);
            self.add(&name("16 parts"), &[&[1, verb, 16], &parts(16)], READS);
            self.add(&name("17 parts"), &[&[1, verb, 17], &parts(17)], Some(2));
            self.add(
                &name("15 parts of 16"),
                &[&[1, verb, 16], &parts(15)],
                Some(33),
            );
            for priority in -1..=4 {
                let name = name(&format!("priority {priority}"));
                let place = if matches!(priority, 1..=3) {
                    READS
                } else {
                    Some(3)
                };
                self.add(&name, &[&[1, verb, 1, priority], &TRUE], place);
            }
            self.add(
                &name("second priority 4"),
                &[&[1, verb, 2, 1, 22, 4, 22]],
                Some(5),
            );
        }
    }

    fn identities(&mut self) {
        let same = [26, 0, 0, 0, 0];
        self.add("26 in a test", &[&[1, 7], &same, &[0, 0]], READS);
        self.add("26 in a value", &[&[1, 1, 0, 0], &same], READS);
        self.add("26 in a field", &[&[1, 2, 0, 1, 0], &same], READS);
        for verb in [3, 4] {
            let name = |text: &str| format!("26 in C of {verb}, {text}");
            let start = [1, verb, 1, 3];
            self.add(&name("at once"), &[&start, &same], Some(4));
            self.add(
                &name("on the right"),
                &[&start, &[25, 10, 22], &same],
                Some(7),
            );
            let deep = [25, 10].repeat(15);
            self.add(&name("at depth 16"), &[&start, &deep, &same], Some(34));
            self.add(
                &name("second part"),
                &[&[1, verb, 2, 1, 22, 3], &same],
                Some(6),
            );
        }
        self.add("26 after C", &[&[2, 3, 1, 1, 22, 1, 0, 0], &same], READS);
    }

    fn expressions(&mut self) {
        let start = [1, 1, 0, 0];
        for form in [i32::MIN, -1, 0, 19, 27, i32::MAX] {
            self.add(&format!("form {form}"), &[&start, &[form]], Some(4));
        }
        for operator in -1..=12 {
            let name = format!("operator {operator}");
            let place = if matches!(operator, 1..=11) {
                READS
            } else {
                Some(5)
            };
            self.add(&name, &[&start, &[25, operator, 20, 20]], place);
        }
        for word in [i32::MIN, -1, 0, i32::MAX] {
            self.add(&format!("literal {word}"), &[&start, &[23, word]], READS);
        }
        self.add("no literal", &[&start, &[23]], Some(5));
        self.add("right operand unfit", &[&start, &[25, 1, 20, 19]], Some(7));
    }
}
