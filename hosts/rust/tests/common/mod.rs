//! Lister sheets, and runs of them.

/// What a lister's input says.
pub struct Sheet {
    pub program: Vec<i32>,
    pub proposals: Vec<i32>,
    pub budget: i32,
}

pub fn sheet(input: &str) -> Sheet {
    let line = |name: &str| input.lines().find_map(|line| line.strip_prefix(name));
    let words = |name| -> Vec<i32> {
        let list = line(name).expect("a line").split_whitespace();
        list.map(|word| word.parse().expect("a word")).collect()
    };
    let budget = line("budget=").and_then(|word| word.parse().ok());
    Sheet {
        program: words("program="),
        proposals: words("proposals="),
        budget: budget.expect("a budget"),
    }
}
