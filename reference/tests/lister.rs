//! The run lister: what it prints and what it refuses.

use reference::lister::list;

fn lists(input: &str) -> String {
    list(input.as_bytes())
}

#[test]
fn all_forms_of_output() {
    let input = "program=8 1 9 0 20 1 8 0 22 1 7 0 23 -5 2 0 2 31 24 9 0 4 24 7 0 2 1 0 5 9 0 9 0 3 1 1 21 5 0 0 0 0\nproposals=0 0 0 0 0 0\nbudget=100";
    let output = "outcome=0
place=42
steps=8
proposals=6
v0=ref 0
v1=ref 1
v7=int -5
v8=bool 1
v9=nil
r0=2
r0.31=nil
r0.4=int -5
r1=0
c0=33
i0=28
i1=37
";
    assert_eq!(lists(input), output);
}

#[test]
fn refused_runs_print_the_four_numbers() {
    let one = "outcome=1\nplace=0\nsteps=0\nproposals=0\n";
    assert_eq!(lists("program=\nproposals=\nbudget=-1\n"), one);
    assert_eq!(lists("program=\nproposals=\nbudget=1000001\n"), one);
    let two = "outcome=2\nplace=0\nsteps=0\nproposals=0\n";
    assert_eq!(lists("program=\nproposals=\nbudget=0"), two);
}

#[test]
fn unfit_lines() {
    for (input, line) in [
        ("", 1),
        ("\n", 1),
        ("program", 1),
        ("Program=0\nproposals=\nbudget=1", 1),
        (" program=0\nproposals=\nbudget=1", 1),
        ("program= 0\nproposals=\nbudget=1", 1),
        ("program=0 \nproposals=\nbudget=1", 1),
        ("program=0\r\nproposals=\nbudget=1", 1),
        ("program=0  0\nproposals=\nbudget=1", 1),
        ("program=+1\nproposals=\nbudget=1", 1),
        ("program=-0\nproposals=\nbudget=1", 1),
        ("program=00\nproposals=\nbudget=1", 1),
        ("program=01\nproposals=\nbudget=1", 1),
        ("program=-\nproposals=\nbudget=1", 1),
        ("program=-01\nproposals=\nbudget=1", 1),
        ("program=2147483648\nproposals=\nbudget=1", 1),
        ("program=-2147483649\nproposals=\nbudget=1", 1),
        ("program=1,0\nproposals=\nbudget=1", 1),
        ("program=0", 2),
        ("program=0\n", 2),
        ("program=0\nproposals", 2),
        ("program=0\nproposals=x\nbudget=y", 2),
        ("program=0\nbudget=1\nproposals=", 2),
        ("program=0\nproposals=", 3),
        ("program=0\nproposals=\n", 3),
        ("program=0\nproposals=\nbudget=", 3),
        ("program=0\nproposals=\nbudget=1 1", 3),
        ("program=0\nproposals=\nbudget= 1", 3),
        ("program=0\nproposals=\nbudget=1\n\n", 3),
        ("program=0\nproposals=\nbudget=1\nx", 3),
        ("program=0\nproposals=\nbudget=1\r\n", 3),
        ("program=0\nproposals=\nbudget=1\0", 3),
        ("program=0\nproposals=\nbudget=2147483648", 3),
        ("program=0\nproposals=\n\nbudget=1", 3),
    ] {
        assert_eq!(lists(input), format!("input={line}\n"), "for {input:?}");
    }
}

#[test]
fn bytes_that_are_no_text() {
    assert_eq!(list(&[0xff, 0xfe]), "input=1\n");
    assert_eq!(
        list(b"program=0\nproposals=\xc3\xa9\nbudget=1"),
        "input=2\n"
    );
}

#[test]
fn extreme_numbers_are_fit() {
    let output = lists("program=-2147483648 2147483647\nproposals=2147483647\nbudget=0\n");
    assert!(output.starts_with("outcome=2\nplace=0\n"));
}

fn with_counts(program: usize, proposals: usize) -> String {
    let list = |count: usize| vec!["0"; count].join(" ");
    let (program, proposals) = (list(program), list(proposals));
    lists(&format!(
        "program={program}\nproposals={proposals}\nbudget=1"
    ))
}

#[test]
fn numbers_on_a_line() {
    assert!(with_counts(4096, 4096).starts_with("outcome=2\nplace=1\n"));
    assert_eq!(with_counts(4097, 4097), "input=1\n");
    assert_eq!(with_counts(4096, 4097), "input=2\n");
}

/// A fit input of an exact size, filled up with long numbers.
fn input_of(size: usize) -> String {
    let mut input = format!("program=0{}\nproposals=0", " -2147483648".repeat(2000));
    let end = "\nbudget=7\n";
    let left = |input: &String| size - end.len() - input.len();
    while left(&input) > 16 {
        input += " -2147483648";
    }
    let half = left(&input) / 2;
    input = input + " " + &"1".repeat(half - 1);
    let rest = left(&input);
    input + " " + &"1".repeat(rest - 1) + end
}

#[test]
fn size_of_the_input() {
    let largest = input_of(65_536);
    assert_eq!(largest.len(), 65_536);
    assert!(lists(&largest).starts_with("outcome=2\nplace=1\n"));
    let larger = input_of(65_537);
    assert_eq!(larger.len(), 65_537);
    assert_eq!(lists(&larger), "input=1\n");
    let without_end = &larger[..65_536];
    assert!(lists(without_end).starts_with("outcome=2\nplace=1\n"));
}
