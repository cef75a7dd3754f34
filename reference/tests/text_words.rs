//! The 4,096 words of a program are counted at tokens, as soon as certain.

mod common;

use common::texts::{check_refused, filler};
use reference::text::{read, Limit};

/// Holds a text against the words that become certain with each token, as in
/// `x~3 := nil~1`; no token before `~` is the end. The text stands behind a
/// filler that leaves room for some of its words, each number of them in turn,
/// and so the refusal falls on the first token that needs more.
fn check(counted: &str) {
    let tokens = counted.split(' ').map(|token| match token.split_once('~') {
        Some((token, words)) => (token, words.parse().expect("a number")),
        None => (token, 0),
    });
    let tokens: Vec<(&str, usize)> = tokens.collect();
    let all: usize = tokens.iter().map(|(_, words)| words).sum();
    for room in 0..=all {
        let mut text = filler(4096 - room);
        let (mut words, mut place) = (0, None);
        for (token, more) in &tokens {
            words += more;
            if words > room && place.is_none() {
                place = Some(text.len());
            }
            text.push_str(token);
            text.push_str(if token.is_empty() { "" } else { " " });
        }
        match place {
            Some(place) => {
                let limit = check_refused(text.as_bytes(), 22, place);
                assert_eq!(limit, Some(Limit::Words));
            }
            None => assert_eq!(read(text.as_bytes()).words.len(), 4096 - room + all),
        }
    }
}

#[test]
fn the_filler_has_its_words() {
    for words in [2, 3, 65, 66, 67, 100, 4000, 4095] {
        let text = filler(words) + "skip";
        assert_eq!(read(text.as_bytes()).words.len(), words + 1);
    }
}

#[test]
fn simple_statements() {
    check("skip~1");
    check("skip~1 ; skip~1");
    check("x~3 := nil~1");
    check("x~3 := true~1");
    check("x~3 := false~1");
    check("x~3 := 007~2");
    check("x~3 := -5~2");
    check("x~3 . a~1 . b~1 := x~3");
}

#[test]
fn new_has_its_count_at_the_name() {
    check("x~3 := new { }");
    check("x~3 := new { a~1 : 1~2 , b~1 : x~3 }");
}

#[test]
fn expressions() {
    check("x~3 := 1~2 +~2 2~2 *~2 x~3");
    check("x~3 := ( ( 1~2 ) and~2 nil~1 )");
    check("x~3 := y~3 . a~1 == x~2 . b~1");
    check("x~3 := y~3 == x~2 or~2 y~3 == x~2");
}

#[test]
fn branches_and_loops() {
    check("if~1 x~3 then {~1 skip~1 ; skip~1 } else {~1 }");
    check("while~1 true~1 do {~1 x~3 := 1~2 } ; skip~1");
}

#[test]
fn a_priority_first() {
    for priority in ["weak", "medium", "required"] {
        check(&format!("always~1 {priority}~2 x~3 . a~1 =~2 1~2"));
        check(&format!("once~1 {priority}~2 ( x~3 )"));
    }
}

#[test]
fn no_priority_and_no_path_first() {
    check("always~1 5~4 =~2 x~3");
    check("once~1 -5~4 =~2 x~3");
    check("always~1 true~3");
    check("once~1 nil~3 =~2 x~3");
    check("always~1 (~2 x~3 )");
    check("once~1 (~2 ( x~3 . a~1 ) )");
    check("once~1 (~2 5~2 ) ; skip~1");
}

#[test]
fn an_identity() {
    check("always~1 x~2 == y~2");
    check("once~1 x~2 . a~1 == y~2 . b~1 . a~1 ; skip~1");
}

/// m, the priority and 24 come with the token after the path.
#[test]
fn a_path_first() {
    for keep in ["always", "once"] {
        check(&format!("{keep}~1 x~2 ~3"));
        check(&format!("{keep}~1 x~2 . a~1 ~3"));
        check(&format!("{keep}~1 x~2 ;~3 skip~1"));
        check(&format!("{keep}~1 x~2 . a~1 ;~3 skip~1"));
        check(&format!("while~1 true~1 do {{~1 {keep}~1 x~2 }}~3"));
        check(&format!("{keep}~1 x~2 /\\~3 y~4"));
        check(&format!("{keep}~1 x~2 . a~1 =~5 1~2"));
    }
    for operator in ["+", "-", "*", "<", "<=", "=", "!=", ">=", ">", "and", "or"] {
        check(&format!("once~1 x~2 {operator}~5 x~3 {operator}~2 1~2"));
    }
    check("if~1 x~3 then {~1 skip~1 ; once~1 x~2 . a~1 }~3 else {~1 always~1 y~2 }~3");
}

#[test]
fn later_parts() {
    check("always~1 true~3 /\\ weak~1 x~3");
    check("always~1 true~3 /\\ x~4 . a~1");
    check("always~1 true~3 /\\ (~1 x~3 )");
    check("always~1 x~2 /\\~3 5~3 /\\ nil~2");
    check("always~1 medium~2 x~3 /\\ x~4 ; skip~1");
}

/// A token that may not stand there is 20, whatever is owed.
#[test]
fn unfit_before_too_long() {
    let start = filler(4096 - 3) + "once x";
    for token in [
        ":=", ")", "}", ",", ":", "(", "{", "y", "5", "then", "skip", "new",
    ] {
        let text = format!("{start} {token}");
        check_refused(text.as_bytes(), 20, start.len() + 1);
    }
    check_refused(format!("{start} ").as_bytes(), 22, start.len() + 1);
    check_refused(start.as_bytes(), 22, start.len());
    check_refused(format!("{start} == ").as_bytes(), 20, start.len() + 4);
    check_refused(format!("{start} == y").as_bytes(), 22, start.len() + 4);
    check_refused(format!("{start}.").as_bytes(), 20, start.len() + 1);
    check_refused(format!("{start}.a").as_bytes(), 22, start.len() + 1);
}
