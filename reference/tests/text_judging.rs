//! Generated texts are judged token by token: held against rules of the
//! grammar apart from the reader, cut, and gone on with.

mod common;

use common::judge::{first_unfit, tokens, Token};
use reference::generator::texts::text;
use reference::text::{read, Limit, Reading};
use std::collections::BTreeMap;

const SEED: u64 = 1;

fn shown(text: &[u8]) -> String {
    String::from_utf8_lossy(text).into_owned()
}

/// Whether a token is a later label of a `new` that has it already. A comma
/// stands between fields only, and a colon behind labels only.
fn is_repeated_label(text: &[u8], tokens: &[Token], label: usize) -> bool {
    let name = |token: &Token| text[token.place..token.end].to_vec();
    let mut before = tokens[..label].windows(2).rev();
    let after_comma = tokens[..label].last().is_some_and(|last| last.sort == ",");
    let own = name(&tokens[label]);
    let mut fields = before.by_ref().take_while(|pair| pair[0].sort != "new");
    after_comma && fields.any(|pair| pair[1].sort == ":" && name(&pair[0]) == own)
}

/// The tokens that are judged: those that end at byte 65,536 or before.
fn judged(text: &[u8]) -> Vec<Token> {
    let mut tokens = tokens(text);
    tokens.retain(|token| token.end <= 65_536);
    tokens
}

/// 20 is where the rules allow no more, or at a label that is there already;
/// 0, 21 and 22 are where they allow everything so far.
fn check_by_rules(text: &[u8], tokens: &[Token], reading: &Reading) {
    let unfit = first_unfit(tokens).map(|unfit| tokens[unfit].place);
    let place = reading.place;
    let at = tokens.iter().position(|token| token.place == place);
    let case = format!("{unfit:?} {reading:?} {}", shown(text));
    match (reading.outcome, reading.limit) {
        (0, _) => assert_eq!(unfit, None, "{case}"),
        (22, Some(Limit::Size)) => assert!(text.len() > 65_536 && unfit.is_none(), "{case}"),
        (20, _) if unfit == Some(place) => {}
        (20, _) => {
            let at = at.expect("a token at the place");
            assert!(unfit.is_none_or(|unfit| unfit > place), "{case}");
            assert!(is_repeated_label(text, tokens, at), "{case}");
        }
        _ => {
            assert!(at.is_some(), "{case}");
            assert!(unfit.is_none_or(|unfit| unfit > place), "{case}");
        }
    }
}

#[test]
fn the_rules_allow_what_is_read() {
    let mut counts: BTreeMap<i32, usize> = BTreeMap::new();
    for index in 0..5000 {
        let text = text(SEED, index);
        let tokens = judged(&text);
        if tokens.len() <= 1000 {
            let reading = read(&text);
            check_by_rules(&text, &tokens, &reading);
            *counts.entry(reading.outcome).or_default() += 1;
        }
    }
    println!("{counts:?}");
    assert_eq!(
        counts.keys().copied().collect::<Vec<i32>>(),
        [0, 20, 21, 22]
    );
    assert!(counts.values().all(|texts| *texts >= 200), "{counts:?}");
}

/// Bytes to go on with behind a token.
const ENDINGS: [&[u8]; 8] = [
    b" ",
    b" ;",
    b" x := 1",
    b" }",
    b"\n== y",
    b" !",
    b" )))) and 99999999999",
    b"\t/\\ \xff",
];

/// What comes behind the token of a refusal does not change it.
#[test]
fn nothing_is_unfit_in_hindsight() {
    for index in 0..1500 {
        let text = text(SEED, index);
        let reading = read(&text);
        let tokens = judged(&text);
        let place = reading.place;
        let at = tokens.iter().find(|token| token.place == place);
        for ending in ENDINGS {
            let end = match at {
                Some(token) if reading.outcome > 0 && token.sort != "end" => token.end,
                _ if reading.limit == Some(Limit::Size) => text.len(),
                _ => continue,
            };
            let other = read(&[&text[..end], ending].concat());
            assert_eq!(other, reading, "{}", shown(&text));
        }
    }
}

/// Cut before the token of a refusal, a text is refused at its end or not at
/// all; and so is one cut before any earlier token.
#[test]
fn what_stands_before_a_refusal_is_fit() {
    for index in 0..1500 {
        let text = text(SEED, index);
        let place = read(&text).place;
        let tokens = judged(&text);
        let before: Vec<&Token> = tokens.iter().filter(|token| token.place <= place).collect();
        let some = before.iter().rev().take(6).chain(before.iter().take(3));
        for token in some {
            let cut = &text[..token.place];
            let reading = read(cut);
            assert_eq!(reading.place, cut.len(), "{reading:?} {}", shown(&text));
        }
    }
}

/// Tokens that bring a text nearer to its end.
const CLOSERS: [&str; 10] = [
    " )", " }", " 1", " qq", " :=", " :", " then", " do", " else", " {",
];

/// Every cut text that is refused for its end alone can be gone on with to
/// one that reads, if no limit comes before.
#[test]
fn what_is_fit_can_be_ended() {
    let mut count = 0;
    for index in 0..2000 {
        let text = text(SEED, index);
        let tokens = judged(&text);
        let place = read(&text).place;
        let short = if text.len() > 300 { &[] } else { &tokens[..] };
        for token in short.iter().filter(|token| token.place <= place) {
            let cut = text[..token.place].to_vec();
            let reading = ended(cut);
            assert!(reading.is_some(), "{}", shown(&text));
            count += 1;
        }
    }
    assert!(count > 12_000, "{count}");
}

/// No operator before one that is refused for its level is too deep already.
#[test]
fn levels_are_passed_at_the_first_operator() {
    let mut passed = 0;
    for index in 0..4000 {
        let text = text(SEED, index);
        let reading = read(&text);
        if reading.limit == Some(Limit::Levels) {
            let cut = text[..reading.place].to_vec();
            let ended = ended(cut).map(|reading| reading.outcome);
            assert_eq!(ended, Some(0), "{}", shown(&text));
            passed += 1;
        }
    }
    assert!(passed > 20, "{passed}");
}

/// Goes on with the first token that the grammar allows, until the text is
/// whole or a limit is met.
fn ended(mut text: Vec<u8>) -> Option<Reading> {
    for _ in 0..2000 {
        let reading = read(&text);
        if reading.outcome != 20 {
            return Some(reading);
        }
        assert_eq!(reading.place, text.len());
        let closers = CLOSERS.iter();
        let mut longer = closers.map(|closer| [&text, closer.as_bytes()].concat());
        text = longer.find(|longer| is_allowed(longer))?;
    }
    None
}

fn is_allowed(text: &[u8]) -> bool {
    let reading = read(text);
    reading.outcome != 20 || reading.place == text.len()
}
