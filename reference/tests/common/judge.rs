//! A judge of tokens apart from the reader: the grammar as rules, and all
//! ways to go on with them that the tokens so far leave open.
#![allow(dead_code)]

use std::sync::LazyLock;

/// A token's sort, its first byte and the byte behind it.
#[derive(Clone, Debug, PartialEq, Eq)]
pub struct Token {
    pub sort: String,
    pub place: usize,
    pub end: usize,
}

const WORDS: &str =
    " new skip always once weak medium required if then else while do true false nil and or ";
const PAIRS: &str = " := <= != >= == /\\ ";
const SINGLE: &str = ":,.;{}()+-*<=>";

/// Operands are due behind these, and behind every operator.
const DUE: &str = " := always once weak medium required if while : ( /\\ ";
const OPERATORS: &str = " + - * < <= = != >= > and or ";

fn listed(list: &str, word: &str) -> bool {
    list.contains(&format!(" {word} "))
}

/// The end of the name or number that begins at a place.
fn end_of_run(text: &[u8], place: usize, digits: bool) -> usize {
    let mut end = place + 1;
    while let Some(byte) = text.get(end) {
        match byte {
            b'0'..=b'9' => end += 1,
            b'a'..=b'z' | b'A'..=b'Z' | b'_' if !digits => end += 1,
            b'?' if !digits => return end + 1,
            _ => return end,
        }
    }
    end
}

fn token(text: &[u8], place: usize, before: &str) -> Token {
    let due = listed(DUE, before) || listed(OPERATORS, before);
    let first = text[place];
    let digit_next = text.get(place + 1).is_some_and(u8::is_ascii_digit);
    let of = |sort: &str, end: usize| Token {
        sort: sort.to_string(),
        place,
        end,
    };
    if first.is_ascii_lowercase() {
        let end = end_of_run(text, place, false);
        let name = std::str::from_utf8(&text[place..end]).unwrap();
        return of(if listed(WORDS, name) { name } else { "name" }, end);
    }
    if first.is_ascii_digit() || first == b'-' && digit_next && due {
        return of("number", end_of_run(text, place, true));
    }
    let pair = text
        .get(place..place + 2)
        .and_then(|pair| std::str::from_utf8(pair).ok());
    match pair {
        Some(pair) if !pair.contains(' ') && listed(PAIRS, pair) => of(pair, place + 2),
        _ if SINGLE.as_bytes().contains(&first) => of(&char::from(first).to_string(), place + 1),
        _ => of("none", place + 1),
    }
}

/// All tokens of a text up to the first byte that begins none. The last is
/// `end` or `none`.
pub fn tokens(text: &[u8]) -> Vec<Token> {
    let mut tokens: Vec<Token> = Vec::new();
    let mut place = 0;
    while place < text.len() {
        if matches!(text[place], b' ' | b'\t' | b'\n' | b'\r') {
            place += 1;
            continue;
        }
        let before = tokens.last().map_or("", |token| &token.sort);
        let next = token(text, place, before);
        place = next.end;
        let stop = next.sort == "none";
        tokens.push(next);
        if stop {
            return tokens;
        }
    }
    tokens.push(Token {
        sort: "end".to_string(),
        place: text.len(),
        end: text.len(),
    });
    tokens
}

/// The readings' grammar. What is no left side is a token's sort.
const RULES: &[(&str, &str)] = &[
    ("text", "end"),
    ("text", "statements end"),
    ("statements", "statement"),
    ("statements", "statements ; statement"),
    ("block", "{ }"),
    ("block", "{ statements }"),
    ("statement", "skip"),
    ("statement", "path := expression"),
    ("statement", "name := new { }"),
    ("statement", "name := new { fields }"),
    ("statement", "keep constraint"),
    ("statement", "keep path == path"),
    ("statement", "if expression then block else block"),
    ("statement", "while expression do block"),
    ("fields", "field"),
    ("fields", "fields , field"),
    ("field", "name : expression"),
    ("path", "name"),
    ("path", "path . name"),
    ("keep", "always"),
    ("keep", "once"),
    ("constraint", "part"),
    ("constraint", "constraint /\\ part"),
    ("part", "priority plain"),
    ("part", "plain"),
    ("priority", "weak"),
    ("priority", "medium"),
    ("priority", "required"),
    ("expression", "operand"),
    ("expression", "expression operator operand"),
    ("operand", "leaf"),
    ("operand", "path == path"),
    ("operand", "( expression )"),
    ("plain", "plain-operand"),
    ("plain", "plain operator plain-operand"),
    ("plain-operand", "leaf"),
    ("plain-operand", "( plain )"),
    ("leaf", "nil"),
    ("leaf", "true"),
    ("leaf", "false"),
    ("leaf", "number"),
    ("leaf", "path"),
    ("operator", "+"),
    ("operator", "-"),
    ("operator", "*"),
    ("operator", "<"),
    ("operator", "<="),
    ("operator", "="),
    ("operator", "!="),
    ("operator", ">="),
    ("operator", ">"),
    ("operator", "and"),
    ("operator", "or"),
];

/// The rules with their right sides cut up.
static SPLIT: LazyLock<Vec<(&str, Vec<&str>)>> = LazyLock::new(|| {
    let rules = RULES.iter();
    let split = rules.map(|(left, right)| (*left, right.split(' ').collect()));
    split.collect()
});

/// A rule under way: its number, how much of it is behind, where it began.
type Item = (usize, usize, usize);

fn wanted((rule, done, _): Item) -> Option<&'static str> {
    SPLIT[rule].1.get(done).copied()
}

fn add(set: &mut Vec<Item>, item: Item) {
    if !set.contains(&item) {
        set.push(item);
    }
}

/// Adds what the items of the last set begin or end.
fn close(sets: &mut [Vec<Item>]) {
    let here = sets.len() - 1;
    let mut next = 0;
    while let Some(item) = sets[here].get(next).copied() {
        next += 1;
        if let Some(wanted) = wanted(item) {
            let rules = SPLIT.iter().enumerate();
            for (rule, _) in rules.filter(|(_, (left, _))| *left == wanted) {
                add(&mut sets[here], (rule, 0, here));
            }
            continue;
        }
        let (rule, _, start) = item;
        let waiting = sets[start].iter().copied();
        let waiting = waiting.filter(|item| wanted(*item) == Some(SPLIT[rule].0));
        for (rule, done, start) in waiting.collect::<Vec<Item>>() {
            add(&mut sets[here], (rule, done + 1, start));
        }
    }
}

/// The first of the tokens that may not stand where it stands.
pub fn first_unfit(tokens: &[Token]) -> Option<usize> {
    let mut sets: Vec<Vec<Item>> = vec![vec![(0, 0, 0), (1, 0, 0)]];
    for (number, token) in tokens.iter().enumerate() {
        close(&mut sets);
        let items = sets[number].iter();
        let fits = items.filter(|item| wanted(**item) == Some(&token.sort));
        let moved: Vec<Item> = fits
            .map(|(rule, done, start)| (*rule, done + 1, *start))
            .collect();
        if moved.is_empty() {
            return Some(number);
        }
        sets.push(moved);
    }
    None
}
