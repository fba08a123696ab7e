//! A text made into words: names are numbered, defaulted names put in order.

use crate::lex::{Parsed, Span, bad};
use crate::names::Naming;
use crate::pack::NONE;
use crate::parse::{Cell, Key, Text, Value, parse};
use cogunwa::MAX_NAMES;
use std::collections::BTreeSet;

pub struct Made {
    pub words: Vec<u32>,
    /// What each word stands for in the text.
    pub spans: Vec<Span>,
    pub naming: Naming,
    /// The number of each name of the text.
    pub numbers: Vec<u32>,
    pub text: Text,
}

pub fn make(text: &str) -> Parsed<Made> {
    let mut text = parse(text)?;
    one_way_of_naming(&text)?;
    let (naming, numbers, count) = numbered(&text);
    let value = |cell: &Cell| match cell.value {
        Value::Number(number) => number,
        Value::Name(name) => numbers[name],
    };

    let defaulted = value(&text.cells[2]) as usize;
    text.cells[3..3 + defaulted].sort_by_key(value);
    let total = text.cells.len() as u32;
    text.cells[0].value = Value::Number(total.min(NONE));
    text.cells[1].value = Value::Number(count);
    if let Some(&(_, span)) = text.names.get(most_met(&text.names)) {
        text.cells[1].span = span;
    }
    let words = text.cells.iter().map(|cell| u32::from(cell.kind) << 24 | value(cell) & NONE).collect();
    let spans = text.cells.iter().map(|cell| cell.span).collect();
    Ok(Made { words, spans, naming, numbers, text })
}

/// The index of the first name that is one too many; the empty text counts whether it is met or not.
fn most_met(names: &[(Key, Span)]) -> usize {
    if let Some(far) = names.iter().position(|(key, _)| matches!(key, Key::Number(n) if *n as usize >= MAX_NAMES)) {
        return far;
    }
    let empty = names.iter().position(|(key, _)| *key == Key::Text(vec![]));
    if empty.is_some_and(|at| at < MAX_NAMES) { MAX_NAMES } else { MAX_NAMES - 1 }
}

/// Names have texts throughout, or numbers; only the empty text is also @0.
fn one_way_of_naming(text: &Text) -> Parsed<()> {
    let named = || text.names.iter().filter(|(key, _)| *key != Key::Text(vec![]));
    let Some((first, _)) = named().next() else { return Ok(()) };
    let by_number = |key: &Key| matches!(key, Key::Number(_));
    match named().find(|(key, _)| by_number(key) != by_number(first)) {
        Some((Key::Number(_), span)) => bad(*span, "expected a text: the names before this one are texts, not numbers"),
        Some((_, span)) => bad(*span, "expected @ and a number: the names before this one are numbers"),
        None => Ok(()),
    }
}

/// The naming, the number of each name of the text, and how many names there are.
fn numbered(text: &Text) -> (Naming, Vec<u32>, u32) {
    let texts: BTreeSet<&[u8]> = text.names.iter().filter_map(|(key, _)| text_of(key)).chain([&[][..]]).collect();
    let by_number = text.names.iter().filter_map(|(key, _)| if let Key::Number(n) = key { Some(*n) } else { None });
    if let Some(highest) = by_number.max() {
        let number = |key: &Key| if let Key::Number(n) = key { *n } else { 0 };
        let numbers = text.names.iter().map(|(key, _)| number(key)).collect();
        return (Naming::Numbers, numbers, highest + 1);
    }
    let texts: Vec<Vec<u8>> = texts.into_iter().map(<[u8]>::to_vec).collect();
    let number =
        |key: &Key| text_of(key).and_then(|t| texts.binary_search_by(|x| x.as_slice().cmp(t)).ok()).unwrap_or(0);
    let numbers = text.names.iter().map(|(key, _)| number(key) as u32).collect();
    let count = texts.len() as u32;
    (Naming::Texts(texts), numbers, count)
}

fn text_of(key: &Key) -> Option<&[u8]> {
    if let Key::Text(text) = key { Some(text) } else { None }
}
