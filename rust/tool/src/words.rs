//! The words of the text form that are no names.

use crate::nodes;

/// Those that begin a statement or a clause, or stand in one.
const CLAUSES: [&str; 29] = [
    "pack",
    "let",
    "unused",
    "defaulted",
    "relation",
    "origin",
    "arity",
    "from",
    "path",
    "slots",
    "entity",
    "member",
    "kinds",
    "where",
    "rule",
    "for",
    "scalar",
    "judgment",
    "inputs",
    "item",
    "of",
    "boolean",
    "no",
    "sequence",
    "none",
    "then",
    "else",
    "in",
    "input",
];

/// Whether a word belongs to the text form, so that a name which reads the same is written in quotes.
pub fn is_reserved(word: &str) -> bool {
    CLAUSES.contains(&word) || [true, false].iter().any(|&judgment| nodes::kind_of(word, judgment).is_some())
}

/// The word of a list that was probably meant.
pub fn nearest<'a>(word: &str, among: impl Iterator<Item = &'a str>) -> Option<&'a str> {
    let most = if word.chars().count() < 4 { 1 } else { 2 };
    among.map(|w| (distance(word, w), w)).filter(|&(d, _)| d <= most).min_by_key(|&(d, _)| d).map(|(_, w)| w)
}

/// How many letters are put in, left out or changed.
fn distance(a: &str, b: &str) -> usize {
    let b: Vec<char> = b.chars().collect();
    let mut row: Vec<usize> = (0..=b.len()).collect();
    for (i, x) in a.chars().take(40).enumerate() {
        let mut before = row[0];
        row[0] = i + 1;
        for (j, y) in b.iter().enumerate() {
            let changed = before + usize::from(x != *y);
            before = row[j + 1];
            row[j + 1] = changed.min(row[j] + 1).min(before + 1);
        }
    }
    row[b.len()]
}
