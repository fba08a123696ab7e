//! The names of a pack: texts in byte order, the empty one first; or bare numbers where there are no texts.

use crate::words;
use std::fmt::Write;

/// The most bytes that a name may have: its length stands in one byte of a name list.
pub const LONGEST: usize = 255;

#[derive(Clone, Debug, PartialEq, Eq)]
pub enum Naming {
    Texts(Vec<Vec<u8>>),
    Numbers,
}

impl Naming {
    /// A name as texts write it.
    pub fn show(&self, name: u32) -> String {
        match self {
            Naming::Texts(texts) => texts.get(name as usize).map_or_else(|| format!("@{name}"), |text| written(text)),
            Naming::Numbers => format!("@{name}"),
        }
    }

    pub fn show_or_none(&self, name: Option<u32>) -> String {
        name.map_or("none".to_string(), |name| self.show(name))
    }

    /// Names between parentheses.
    pub fn list(&self, names: &[u32]) -> String {
        format!("({})", self.joined(names))
    }

    pub fn joined(&self, names: &[u32]) -> String {
        names.iter().map(|&name| self.show(name)).collect::<Vec<_>>().join(", ")
    }

    /// Whether an origin is the one that the name itself gives: its text before the first '#', or none without one.
    pub fn is_usual(&self, name: u32, origin: Option<u32>) -> bool {
        let Naming::Texts(texts) = self else { return origin.is_none() };
        let text = |name: u32| texts.get(name as usize).map(Vec::as_slice);
        text(name).and_then(origin_of) == origin.and_then(text)
    }

    /// The number of a name given on the command line: its text, with or without quotes, or `@` and a number.
    pub fn find(&self, asked: &str) -> Option<u32> {
        match self {
            Naming::Texts(texts) => {
                let number = |text: &[u8]| texts.iter().position(|t| t == text).map(|i| i as u32);
                let quoted = || texts.iter().position(|t| written(t) == asked).map(|i| i as u32);
                number(asked.as_bytes()).or_else(quoted)
            }
            Naming::Numbers => asked.strip_prefix('@').unwrap_or(asked).parse().ok(),
        }
    }

    /// The name list: a length byte and the bytes for each name.
    pub fn to_list(&self) -> Option<Vec<u8>> {
        let Naming::Texts(texts) = self else { return None };
        let one = |text: &Vec<u8>| [&[text.len().min(LONGEST) as u8], text.as_slice()].concat();
        Some(texts.iter().flat_map(one).collect())
    }

    /// Reads a name list of a pack with so many names.
    pub fn from_list(bytes: &[u8], names: u32) -> Result<Naming, String> {
        let mut texts: Vec<Vec<u8>> = vec![];
        let mut rest = bytes;
        while let Some((&length, more)) = rest.split_first() {
            let Some(text) = more.get(..length as usize) else {
                return Err(format!("the name list ends within name {}", texts.len()));
            };
            rest = &more[text.len()..];
            match texts.last() {
                None if !text.is_empty() => {
                    return Err("the first name of a name list is the empty text; here it is not".into());
                }
                Some(before) if before.as_slice() >= text => {
                    let [before, after] = [before, text].map(written);
                    return Err(format!(
                        "the names of a name list rise in byte order; here {after} comes after {before}"
                    ));
                }
                _ => texts.push(text.to_vec()),
            }
        }
        if texts.len() != names as usize {
            return Err(format!("the name list has {} names and the pack {names}", texts.len()));
        }
        Ok(Naming::Texts(texts))
    }
}

/// The text before the first '#'.
pub fn origin_of(text: &[u8]) -> Option<&[u8]> {
    text.iter().position(|&b| b == b'#').map(|at| &text[..at])
}

pub fn begins_name(c: char) -> bool {
    c.is_alphabetic() || c == '_'
}

pub fn in_name(c: char) -> bool {
    c.is_alphanumeric() || "_-./:#".contains(c)
}

/// A text as it is written in a pack's text: bare, or in quotes.
pub fn written(text: &[u8]) -> String {
    match std::str::from_utf8(text) {
        Ok(plain) if is_bare(plain) => plain.to_string(),
        _ => quoted(text),
    }
}

fn is_bare(text: &str) -> bool {
    text.starts_with(begins_name) && text.chars().all(in_name) && !words::is_reserved(text)
}

fn quoted(text: &[u8]) -> String {
    let mut out = String::from("\"");
    for part in text.utf8_chunks() {
        for c in part.valid().chars() {
            match c {
                '"' | '\\' => out.extend(['\\', c]),
                '\n' => out.push_str("\\n"),
                '\t' => out.push_str("\\t"),
                ' '..='~' => out.push(c),
                _ if c.is_alphanumeric() => out.push(c),
                _ => _ = write!(out, "\\u{{{:X}}}", c as u32),
            }
        }
        for byte in part.invalid() {
            _ = write!(out, "\\x{byte:02X}");
        }
    }
    out.push('"');
    out
}
