//! The grammar: tokens become the cells of a pack, one for each word, with names still as texts.

mod records;
mod trees;

use crate::lex::{Comment, Lexed, Parsed, Sort, Span, Token, bad, lex};
use crate::limits::most;
use crate::nodes;
use crate::pack::NONE;
use crate::words::nearest;
use std::collections::HashMap;

/// A word of the pack to be, with the part of the text that it stands for.
pub struct Cell {
    pub kind: u8,
    pub value: Value,
    pub span: Span,
}

#[derive(Clone, Copy)]
pub enum Value {
    Number(u32),
    /// An index into the names of the text.
    Name(usize),
}

#[derive(Clone, Debug, PartialEq, Eq, Hash)]
pub enum Key {
    Text(Vec<u8>),
    Number(u32),
}

/// What a word of the legend stands for: a number, or a whole node without children.
#[derive(Clone, Copy, Debug, PartialEq, Eq)]
pub enum Legend {
    Number(u32),
    Node(u8, u32),
}

/// A statement of the header, with the tokens that it is made of.
pub struct Statement {
    pub tokens: (usize, usize),
    pub says: Says,
}

pub enum Says {
    Let(String, Legend),
    /// Names that no word of the pack holds.
    Unused(Vec<usize>),
    Defaulted(Vec<usize>),
}

/// A text, taken apart.
pub struct Text {
    pub cells: Vec<Cell>,
    /// The names in the order in which they are met, with where that is.
    pub names: Vec<(Key, Span)>,
    pub header: Vec<Statement>,
    pub legend: HashMap<String, Legend>,
    /// The words of the legend that stand for something, by place.
    pub uses: HashMap<usize, String>,
    /// The tokens that a record, a clause or a node is made of, by place.
    pub ranges: HashMap<usize, (usize, usize)>,
    pub comments: Vec<Comment>,
}

const STATEMENTS: [&str; 7] = ["pack", "let", "unused", "defaulted", "relation", "rule", "inputs"];

pub fn parse(text: &str) -> Parsed<Text> {
    let Lexed { tokens, comments } = lex(text)?;
    let mut parser = Parser {
        tokens,
        at: 0,
        known: HashMap::new(),
        out: Text {
            cells: vec![],
            names: vec![],
            header: vec![],
            legend: HashMap::new(),
            uses: HashMap::new(),
            ranges: HashMap::new(),
            comments,
        },
    };
    parser.pack()?;
    Ok(parser.out)
}

struct Parser {
    tokens: Vec<Token>,
    at: usize,
    known: HashMap<Key, usize>,
    out: Text,
}

/// A counted list that is being read: where its count goes, how many it may have and how many it has.
struct Counted {
    place: usize,
    most: u32,
    count: u32,
}

impl Parser {
    // ---- tokens

    fn token(&self) -> &Token {
        // The last token is the end, and it is never passed.
        &self.tokens[self.at.min(self.tokens.len() - 1)]
    }

    fn span(&self) -> Span {
        self.token().span
    }

    fn pass(&mut self) -> Token {
        let token = self.token().clone();
        self.at = (self.at + 1).min(self.tokens.len() - 1);
        token
    }

    fn sees(&self, word: &str) -> bool {
        matches!(&self.token().sort, Sort::Word(w) if w == word)
    }

    fn passes(&mut self, word: &str) -> bool {
        let sees = self.sees(word);
        if sees {
            self.pass();
        }
        sees
    }

    fn found(&self) -> String {
        match &self.token().sort {
            Sort::Word(word) => format!("`{word}`"),
            Sort::Quoted(text) => format!("the name {}", crate::names::written(text)),
            Sort::Number(number) => format!("the number {number}"),
            Sort::At(number) => format!("the name @{number}"),
            Sort::Open => "`(`".into(),
            Sort::Close => "`)`".into(),
            Sort::Comma => "`,`".into(),
            Sort::Equals => "`=`".into(),
            Sort::Arrow => "`->`".into(),
            Sort::End => "the end of the text".into(),
        }
    }

    fn expected<T>(&self, what: &str) -> Parsed<T> {
        bad(self.span(), format!("expected {what}, found {}", self.found()))
    }

    fn word(&mut self, word: &str, before: &str) -> Parsed<Span> {
        if !self.sees(word) {
            return self.expected(&format!("`{word}` {before}"));
        }
        Ok(self.pass().span)
    }

    fn sign(&mut self, sort: Sort, what: &str) -> Parsed<()> {
        if self.token().sort != sort {
            return self.expected(what);
        }
        self.pass();
        Ok(())
    }

    fn number(&mut self, what: &str) -> Parsed<(u32, Span)> {
        match self.token().sort {
            Sort::Number(number) => Ok((number, self.pass().span)),
            _ => self.expected(what),
        }
    }

    // ---- names

    fn name(&mut self, what: &str) -> Parsed<(usize, Span)> {
        let key = match &self.token().sort {
            Sort::Word(word) if crate::words::is_reserved(word) => {
                let message =
                    format!("expected {what}, found the word `{word}`; a name that reads so is written in quotes");
                return bad(self.span(), message);
            }
            Sort::Word(word) => Key::Text(word.clone().into_bytes()),
            Sort::Quoted(text) => Key::Text(text.clone()),
            Sort::At(number) => Key::Number(*number),
            _ => return self.expected(what),
        };
        let span = self.pass().span;
        Ok((self.known(key, span), span))
    }

    fn known(&mut self, key: Key, span: Span) -> usize {
        let names = &mut self.out.names;
        *self.known.entry(key.clone()).or_insert_with(|| {
            names.push((key, span));
            names.len() - 1
        })
    }

    fn name_or_none(&mut self, what: &str) -> Parsed<(Option<usize>, Span)> {
        if self.sees("none") {
            return Ok((None, self.pass().span));
        }
        self.name(what).map(|(name, span)| (Some(name), span))
    }

    fn names(&mut self, what: &str) -> Parsed<Vec<(usize, Span)>> {
        let mut names = vec![self.name(what)?];
        while self.token().sort == Sort::Comma {
            self.pass();
            names.push(self.name(what)?);
        }
        Ok(names)
    }

    // ---- cells

    fn put(&mut self, kind: u8, value: u32, span: Span) {
        self.out.cells.push(Cell { kind, value: Value::Number(value), span });
    }

    fn put_name(&mut self, kind: u8, name: Option<usize>, span: Span) {
        let value = name.map_or(Value::Number(NONE), Value::Name);
        self.out.cells.push(Cell { kind, value, span });
    }

    fn counted(&mut self, kind: u8, span: Span) -> Counted {
        self.put(kind, 0, span);
        let most = most(kind).map_or(u32::MAX, |(most, _)| most as u32);
        Counted { place: self.out.cells.len() - 1, most, count: 0 }
    }

    /// One element more, which begins at the token at hand.
    fn one_more(&mut self, counted: &mut Counted) {
        self.one_more_at(counted, self.span());
    }

    /// One element more. The first that is too many is what the count points at.
    fn one_more_at(&mut self, counted: &mut Counted, span: Span) {
        counted.count += 1;
        let cell = &mut self.out.cells[counted.place];
        cell.value = Value::Number(counted.count);
        if counted.count == counted.most.saturating_add(1) {
            cell.span = span;
        }
    }

    fn here(&self) -> usize {
        self.out.cells.len()
    }

    fn range(&mut self, place: usize, start: usize) {
        self.out.ranges.insert(place, (start, self.at));
    }

    // ---- the pack

    fn pack(&mut self) -> Parsed<()> {
        if !self.sees("pack") {
            return self.expected("`pack`, the first word of a pack's text");
        }
        let span = self.pass().span;
        self.put(1, 0, span);
        self.put(2, 0, span);
        let mut defaulted = vec![];
        while self.header(&mut defaulted)? {}
        let mut counted = self.counted(3, span);
        for (name, span) in defaulted {
            self.one_more_at(&mut counted, span);
            self.put_name(4, Some(name), span);
        }
        let mut relations = self.counted(5, span);
        while self.sees("relation") {
            self.one_more(&mut relations);
            self.relation()?;
        }
        let mut rules = self.counted(22, span);
        while self.sees("rule") {
            self.one_more(&mut rules);
            self.rule()?;
        }
        let mut blocks = self.counted(28, span);
        while self.sees("inputs") {
            self.one_more(&mut blocks);
            self.inputs()?;
        }
        self.end(relations.count > 0, rules.count > 0, blocks.count > 0)
    }

    /// The end of the text, or what is wrong with the statement that stands here.
    fn end(&self, relations: bool, rules: bool, blocks: bool) -> Parsed<()> {
        let Sort::Word(word) = &self.token().sort else {
            return match self.token().sort {
                Sort::End => Ok(()),
                _ => self.expected("`relation`, `rule`, `inputs` or the end of the text"),
            };
        };
        let first = if relations {
            "relation"
        } else if rules {
            "rule"
        } else {
            "block of inputs"
        };
        let message = match word.as_str() {
            "let" | "unused" | "defaulted" => format!("`{word}` stands before the first {first}"),
            "relation" if rules => "a relation stands before the first rule".into(),
            "relation" | "rule" if blocks => format!("a {word} stands before the first block of inputs"),
            "pack" => "`pack` stands once, at the beginning".into(),
            _ => {
                let meant =
                    nearest(word, STATEMENTS.into_iter()).map_or(String::new(), |w| format!("; is `{w}` meant?"));
                let due = match (relations, rules, blocks) {
                    (_, _, true) => "`item`, `inputs` or the end of the text",
                    (_, true, _) => "`scalar`, `judgment`, `rule`, `inputs` or the end of the text",
                    _ => "`relation`, `rule`, `inputs` or the end of the text",
                };
                format!("expected {due}, found `{word}`{meant}")
            }
        };
        bad(self.span(), message)
    }

    // ---- the header

    fn header(&mut self, defaulted: &mut Vec<(usize, Span)>) -> Parsed<bool> {
        let start = self.at;
        let says = if self.passes("let") {
            self.legend()?
        } else if self.passes("unused") {
            Says::Unused(self.names("a name")?.into_iter().map(|(name, _)| name).collect())
        } else if self.passes("defaulted") {
            let names = self.names("the name of a relation whose slots are left to the default")?;
            defaulted.extend(&names);
            Says::Defaulted(names.into_iter().map(|(name, _)| name).collect())
        } else {
            return Ok(false);
        };
        self.out.header.push(Statement { tokens: (start, self.at), says });
        Ok(true)
    }

    fn legend(&mut self) -> Parsed<Says> {
        let word = match &self.token().sort {
            Sort::Word(word) if !crate::words::is_reserved(word) => word.clone(),
            Sort::Word(word) => {
                return bad(self.span(), format!("`{word}` is a word of the text form; the legend needs another"));
            }
            _ => return self.expected("a word for the legend"),
        };
        if self.out.legend.contains_key(&word) {
            return bad(self.span(), format!("the legend has `{word}` already"));
        }
        self.pass();
        self.sign(Sort::Equals, "`=` after the legend's word")?;
        let kinds = [("leaf", nodes::LEAF), ("same", nodes::SAME), ("role", nodes::ROLE)];
        let node = kinds.into_iter().find(|(head, _)| self.sees(head));
        let meaning = match node {
            Some((head, kind)) => {
                self.pass();
                Legend::Node(kind, self.number(&format!("a number after `{head}`"))?.0)
            }
            None => Legend::Number(self.number("a number, `leaf`, `same` or `role`")?.0),
        };
        self.out.legend.insert(word.clone(), meaning);
        Ok(Says::Let(word, meaning))
    }
}
