//! A text cut into tokens and comments.

use crate::names::{LONGEST, begins_name, in_name};
use crate::pack::NONE;

/// A part of the text, in bytes.
#[derive(Clone, Copy, Debug, PartialEq, Eq)]
pub struct Span {
    pub start: usize,
    pub end: usize,
}

/// Why a text is no pack's text, and where.
#[derive(Debug)]
pub struct Bad {
    pub span: Span,
    pub message: String,
}

pub type Parsed<T> = Result<T, Bad>;

pub fn bad<T>(span: Span, message: impl Into<String>) -> Parsed<T> {
    Err(Bad { span, message: message.into() })
}

#[derive(Clone, Debug, PartialEq, Eq)]
pub enum Sort {
    Word(String),
    Quoted(Vec<u8>),
    Number(u32),
    /// A name by its number.
    At(u32),
    Open,
    Close,
    Comma,
    Equals,
    Arrow,
    End,
}

#[derive(Clone, Debug)]
pub struct Token {
    pub sort: Sort,
    pub span: Span,
}

/// A comment, which stands before the token of this index.
#[derive(Clone, Debug)]
pub struct Comment {
    pub text: String,
    pub before: usize,
    /// Whether it has a line to itself.
    pub own_line: bool,
    pub blank_above: bool,
    pub blank_below: bool,
}

pub struct Lexed {
    pub tokens: Vec<Token>,
    pub comments: Vec<Comment>,
}

pub fn lex(text: &str) -> Parsed<Lexed> {
    let mut lexer = Lexer { text, at: 0, tokens: vec![], comments: vec![] };
    if text.starts_with('\u{FEFF}') {
        lexer.at = '\u{FEFF}'.len_utf8();
    }
    loop {
        lexer.gap();
        let token = lexer.token()?;
        let end = token.sort == Sort::End;
        lexer.tokens.push(token);
        if end {
            return Ok(Lexed { tokens: lexer.tokens, comments: lexer.comments });
        }
    }
}

struct Lexer<'a> {
    text: &'a str,
    at: usize,
    tokens: Vec<Token>,
    comments: Vec<Comment>,
}

impl Lexer<'_> {
    fn rest(&self) -> &str {
        &self.text[self.at..]
    }

    /// Passes over blanks, line ends and comments.
    fn gap(&mut self) {
        let mut lines = if self.tokens.is_empty() { 1 } else { 0 };
        let first = self.comments.len();
        loop {
            let rest = self.rest();
            let blank = rest.len() - rest.trim_start().len();
            lines += rest[..blank].matches('\n').count();
            self.at += blank;
            if !self.rest().starts_with('#') {
                break;
            }
            if self.comments.len() > first && lines > 1 {
                self.comments[first..].last_mut().into_iter().for_each(|c| c.blank_below = true);
            }
            self.comment(lines);
            lines = 0;
        }
        if self.comments.len() > first && lines > 1 {
            self.comments[first..].last_mut().into_iter().for_each(|c| c.blank_below = true);
        }
    }

    fn comment(&mut self, lines: usize) {
        let rest = self.rest();
        let line = &rest[..rest.find('\n').unwrap_or(rest.len())];
        let text = line[1..].trim_end().to_string();
        let length = line.len();
        let before = self.tokens.len();
        self.comments.push(Comment { text, before, own_line: lines > 0, blank_above: lines > 1, blank_below: false });
        self.at += length;
    }

    fn token(&mut self) -> Parsed<Token> {
        let start = self.at;
        let Some(c) = self.rest().chars().next() else {
            return Ok(Token { sort: Sort::End, span: Span { start, end: start } });
        };
        let sort = match c {
            '(' => self.one(Sort::Open),
            ')' => self.one(Sort::Close),
            ',' => self.one(Sort::Comma),
            '=' => self.one(Sort::Equals),
            '"' => Sort::Quoted(self.quoted()?),
            '@' => self.at_number()?,
            _ if self.rest().starts_with("->") => {
                self.at += 2;
                Sort::Arrow
            }
            _ if c.is_ascii_digit() => self.number()?,
            _ if begins_name(c) => self.word()?,
            _ => {
                let span = Span { start, end: start + c.len_utf8() };
                return bad(span, format!("expected a word, a name, a number or a sign of the text form, found {c:?}"));
            }
        };
        Ok(Token { sort, span: Span { start, end: self.at } })
    }

    fn one(&mut self, sort: Sort) -> Sort {
        self.at += 1;
        sort
    }

    /// The characters of a name or number from here on; an arrow ends them.
    fn run(&mut self) -> &str {
        let start = self.at;
        let rest = self.rest();
        let run = &rest[..rest.find(|c| !in_name(c)).unwrap_or(rest.len())];
        let arrow = run.ends_with('-') && rest[run.len()..].starts_with('>');
        self.at += run.len() - usize::from(arrow);
        &self.text[start..self.at]
    }

    fn word(&mut self) -> Parsed<Sort> {
        let start = self.at;
        let word = self.run().to_string();
        let end = self.at;
        if word.len() > LONGEST {
            return bad(
                Span { start, end },
                format!("a name has at most {LONGEST} bytes; this one has {}", word.len()),
            );
        }
        Ok(Sort::Word(word))
    }

    fn number(&mut self) -> Parsed<Sort> {
        let start = self.at;
        let digits = self.run().to_string();
        let span = Span { start, end: self.at };
        if !digits.bytes().all(|b| b.is_ascii_digit()) {
            return bad(span, "expected a number; a name that begins with a digit is written in quotes");
        }
        match digits.parse() {
            Ok(number) if number <= NONE => Ok(Sort::Number(number)),
            _ => bad(span, format!("expected a number of at most {NONE}")),
        }
    }

    fn at_number(&mut self) -> Parsed<Sort> {
        let start = self.at;
        self.at += 1;
        let digits = self.run().to_string();
        let span = Span { start, end: self.at };
        let plain = !digits.is_empty() && digits.bytes().all(|b| b.is_ascii_digit());
        match digits.parse() {
            Ok(number) if plain && number < NONE - 1 => Ok(Sort::At(number)),
            _ => bad(span, "expected @ and the number of a name, such as @7"),
        }
    }

    fn quoted(&mut self) -> Parsed<Vec<u8>> {
        let start = self.at;
        self.at += 1;
        let mut text = vec![];
        loop {
            let at = self.at;
            let next = self.rest().chars().next();
            let Some(c) = next.filter(|&c| c != '\n') else {
                return bad(Span { start, end: at }, "this name in quotes is not closed on its line");
            };
            self.at += c.len_utf8();
            match c {
                '"' => break,
                '\\' => self.escape(at, &mut text)?,
                _ => text.extend(c.encode_utf8(&mut [0; 4]).bytes()),
            }
        }
        let span = Span { start, end: self.at };
        if self.rest().starts_with(|c| in_name(c) || c == '"') {
            return bad(span, "expected a blank after the closing quote");
        }
        if text.len() > LONGEST {
            return bad(span, format!("a name has at most {LONGEST} bytes; this one has {}", text.len()));
        }
        Ok(text)
    }

    fn escape(&mut self, start: usize, text: &mut Vec<u8>) -> Parsed<()> {
        let rest = self.rest();
        let hexadecimal = |digits: &str| u32::from_str_radix(digits, 16).ok().filter(|_| !digits.starts_with('+'));
        let braced = || rest.strip_prefix("u{").and_then(|r| r.split_once('}')).map(|(digits, _)| digits);
        let (bytes, length) = match rest.chars().next() {
            Some(c @ ('"' | '\\')) => (vec![c as u8], 1),
            Some('n') => (vec![b'\n'], 1),
            Some('t') => (vec![b'\t'], 1),
            Some('x') => match rest.get(1..3).and_then(hexadecimal) {
                Some(byte) => (vec![byte as u8], 3),
                None => (vec![], 0),
            },
            Some('u') => match braced().and_then(hexadecimal).and_then(char::from_u32) {
                Some(c) => (c.to_string().into_bytes(), 3 + braced().map_or(0, str::len)),
                None => (vec![], 0),
            },
            _ => (vec![], 0),
        };
        if length == 0 {
            let shown = rest.chars().next().filter(|&c| c != '\n').map_or(0, char::len_utf8);
            let span = Span { start, end: self.at + shown };
            return bad(span, "expected \\\", \\\\, \\n, \\t, \\x and two hexadecimal digits, or \\u{..} here");
        }
        self.at += length;
        text.extend(bytes);
        Ok(())
    }
}
