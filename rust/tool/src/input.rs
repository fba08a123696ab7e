//! Packs as they are handed over: as text, as hexadecimal words or as bytes, told apart by what they hold.

use crate::lex::Span;
use crate::make::{Made, make};
use crate::names::Naming;
use crate::point::pointed;
use crate::trouble::{Outcome, Trouble, unusable};
use std::fs::File;
use std::io::{self, Read};

#[derive(Clone, Copy, Debug, PartialEq, Eq)]
pub enum Form {
    Text,
    Hex,
    Bytes,
}

pub struct Input {
    /// As it is shown.
    pub file: String,
    pub form: Form,
    /// The pack, four bytes a word.
    pub bytes: Vec<u8>,
    pub words: Vec<u32>,
    pub naming: Naming,
    /// The text or the hexadecimal words; empty where the pack came as bytes.
    pub content: String,
    /// What each word stands for in the content.
    pub spans: Vec<Span>,
    /// The text, taken apart.
    pub made: Option<Made>,
}

/// No file that is read may have more bytes.
const MOST_BYTES: u64 = 16 << 20;

/// Reads a pack from a file, or from standard input where that is `-`.
pub fn load(file: &str, names: Option<&str>) -> Outcome<Input> {
    if file == "-" && names == Some("-") {
        return Err(unusable("standard input: this cannot be both the pack and the list of its names"));
    }
    let bytes = read_file(file)?;
    let shown = if file == "-" { "standard input" } else { file };
    if bytes.is_empty() {
        let due = "expected a text that begins with `pack`, a pack's bytes, or hexadecimal words";
        return Err(unusable(format!("{shown}: this is empty; {due}")));
    }
    if bytes.starts_with(&[0xFF, 0xFE]) || bytes.starts_with(&[0xFE, 0xFF]) {
        return Err(unusable(format!("{shown}: this is a text in UTF-16; save it in UTF-8")));
    }
    let mut input = match form_of(&bytes) {
        Form::Bytes => from_bytes(shown, bytes),
        Form::Hex => from_hex(shown, text_of(shown, bytes)?)?,
        Form::Text => from_text(shown, text_of(shown, bytes)?)?,
    };
    if let Some(list) = names {
        input.naming = named(&input, list)?;
    }
    Ok(input)
}

/// All bytes of a file or of standard input.
pub fn read_file(file: &str) -> Outcome<Vec<u8>> {
    let trouble = |error: io::Error| unusable(format!("{file}: {}", in_words(&error)));
    let mut bytes = vec![];
    if file.is_empty() {
        return Err(unusable("cogunwa: a file is given without a name"));
    }
    if file == "-" {
        io::stdin().lock().take(MOST_BYTES + 1).read_to_end(&mut bytes).map_err(trouble)?;
    } else {
        let open = File::open(file).map_err(trouble)?;
        if open.metadata().map_err(trouble)?.is_dir() {
            return Err(unusable(format!("{file}: this is a folder; expected a file with a pack")));
        }
        open.take(MOST_BYTES + 1).read_to_end(&mut bytes).map_err(trouble)?;
    }
    if bytes.len() as u64 > MOST_BYTES {
        return Err(unusable(format!("{file}: this has more than {MOST_BYTES} bytes; no pack needs so many")));
    }
    Ok(bytes)
}

pub fn in_words(error: &io::Error) -> String {
    match error.kind() {
        io::ErrorKind::NotFound => "there is no such file".into(),
        io::ErrorKind::PermissionDenied => "the permission is missing".into(),
        io::ErrorKind::IsADirectory => "this is a folder; expected a file".into(),
        _ => error.to_string(),
    }
}

/// The first word of every pack has a byte 0, which no text has.
fn form_of(bytes: &[u8]) -> Form {
    if bytes.contains(&0) {
        return Form::Bytes;
    }
    let bytes = bytes.strip_prefix("\u{FEFF}".as_bytes()).unwrap_or(bytes);
    let lines = bytes.split(|b| matches!(b, b'\n' | b'\r'));
    let parts = lines.map(|line| line.split(|&b| b == b'#').next().unwrap_or(line));
    let first = parts.flat_map(|line| line.split(u8::is_ascii_whitespace)).find(|part| !part.is_empty());
    let digits = |part: &[u8]| part.len() == 8 && part.iter().all(u8::is_ascii_hexdigit);
    if first.is_some_and(digits) { Form::Hex } else { Form::Text }
}

/// The text that the bytes are. A carriage return that ends a line by itself becomes a line feed.
fn text_of(file: &str, mut bytes: Vec<u8>) -> Outcome<String> {
    for at in 0..bytes.len() {
        if bytes[at] == b'\r' && bytes.get(at + 1) != Some(&b'\n') {
            bytes[at] = b'\n';
        }
    }
    String::from_utf8(bytes).map_err(|error| {
        let at = error.utf8_error().valid_up_to();
        let text = String::from_utf8_lossy(error.as_bytes());
        let span = Span { start: at, end: at + 1 };
        unusable(pointed(file, &text, span, "expected UTF-8 here; save the text in that encoding"))
    })
}

/// A pack that comes as bytes.
pub fn from_bytes(file: &str, bytes: Vec<u8>) -> Input {
    let words = cogunwa::words_of(&bytes);
    let (content, spans) = (String::new(), vec![]);
    Input { file: file.into(), form: Form::Bytes, bytes, words, naming: Naming::Numbers, content, spans, made: None }
}

/// A pack that comes as hexadecimal words.
pub fn from_hex(file: &str, content: String) -> Outcome<Input> {
    let (mut words, mut spans) = (vec![], vec![]);
    // `#` begins a comment, to the end of its line; a byte order mark at the start is passed over.
    let text = content.strip_prefix('\u{FEFF}').unwrap_or(&content);
    let lines = text.lines().map(|line| line.split('#').next().unwrap_or(line));
    for part in lines.flat_map(str::split_ascii_whitespace) {
        let start = part.as_ptr() as usize - content.as_ptr() as usize;
        let span = Span { start, end: start + part.len() };
        let plain = part.len() == 8 && part.bytes().all(|b| b.is_ascii_hexdigit());
        let Some(word) = u32::from_str_radix(part, 16).ok().filter(|_| plain) else {
            let message = "expected a word of eight hexadecimal digits";
            return Err(unusable(pointed(file, &content, span, message)));
        };
        words.push(word);
        spans.push(span);
    }
    let (bytes, naming) = (cogunwa::bytes_of(&words), Naming::Numbers);
    Ok(Input { file: file.into(), form: Form::Hex, bytes, words, naming, content, spans, made: None })
}

/// A pack that comes as text.
pub fn from_text(file: &str, content: String) -> Outcome<Input> {
    let made = make(&content).map_err(|b| unusable(pointed(file, &content, b.span, &b.message)))?;
    let (words, spans, naming) = (made.words.clone(), made.spans.clone(), made.naming.clone());
    let (file, bytes, made) = (file.to_string(), cogunwa::bytes_of(&words), Some(made));
    Ok(Input { file, form: Form::Text, bytes, words, naming, content, spans, made })
}

/// The names that a list gives to a pack. For words that are no pack the list does not count.
fn named(input: &Input, list: &str) -> Outcome<Naming> {
    if input.form == Form::Text {
        return Err(unusable(format!("{}: a text has its names itself; --names is for bytes and words", input.file)));
    }
    let texts = read_file(list)?;
    if cogunwa::check(&input.bytes).is_err() {
        return Ok(Naming::Numbers);
    }
    let names = input.words.get(1).map_or(0, |word| word & crate::pack::NONE);
    Naming::from_list(&texts, names).map_err(|message| unusable(format!("{list}: {message}")))
}

impl Form {
    pub fn called(self) -> &'static str {
        match self {
            Form::Text => "a text",
            Form::Hex => "hexadecimal words",
            Form::Bytes => "bytes",
        }
    }
}

impl Input {
    /// A trouble at a word of a text or of hexadecimal words.
    pub fn pointed(&self, place: usize, message: &str) -> Option<String> {
        self.spans.get(place).map(|&span| pointed(&self.file, &self.content, span, message))
    }

    pub fn needs_text(&self) -> Result<&Made, Trouble> {
        self.made.as_ref().ok_or_else(|| {
            unusable(format!(
                "{}: expected a text, which begins with `pack`; these are {}",
                self.file,
                self.form.called()
            ))
        })
    }
}
