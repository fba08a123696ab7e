//! A pack that Check accepts, with its records, and a text in which its places can be pointed at.

use crate::input::{Form, Input};
use crate::layout::layout;
use crate::lex::Span;
use crate::make::make;
use crate::pack::Pack;
use crate::point::{line_and_column, pointed};
use crate::read::read;
use crate::say;
use crate::trouble::{Outcome, disagreement, refused};

pub struct Accepted {
    pub input: Input,
    pub pack: Pack,
    /// The text in which places are pointed at: the input's own, or the one that `list` writes.
    pub text: String,
    pub title: String,
    spans: Vec<Span>,
}

/// Holds the input to the library's Check.
pub fn accept(input: Input) -> Outcome<Accepted> {
    if let Err(refusal) = cogunwa::check(&input.bytes) {
        return Err(refused(say::unaccepted(&input, refusal)));
    }
    let Some(pack) = read(&input.words) else {
        return Err(disagreement("Check accepts words that the tool cannot read"));
    };
    if input.form == Form::Text {
        let (text, title, spans) = (input.content.clone(), input.file.clone(), input.spans.clone());
        return Ok(Accepted { input, pack, text, title, spans });
    }
    let text = layout(&pack, &input.naming, None);
    let made = make(&text).ok().filter(|made| made.words == input.words);
    let Some(made) = made else {
        return Err(disagreement("the text of the pack does not give its words back"));
    };
    let title = format!("{}, listed", input.file);
    Ok(Accepted { input, pack, text, title, spans: made.spans })
}

impl Accepted {
    fn span(&self, place: usize) -> Span {
        self.spans.get(place).copied().unwrap_or(Span { start: 0, end: 0 })
    }

    pub fn pointed(&self, place: usize, message: &str) -> String {
        pointed(&self.title, &self.text, self.span(place), message)
    }

    pub fn line(&self, place: usize) -> usize {
        line_and_column(&self.text, self.span(place).start).0
    }

    pub fn show(&self, name: u32) -> String {
        self.input.naming.show(name)
    }

    /// The pack's text in the tool's layout, which must give the same words.
    pub fn laid_out(&self) -> Outcome<String> {
        let text = layout(&self.pack, &self.input.naming, self.input.made.as_ref());
        let same = make(&text).is_ok_and(|made| made.words == self.input.words);
        if same { Ok(text) } else { Err(disagreement("the text of the pack does not give its words back")) }
    }
}
