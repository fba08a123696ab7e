//! Trees: scalars and judgments.

use super::{Legend, Parser, Value};
use crate::lex::{Parsed, Sort, Span, bad};
use crate::nodes;
use crate::words::nearest;

/// Trees may be nested this deep in a text. The library refuses them much earlier.
const DEEPEST: usize = 256;

impl Parser {
    pub(super) fn tree(&mut self, judgment: bool, depth: usize) -> Parsed<()> {
        let (start, place, span) = (self.at, self.here(), self.span());
        if depth > DEEPEST {
            return bad(span, format!("trees are nested deeper than {DEEPEST} here"));
        }
        let Sort::Word(word) = self.token().sort.clone() else { return self.no_tree(judgment, "") };
        match (nodes::kind_of(&word, judgment), self.out.legend.get(&word)) {
            (Some(kind), _) => {
                self.pass();
                self.node(kind, span, depth)?;
            }
            (_, Some(&Legend::Node(kind, value))) if nodes::fits(kind, judgment) => {
                self.pass();
                self.put(kind, value, span);
                self.out.uses.insert(place, word);
            }
            _ => return self.no_tree(judgment, &word),
        }
        self.range(place, start);
        Ok(())
    }

    fn no_tree<T>(&self, judgment: bool, word: &str) -> Parsed<T> {
        let [due, other] = if judgment { ["a judgment", "scalar"] } else { ["a scalar", "judgment"] };
        let heads = || nodes::heads(judgment).iter().map(|&(head, _)| head);
        let fits = |legend: &Legend| matches!(legend, Legend::Node(kind, _) if nodes::fits(*kind, judgment));
        let legend = || self.out.legend.iter().filter(|(_, l)| fits(l)).map(|(word, _)| word.as_str());
        let message = if nodes::kind_of(word, !judgment).is_some() {
            format!("expected {due}, found the {other} `{word}`")
        } else if let Some(Legend::Number(_)) = self.out.legend.get(word) {
            format!("expected {due}, found `{word}`, which is a number of the legend")
        } else if self.out.legend.contains_key(word) {
            format!("expected {due}, found `{word}`, which is a {other} of the legend")
        } else if let Some(meant) = nearest(word, heads().chain(legend())).filter(|_| !word.is_empty()) {
            format!("expected {due}, found `{word}`; is `{meant}` meant?")
        } else {
            let heads = heads().map(|head| format!("`{head}`")).collect::<Vec<_>>().join(", ");
            format!("expected {due}, found {}; one begins with {heads} or a word of the legend", self.found())
        };
        bad(self.span(), message)
    }

    /// A number that the library does not read, or a word of the legend for one. Its cell is the next.
    fn opaque(&mut self, what: &str) -> Parsed<(u32, Span)> {
        let place = self.here();
        let Sort::Word(word) = self.token().sort.clone() else { return self.number(what) };
        match self.out.legend.get(&word) {
            Some(&Legend::Number(number)) => {
                self.out.uses.insert(place, word);
                Ok((number, self.pass().span))
            }
            Some(_) => bad(self.span(), format!("expected {what}, found `{word}`, which is a node of the legend")),
            None => self.expected(what),
        }
    }

    /// A node whose first word was passed.
    fn node(&mut self, kind: u8, span: Span, depth: usize) -> Parsed<()> {
        match kind {
            _ if nodes::opaque_value(kind) => {
                let head = nodes::word_of(kind);
                let (value, _) = self.opaque(&format!("a number or a word of the legend after `{head}`"))?;
                self.put(kind, value, span);
                let (_, scalars) = nodes::children(kind, value, false);
                if scalars > 0 { self.children(false, Some(scalars), head, depth).map(|_| ()) } else { Ok(()) }
            }
            65 | 105 => {
                let (name, at) = self.name("the name that is derived")?;
                self.put_name(kind, Some(name), at);
                Ok(())
            }
            68..=70 | 97..=99 => {
                let place = self.here();
                self.put(kind, 0, span);
                let count = self.children(kind >= 96, None, nodes::word_of(kind), depth)?;
                self.out.cells[place].value = Value::Number(count);
                Ok(())
            }
            nodes::NOT => {
                self.put(kind, 0, span);
                self.children(true, Some(1), "not", depth).map(|_| ())
            }
            nodes::IF => self.condition(span, depth),
            nodes::NO_MATCH => self.no_match(span, depth),
            nodes::PERIODS => self.periods(span, depth),
            nodes::ATOM | nodes::EXISTS => self.atom(kind, span, depth),
            _ => self.related(kind, span, depth),
        }
    }

    /// Trees of one sort in parentheses. Answers how many there are; `due` says how many there must be.
    fn children(&mut self, judgment: bool, due: Option<u32>, head: &str, depth: usize) -> Parsed<u32> {
        let what = if judgment { "a judgment" } else { "a scalar" };
        self.sign(Sort::Open, &format!("`(` after `{head}`"))?;
        let mut count = 0;
        loop {
            let close = self.span();
            if !self.more(count == 0, what)? {
                return match due {
                    Some(due) if due != count => bad(close, format!("{}, found {count}", takes(head, due, judgment))),
                    _ => Ok(count),
                };
            }
            if due == Some(count) {
                return bad(self.span(), format!("expected `)`: {}", takes(head, count, judgment)));
            }
            self.tree(judgment, depth + 1)?;
            count += 1;
        }
    }

    fn condition(&mut self, span: Span, depth: usize) -> Parsed<()> {
        self.put(nodes::IF, 0, span);
        self.tree(true, depth + 1)?;
        self.word("then", "after the judgment of `if`")?;
        self.tree(false, depth + 1)?;
        self.word("else", "after what follows `then`")?;
        self.tree(false, depth + 1)
    }

    fn no_match(&mut self, span: Span, depth: usize) -> Parsed<()> {
        let place = self.here();
        self.put(nodes::NO_MATCH, 0, span);
        self.tree(false, depth + 1)?;
        self.word("in", "and the patterns of `nomatch`")?;
        let count = self.children(false, None, "in", depth)?;
        self.out.cells[place].value = Value::Number(count);
        Ok(())
    }

    fn periods(&mut self, span: Span, depth: usize) -> Parsed<()> {
        let (value, at) = self.number("a number from 0 to 7 after `periods`")?;
        self.put(nodes::PERIODS, value, if value > 7 { at } else { span });
        let head = format!("periods {value}");
        self.children(false, Some(1 + value % 2), &head, depth).map(|_| ())
    }

    /// What follows `of`, or 0 where that is not written.
    fn beside(&mut self, kind: u8, span: Span) -> Parsed<()> {
        let (value, span) = match self.passes("of") {
            true => self.opaque("a number or a word of the legend after `of`")?,
            false => (0, span),
        };
        self.put(kind, value, span);
        Ok(())
    }

    fn atom(&mut self, kind: u8, span: Span, depth: usize) -> Parsed<()> {
        let (name, _) = self.name("the relation")?;
        self.put_name(kind, Some(name), span);
        self.beside(85, span)?;
        if kind == nodes::EXISTS { self.children(true, Some(1), "exists", depth).map(|_| ()) } else { Ok(()) }
    }

    /// An aggregate, OnlyRelated or a membership test.
    fn related(&mut self, kind: u8, span: Span, depth: usize) -> Parsed<()> {
        let (name, _) = self.name("the relation")?;
        self.put_name(kind, Some(name), span);
        self.slots(80, "the current slot, a number")?;
        match kind {
            nodes::MEMBER => Ok(()),
            nodes::ONLY => {
                let derived = self.passes("derived");
                if !derived && !self.passes("input") {
                    return self.expected("`input` or `derived` and what `only` asks for");
                }
                let (name, span) = self.name("the name that `only` asks for")?;
                self.put_name(if derived { 84 } else { 82 }, Some(name), span);
                Ok(())
            }
            _ => {
                self.beside(86, span)?;
                let tree = self.passes("where");
                self.put(83, tree.into(), span);
                if tree { self.tree(true, depth + 1) } else { Ok(()) }
            }
        }
    }
}

/// How many children a node takes.
fn takes(head: &str, count: u32, judgment: bool) -> String {
    let sort = if judgment { "judgment" } else { "scalar" };
    format!("`{head}` takes {count} {sort}{}", if count == 1 { "" } else { "s" })
}
