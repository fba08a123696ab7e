//! Relations, rules and blocks of inputs.

use super::{Key, Parser, Value};
use crate::lex::{Parsed, Sort, Span};
use crate::pack::NONE;

impl Parser {
    pub(super) fn relation(&mut self) -> Parsed<()> {
        let (start, place) = (self.at, self.here());
        self.pass();
        let (name, span) = self.name("the name of the relation")?;
        self.put_name(6, Some(name), span);
        self.origin(7, name, span)?;
        let arity = if self.passes("arity") { Some(self.number("the number of slots")?) } else { None };
        self.put(8, 0, arity.map_or(span, |(_, span)| span));
        let at = self.here() - 1;
        let kinds = self.kinds(9)?;
        let usual = if kinds == 0 { 2 } else { kinds };
        self.out.cells[at].value = Value::Number(arity.map_or(usual, |(number, _)| number));
        self.range(place, start);
        if !self.sees("from") {
            self.put(11, 0, span);
            return Ok(());
        }
        self.derivation()
    }

    /// The origin that is written, or the one that the name gives.
    fn origin(&mut self, kind: u8, name: usize, span: Span) -> Parsed<()> {
        let (origin, span) = if self.passes("origin") {
            self.name_or_none("the name of the origin, or `none`")?
        } else {
            let text = match &self.out.names[name].0 {
                Key::Text(text) => crate::names::origin_of(text).map(<[u8]>::to_vec),
                Key::Number(_) => None,
            };
            (text.map(|text| self.known(Key::Text(text), span)), span)
        };
        self.put_name(kind, origin, span);
        Ok(())
    }

    /// A list of kinds in parentheses. Answers how many there are.
    fn kinds(&mut self, kind: u8) -> Parsed<u32> {
        let span = self.span();
        self.sign(Sort::Open, "`(` before the kinds of the slots")?;
        let mut counted = self.counted(kind, span);
        while self.more(counted.count == 0, "a kind or `)`")? {
            self.one_more(&mut counted);
            let (name, span) = self.name("the kind of a slot")?;
            self.put_name(10, Some(name), span);
        }
        Ok(counted.count)
    }

    /// Whether another element follows in parentheses; passes over the comma before it, or over the closing parenthesis.
    pub(super) fn more(&mut self, first: bool, due: &str) -> Parsed<bool> {
        match self.token().sort {
            Sort::Close => {
                self.pass();
                return Ok(false);
            }
            Sort::Comma if !first => _ = self.pass(),
            _ if first => {}
            _ => return self.expected("`,` or `)`"),
        }
        match self.token().sort {
            Sort::Close | Sort::Comma | Sort::End => self.expected(due),
            _ => Ok(true),
        }
    }

    fn derivation(&mut self) -> Parsed<()> {
        let (start, place) = (self.at, self.here());
        let from = self.pass().span;
        self.put(11, 1, from);
        let (source, span) = self.name_or_none("the relation that this one comes from, or `none`")?;
        self.put_name(12, source, span);
        self.range(place, start);
        self.path(from)?;

        let (start, place) = (self.at, self.here());
        self.word("slots", "and the slots of the derivation")?;
        self.slots(17, "the current slot, a number")?;
        self.range(place, start);

        self.clause_name(19, "entity", "the entity of the derivation")?;
        self.clause_name(20, "member", "the member relation")?;
        let (start, place) = (self.at, self.here());
        match self.passes("kinds") {
            true => _ = self.kinds(21)?,
            false => self.put(21, 0, from),
        }
        self.range(place, start);
        self.word("where", "and the predicate of the derivation")?;
        self.tree(true, 1)
    }

    fn path(&mut self, span: Span) -> Parsed<()> {
        let (start, place) = (self.at, self.here());
        if !self.passes("path") {
            self.put(13, NONE, span);
            return Ok(());
        }
        let span = self.span();
        self.sign(Sort::Open, "`(` before the steps of the path")?;
        let mut counted = self.counted(13, span);
        while self.more(counted.count == 0, "a step, such as member_of 0->1, or `)`")? {
            self.one_more(&mut counted);
            let (name, span) = self.name("the relation of a step")?;
            self.put_name(14, Some(name), span);
            self.slots(15, "the current slot of the step, a number")?;
        }
        self.range(place, start);
        Ok(())
    }

    pub(super) fn slots(&mut self, kind: u8, what: &str) -> Parsed<()> {
        let (current, span) = self.number(what)?;
        self.put(kind, current, span);
        self.sign(Sort::Arrow, "`->` between the current and the related slot")?;
        let (related, span) = self.number("the related slot, a number")?;
        self.put(kind + 1, related, span);
        Ok(())
    }

    fn clause_name(&mut self, kind: u8, word: &str, what: &str) -> Parsed<()> {
        let (start, place, span) = (self.at, self.here(), self.span());
        if self.passes(word) {
            let (name, span) = self.name(what)?;
            self.put_name(kind, Some(name), span);
        } else {
            self.put_name(kind, None, span);
        }
        self.range(place, start);
        Ok(())
    }

    // ---- rules and inputs

    pub(super) fn rule(&mut self) -> Parsed<()> {
        let (start, place) = (self.at, self.here());
        let word = self.pass().span;
        let (name, span) = self.name("the name of the rule")?;
        self.put_name(23, Some(name), span);
        self.origin(24, name, span)?;
        self.word("for", "and the entity of the rule")?;
        let (entity, span) = self.name("the entity of the rule")?;
        self.put_name(25, Some(entity), span);
        self.range(place, start);
        let mut bodies = self.counted(26, word);
        while self.sees("scalar") || self.sees("judgment") {
            self.one_more(&mut bodies);
            let (start, place, judgment) = (self.at, self.here(), self.sees("judgment"));
            let span = self.pass().span;
            self.put(27, judgment.into(), span);
            self.tree(judgment, 1)?;
            self.range(place, start);
        }
        if bodies.count == 0 {
            return self.expected("`scalar` or `judgment` and the body of the rule");
        }
        Ok(())
    }

    pub(super) fn inputs(&mut self) -> Parsed<()> {
        let (start, place) = (self.at, self.here());
        let word = self.pass().span;
        let (origin, span) = self.name_or_none("the origin of the inputs, or `none`")?;
        self.put_name(29, origin, span);
        if self.sees("no") {
            let span = self.pass().span;
            self.word("sequence", "after `no`")?;
            self.put(30, NONE, span);
            self.range(place, start);
            return Ok(());
        }
        let mut items = self.counted(30, word);
        self.range(place, start);
        while self.sees("item") {
            self.one_more(&mut items);
            self.item()?;
        }
        Ok(())
    }

    fn item(&mut self) -> Parsed<()> {
        let (start, place) = (self.at, self.here());
        self.pass();
        let (name, span) = self.name_or_none("the name of the item, or `none`")?;
        self.put_name(31, name, span);
        let entity = if self.passes("of") { Some(self.name("the entity of the item")?) } else { None };
        let flag = self.span();
        let boolean = self.passes("boolean");
        self.put(32, boolean.into(), if boolean { flag } else { span });
        let at = entity.map_or(span, |(_, span)| span);
        self.put_name(33, entity.map(|(name, _)| name), at);
        self.range(place, start);
        Ok(())
    }
}
