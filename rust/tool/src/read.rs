//! Words read as records. The library has checked them before; where it refused them, the reading goes as far as the
//! refused word and tells what was due there.

use crate::nodes;
use crate::pack::*;

/// What was due at the word where the reading stopped.
#[derive(Debug)]
pub struct Due {
    pub what: &'static str,
    pub kind: Option<u8>,
    pub record: Record,
}

/// The record that a word belongs to: which of its sort, from 0, and its name if that was read.
#[derive(Clone, Copy, Debug)]
pub enum Record {
    Header,
    Relation(usize, Option<u32>),
    Rule(usize, Option<u32>),
    Block(usize),
}

/// The records of words that Check accepts; `None` for words that are no pack.
pub fn read(words: &[u32]) -> Option<Pack> {
    Reader { words, at: 0, stop: usize::MAX, record: Record::Header }.pack().ok()
}

/// What is due at a place, if the words before it can be read.
pub fn due(words: &[u32], place: usize) -> Option<Due> {
    Reader { words, at: 0, stop: place, record: Record::Header }.pack().err()
}

type Read<T> = Result<T, Due>;

struct Reader<'a> {
    words: &'a [u32],
    at: usize,
    stop: usize,
    record: Record,
}

impl Reader<'_> {
    fn fail<T>(&self, kind: Option<u8>, what: &'static str) -> Read<T> {
        Err(Due { what, kind, record: self.record })
    }

    fn next(&mut self, kind: Option<u8>, what: &'static str) -> Read<(u8, u32)> {
        match self.words.get(self.at).filter(|_| self.at != self.stop) {
            Some(word) => {
                self.at += 1;
                Ok(((word >> 24) as u8, word & NONE))
            }
            None => self.fail(kind, what),
        }
    }

    fn field(&mut self, kind: u8, what: &'static str) -> Read<u32> {
        match self.next(Some(kind), what)? {
            (found, value) if found == kind => Ok(value),
            _ => self.fail(Some(kind), what),
        }
    }

    fn or_none(&mut self, kind: u8, what: &'static str) -> Read<Option<u32>> {
        Ok(Some(self.field(kind, what)?).filter(|&value| value != NONE))
    }

    fn pack(&mut self) -> Read<Pack> {
        self.field(1, "the total number of words")?;
        let names = self.field(2, "the number of names")?;
        let mut defaulted = vec![];
        for _ in 0..self.field(3, "the number of defaulted names")? {
            defaulted.push(self.field(4, "a defaulted name")?);
        }
        let mut relations = vec![];
        for i in 0..self.field(5, "the number of relations")? {
            self.record = Record::Relation(i as usize, None);
            relations.push(self.relation(i as usize)?);
        }
        self.record = Record::Header;
        let mut rules = vec![];
        for i in 0..self.field(22, "the number of rules")? {
            self.record = Record::Rule(i as usize, None);
            rules.push(self.rule(i as usize)?);
        }
        self.record = Record::Header;
        let mut blocks = vec![];
        for i in 0..self.field(28, "the number of blocks of inputs")? {
            self.record = Record::Block(i as usize);
            blocks.push(self.block()?);
        }
        self.record = Record::Header;
        if self.at < self.words.len() { self.fail(None, "the end") } else { Ok(()) }?;
        Ok(Pack { names, defaulted, relations, rules, blocks })
    }

    fn list(&mut self, kind: u8, what: &'static str) -> Read<List> {
        let place = self.at;
        let mut names = vec![];
        for _ in 0..self.field(kind, what)? {
            names.push(self.field(10, "the kind of a slot")?);
        }
        Ok(List { place, names })
    }

    fn slots(&mut self, kind: u8) -> Read<Slots> {
        let current = self.field(kind, "a current slot")?;
        Ok(Slots { current, related: self.field(kind + 1, "a related slot")? })
    }

    fn relation(&mut self, index: usize) -> Read<Relation> {
        let place = self.at;
        let name = self.field(6, "the name of a relation")?;
        self.record = Record::Relation(index, Some(name));
        let origin = self.or_none(7, "the origin of the relation")?;
        let arity = self.field(8, "the arity of the relation")?;
        let kinds = self.list(9, "the number of slot kinds of the relation")?;
        let at = self.at;
        let derived = self.field(11, "the flag that says whether a derivation follows")? == 1;
        let derivation = if derived { Some(self.derivation(at)?) } else { None };
        Ok(Relation { place, name, origin, arity, kinds, derivation })
    }

    fn derivation(&mut self, place: usize) -> Read<Derivation> {
        let source = self.or_none(12, "the source of the derivation")?;
        let path = match self.or_none(13, "the number of steps of the path")? {
            Some(count) => Some(self.path(count)?),
            None => None,
        };
        let slots = self.slots(17)?;
        let entity = self.or_none(19, "the entity of the derivation")?;
        let member = self.or_none(20, "the member relation of the derivation")?;
        let kinds = self.list(21, "the number of kinds of the derivation")?;
        let predicate = self.tree(true, 1)?;
        Ok(Derivation { place, source, path, slots, entity, member, kinds, predicate })
    }

    fn path(&mut self, count: u32) -> Read<Vec<Step>> {
        let mut steps = vec![];
        for _ in 0..count {
            let relation = self.field(14, "the relation of a path's step")?;
            steps.push(Step { relation, slots: self.slots(15)? });
        }
        Ok(steps)
    }

    fn rule(&mut self, index: usize) -> Read<Rule> {
        let place = self.at;
        let name = self.field(23, "the name of a rule")?;
        self.record = Record::Rule(index, Some(name));
        let origin = self.or_none(24, "the origin of the rule")?;
        let entity = self.field(25, "the entity of the rule")?;
        let mut bodies = vec![];
        for _ in 0..self.field(26, "the number of bodies of the rule")? {
            let place = self.at;
            let judgment = self.field(27, "the sort of a body")? == 1;
            bodies.push(Body { place, judgment, tree: self.tree(judgment, 1)? });
        }
        Ok(Rule { place, name, origin, entity, bodies })
    }

    fn block(&mut self) -> Read<Block> {
        let place = self.at;
        let origin = self.or_none(29, "the origin of the block")?;
        let items = match self.or_none(30, "the number of items of the block")? {
            Some(count) => Some(self.items(count)?),
            None => None,
        };
        Ok(Block { place, origin, items })
    }

    fn items(&mut self, count: u32) -> Read<Vec<Item>> {
        let mut items = vec![];
        for _ in 0..count {
            let place = self.at;
            let name = self.or_none(31, "the name of an item")?;
            let boolean = self.field(32, "the flag that says whether an item is Boolean")? == 1;
            items.push(Item { place, name, boolean, entity: self.or_none(33, "the entity of an item")? });
        }
        Ok(items)
    }

    fn tree(&mut self, judgment: bool, depth: u32) -> Read<Tree> {
        let place = self.at;
        let what = if judgment { "a judgment" } else { "a scalar" };
        let (kind, value) = self.next(None, what)?;
        if depth > 32 || !nodes::fits(kind, judgment) {
            return self.fail(None, what);
        }
        let mut tree = Tree { place, kind, value, slots: None, opaque: 0, asks: None, children: vec![] };
        let mut flag = false;
        if nodes::has_slots(kind) {
            tree.slots = Some(self.slots(80)?);
        }
        match kind {
            nodes::COUNT..=nodes::SINGLE => {
                tree.opaque = self.field(86, "the value that an aggregate has beside its slots")?;
                flag = self.field(83, "the flag that says whether a where tree follows")? == 1;
            }
            nodes::ONLY => tree.asks = Some(self.asked()?),
            nodes::ATOM | nodes::EXISTS => tree.opaque = self.field(85, "the terms of an atom or of Exists")?,
            _ => {}
        }
        let (judgments, scalars) = nodes::children(kind, value, flag);
        for child in 0..judgments + scalars {
            tree.children.push(self.tree(child < judgments, depth + 1)?);
        }
        Ok(tree)
    }

    fn asked(&mut self) -> Read<Asked> {
        let what = "the input or the derived name that OnlyRelated asks for";
        match self.next(None, what)? {
            (kind @ (82 | 84), name) => Ok(Asked { derived: kind == 84, name }),
            _ => self.fail(None, what),
        }
    }
}
