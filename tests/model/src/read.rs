//! Check, from words to records; and Rewrite, back to words.

use crate::faults::{Fault::*, mistaken};
use crate::records::{Block, Derivation, Item, NONE, Pack, Places, Relation, Rule, Tree};
use crate::{MOST_WORDS, Outcome, Refusal, fits, refuse};
use std::collections::HashMap;

/// A pack that Check accepts: its records, where they stand, and which relation has a name.
#[derive(Debug)]
pub struct Reading {
    pub pack: Pack,
    pub(crate) places: Places,
    index: HashMap<u32, usize>,
}

impl Reading {
    fn of(pack: Pack) -> Reading {
        let (_, places) = pack.written();
        let index = pack.relations.iter().enumerate().map(|(i, relation)| (relation.name, i)).collect();
        Reading { pack, places, index }
    }

    /// Which relation has a name.
    pub(crate) fn declared(&self, name: u32) -> Option<usize> {
        self.index.get(&name).copied()
    }

    pub fn rewrite(&self, room: usize) -> Outcome<Vec<u32>> {
        let words = self.pack.words();
        fits(words.len(), room)?;
        Ok(words)
    }

    /// 17 for a name that the pack does not have.
    pub(crate) fn known(&self, name: u32) -> Outcome<()> {
        if name < self.pack.n { Ok(()) } else { Err(Refusal { number: 17, place: 0, name, other: 0 }) }
    }
}

pub fn check(words: &[u32]) -> Outcome<()> {
    read(words).map(drop)
}

pub fn check_bytes(bytes: &[u8]) -> Outcome<()> {
    read_bytes(bytes).map(drop)
}

/// Four bytes a word, low byte first.
pub fn read_bytes(bytes: &[u8]) -> Outcome<Reading> {
    if bytes.len() % 4 != 0 {
        return refuse(1, 0);
    }
    let word = |bytes: &[u8]| bytes.iter().rev().fold(0, |word, &byte| word << 8 | u32::from(byte));
    read(&bytes.chunks(4).map(word).collect::<Vec<u32>>())
}

pub fn read(words: &[u32]) -> Outcome<Reading> {
    if words.len() < 6 || words.len() > MOST_WORDS {
        return refuse(1, 0);
    }
    let mut reader = Reader { words, at: 0, n: 0 };
    let pack = reader.pack()?;
    if reader.at < words.len() && !mistaken(LeftOver) {
        return refuse(8, reader.at);
    }
    Ok(Reading::of(pack))
}

struct Reader<'w> {
    words: &'w [u32],
    /// The reading place.
    at: usize,
    n: u32,
}

impl Reader<'_> {
    /// The next word's kind and value, where the kind fits.
    fn next(&mut self, fits: impl Fn(u8) -> bool) -> Outcome<(u8, u32)> {
        let Some(word) = self.words.get(self.at) else {
            return refuse(3, self.at - usize::from(mistaken(LastPlace)));
        };
        let kind = (word / (1 << 24)) as u8;
        if !fits(kind) {
            return refuse(2, self.at);
        }
        self.at += 1;
        Ok((kind, word % (1 << 24)))
    }

    /// Refuses the word before the reading place by 4 where its value is not allowed.
    fn allow(&self, allowed: bool) -> Outcome<()> {
        if allowed { Ok(()) } else { refuse(4, self.at - 1) }
    }

    fn field(&mut self, kind: u8, allowed: impl Fn(u32) -> bool) -> Outcome<u32> {
        let (_, value) = self.next(|k| k == kind)?;
        self.allow(allowed(value))?;
        Ok(value)
    }

    fn any(&mut self, kind: u8) -> Outcome<u32> {
        self.field(kind, |_| true)
    }

    fn flag(&mut self, kind: u8) -> Outcome<bool> {
        Ok(self.field(kind, |value| value <= 1 || mistaken(AnyFlag))? != 0)
    }

    fn count(&mut self, kind: u8, most: u32) -> Outcome<u32> {
        self.field(kind, |value| value <= most)
    }

    /// No count where it is none.
    fn count_or_none(&mut self, kind: u8, most: u32) -> Outcome<Option<u32>> {
        let count = self.field(kind, |value| value <= most || value == NONE)?;
        Ok((count != NONE).then_some(count))
    }

    fn is_name(&self, value: u32) -> bool {
        value < self.n + u32::from(mistaken(LargeName)) || value == NONE && mistaken(NoneEverywhere)
    }

    fn name(&mut self, kind: u8) -> Outcome<u32> {
        let (_, name) = self.next(|k| k == kind)?;
        self.allow(self.is_name(name))?;
        Ok(name)
    }

    fn name_or_none(&mut self, kind: u8) -> Outcome<u32> {
        let (_, name) = self.next(|k| k == kind)?;
        self.allow(self.is_name(name) || name == NONE && !mistaken(NoneNowhere))?;
        Ok(name)
    }

    fn pack(&mut self) -> Outcome<Pack> {
        let length = self.words.len() as u32;
        self.field(1, |total| total == length || mistaken(AnyTotal))?;
        self.n = self.field(2, |n| (1..=4096).contains(&n))?;
        let mut pack = Pack { n: self.n, ..Pack::default() };
        for _ in 0..self.count(3, 512)? {
            let name = self.name(4)?;
            let rises =
                pack.defaulted.last().is_none_or(|&last| last < name || last == name && mistaken(RisingOrEqual));
            if !rises {
                return refuse(6, self.at - 1);
            }
            pack.defaulted.push(name);
        }
        for _ in 0..self.count(5, 512)? {
            let relation = self.relation(&pack.relations)?;
            pack.relations.push(relation);
        }
        for _ in 0..self.count(22, 1024)? {
            pack.rules.push(self.rule()?);
        }
        for _ in 0..self.count(28, 64)? {
            pack.blocks.push(self.block()?);
        }
        Ok(pack)
    }

    fn relation(&mut self, before: &[Relation]) -> Outcome<Relation> {
        let name = self.name(6)?;
        let before = if mistaken(UsedLater) { &before[before.len().saturating_sub(1)..] } else { before };
        if before.iter().any(|relation| relation.name == name) {
            return Err(Refusal { number: 7, place: self.at - 1, name, other: 0 });
        }
        let origin = self.name_or_none(7)?;
        let arity = self.any(8)?;
        let kinds = self.list(9)?;
        let derived = if self.flag(11)? { Some(self.derivation()?) } else { None };
        Ok(Relation { name, origin, arity, kinds, derived })
    }

    fn list(&mut self, kind: u8) -> Outcome<Vec<u32>> {
        let count = self.count(kind, if mistaken(AnyList) { NONE } else { 8 })?;
        (0..count).map(|_| self.name(10)).collect()
    }

    fn derivation(&mut self) -> Outcome<Derivation> {
        let source = self.name_or_none(12)?;
        let steps = self.count_or_none(13, if mistaken(LongPath) { 9 } else { 8 })?;
        let path = match steps {
            Some(steps) => Some((0..steps).map(|_| self.step()).collect::<Outcome<_>>()?),
            None => None,
        };
        let (current_slot, related_slot) = (self.any(17)?, self.any(18)?);
        let (entity, member) = (self.name_or_none(19)?, self.name_or_none(20)?);
        let kinds = self.list(21)?;
        let predicate = self.tree(false, 1)?;
        Ok(Derivation { source, path, current_slot, related_slot, entity, member, kinds, predicate })
    }

    fn step(&mut self) -> Outcome<[u32; 3]> {
        Ok([self.name(14)?, self.any(15)?, self.any(16)?])
    }

    fn rule(&mut self) -> Outcome<Rule> {
        let name = self.name(23)?;
        let origin = self.name_or_none(24)?;
        let entity = self.name(25)?;
        let bodies = self.field(26, |count| (1..=64).contains(&count) || count == 0 && mistaken(NoBodies))?;
        Ok(Rule { name, origin, entity, bodies: (0..bodies).map(|_| self.body()).collect::<Outcome<_>>()? })
    }

    fn body(&mut self) -> Outcome<Tree> {
        let judgment = self.flag(27)?;
        self.tree(!judgment, 1)
    }

    fn block(&mut self) -> Outcome<Block> {
        let origin = self.name_or_none(29)?;
        let items = match self.count_or_none(30, 1024)? {
            Some(count) => Some((0..count).map(|_| self.item()).collect::<Outcome<_>>()?),
            None => None,
        };
        Ok(Block { origin, items })
    }

    fn item(&mut self) -> Outcome<Item> {
        Ok(Item { name: self.name_or_none(31)?, boolean: self.flag(32)?, entity: self.name_or_none(33)? })
    }

    fn tree(&mut self, scalar: bool, depth: u32) -> Outcome<Tree> {
        let too_deep = depth == 33 && !mistaken(NoDepth);
        if too_deep && mistaken(KindAfterDepth) && self.at < self.words.len() {
            return refuse(5, self.at);
        }
        let (kind, value) = self.next(|kind| match kind {
            64..=78 => scalar || mistaken(AnySort),
            96..=106 => !scalar || mistaken(AnySort),
            _ => false,
        })?;
        let allowed = match kind {
            65 | 74..=78 | 101..=103 | 105 => self.is_name(value),
            71 | 100 => value == 0 || mistaken(AnyNot),
            73 => value <= if mistaken(LargePeriods) { 8 } else { 7 },
            _ => true,
        };
        if too_deep && (allowed || !mistaken(DepthAfterValue)) {
            return refuse(5, self.at - 1);
        }
        self.allow(allowed)?;

        let mut node = Tree::leaf(kind, value);
        for field in fields(kind) {
            let field = match field {
                Field::Any(kind) => (*kind, self.any(*kind)?),
                Field::Flag(kind) => (*kind, self.flag(*kind)?.into()),
                Field::Value => {
                    let (kind, name) = self.next(|kind| kind == 82 || kind == 84)?;
                    self.allow(self.is_name(name))?;
                    (kind, name)
                }
            };
            node.fields.push(field);
        }
        let below = if (74..=77).contains(&kind) && mistaken(WhereDepth) { depth } else { depth + 1 };
        let (judgments, scalars) = children(&node);
        for child in 0..judgments + scalars {
            node.children.push(self.tree(child >= judgments, below)?);
        }
        Ok(node)
    }
}

enum Field {
    Any(u8),
    Flag(u8),
    /// An input or a derived name.
    Value,
}

/// The fields that follow a node's word.
fn fields(kind: u8) -> &'static [Field] {
    match kind {
        74..=77 => &[Field::Any(80), Field::Any(81), Field::Any(86), Field::Flag(83)],
        78 => &[Field::Any(80), Field::Any(81), Field::Value],
        101 => &[Field::Any(80), Field::Any(81)],
        102 | 103 => &[Field::Any(85)],
        _ => &[],
    }
}

/// How many judgments are a node's first children, and how many scalars come after them.
pub(crate) fn children(node: &Tree) -> (u32, u32) {
    match node.kind {
        66 => (0, 1),
        67 | 96 => (0, 2),
        68..=70 => (0, node.value),
        71 => (1, 2),
        72 => (0, node.value + 1),
        73 => (0, 1 + node.value % 2),
        74..=77 => (node.fields[3].1, 0),
        97..=99 => (node.value, 0),
        100 | 103 => (1, 0),
        _ => (0, 0),
    }
}
