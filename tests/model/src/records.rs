//! The records of a pack, and the words that document 01 gives them.

use std::collections::BTreeSet;

/// "None", where a name, a path count or an item count may be none.
pub const NONE: u32 = 0xFF_FFFF;

pub fn word(kind: u8, value: u32) -> u32 {
    u32::from(kind) << 24 | value
}

/// A node with what follows it: its fields, as kinds and values, then its children.
#[derive(Clone, Debug, PartialEq)]
pub struct Tree {
    pub kind: u8,
    pub value: u32,
    pub fields: Vec<(u8, u32)>,
    pub children: Vec<Tree>,
}

#[derive(Clone, Debug, PartialEq)]
pub struct Derivation {
    pub source: u32,
    /// Steps of a relation and two slots; no path where the count is none.
    pub path: Option<Vec<[u32; 3]>>,
    pub current_slot: u32,
    pub related_slot: u32,
    pub entity: u32,
    pub member: u32,
    /// List 21.
    pub kinds: Vec<u32>,
    pub predicate: Tree,
}

#[derive(Clone, Debug, PartialEq)]
pub struct Relation {
    pub name: u32,
    pub origin: u32,
    pub arity: u32,
    /// List 9.
    pub kinds: Vec<u32>,
    pub derived: Option<Derivation>,
}

#[derive(Clone, Debug, PartialEq)]
pub struct Rule {
    /// The citing name.
    pub name: u32,
    pub origin: u32,
    pub entity: u32,
    pub bodies: Vec<Tree>,
}

#[derive(Clone, Debug, PartialEq)]
pub struct Item {
    pub name: u32,
    pub boolean: bool,
    pub entity: u32,
}

/// A block; no items where it is no sequence.
#[derive(Clone, Debug, PartialEq)]
pub struct Block {
    pub origin: u32,
    pub items: Option<Vec<Item>>,
}

#[derive(Clone, Debug, Default, PartialEq)]
pub struct Pack {
    /// N, the number of names.
    pub n: u32,
    pub defaulted: Vec<u32>,
    pub relations: Vec<Relation>,
    pub rules: Vec<Rule>,
    pub blocks: Vec<Block>,
}

/// Where parts of a relation stand: its kind 6 word, the count words of lists 9 and 21, and the predicate's root. The last two
/// are 0 without a derivation.
#[derive(Clone, Debug, Default)]
pub struct Placed {
    pub name: usize,
    pub kinds: usize,
    pub own_kinds: usize,
    pub predicate: usize,
}

/// Where relations stand, and the roots of each rule's bodies.
#[derive(Clone, Debug, Default)]
pub struct Places {
    pub relations: Vec<Placed>,
    pub bodies: Vec<Vec<usize>>,
}

impl Tree {
    pub fn new(kind: u8, value: u32, fields: &[(u8, u32)], children: Vec<Tree>) -> Tree {
        Tree { kind, value, fields: fields.to_vec(), children }
    }

    pub fn leaf(kind: u8, value: u32) -> Tree {
        Tree::new(kind, value, &[], vec![])
    }

    pub fn is_scalar(&self) -> bool {
        self.kind < 96
    }

    /// Whether some node of the tree is one of these.
    pub fn any(&self, is: &impl Fn(&Tree) -> bool) -> bool {
        is(self) || self.children.iter().any(|child| child.any(is))
    }

    /// The node at a place, where the root stands at `at`; or the place after the tree.
    fn node_at(&mut self, at: usize, place: usize) -> Result<&mut Tree, usize> {
        if at == place {
            return Ok(self);
        }
        let mut at = at + 1 + self.fields.len();
        for child in &mut self.children {
            match child.node_at(at, place) {
                Err(after) => at = after,
                found => return found,
            }
        }
        Err(at)
    }

    fn write(&self, out: &mut Vec<u32>) {
        out.push(word(self.kind, self.value));
        out.extend(self.fields.iter().map(|&(kind, value)| word(kind, value)));
        self.children.iter().for_each(|child| child.write(out));
    }
}

fn write_list(out: &mut Vec<u32>, kind: u8, names: &[u32]) {
    out.push(word(kind, names.len() as u32));
    out.extend(names.iter().map(|&name| word(10, name)));
}

impl Relation {
    fn write(&self, out: &mut Vec<u32>) -> Placed {
        let mut placed = Placed { name: out.len(), kinds: out.len() + 3, ..Placed::default() };
        out.extend([word(6, self.name), word(7, self.origin), word(8, self.arity)]);
        write_list(out, 9, &self.kinds);
        out.push(word(11, self.derived.is_some().into()));
        let Some(d) = &self.derived else { return placed };
        out.extend([word(12, d.source), word(13, d.path.as_ref().map_or(NONE, |path| path.len() as u32))]);
        for step in d.path.iter().flatten() {
            out.extend([word(14, step[0]), word(15, step[1]), word(16, step[2])]);
        }
        out.extend([word(17, d.current_slot), word(18, d.related_slot), word(19, d.entity), word(20, d.member)]);
        placed.own_kinds = out.len();
        write_list(out, 21, &d.kinds);
        placed.predicate = out.len();
        d.predicate.write(out);
        placed
    }
}

impl Rule {
    /// The roots of the bodies.
    fn write(&self, out: &mut Vec<u32>) -> Vec<usize> {
        let bodies = word(26, self.bodies.len() as u32);
        out.extend([word(23, self.name), word(24, self.origin), word(25, self.entity), bodies]);
        let body = |body: &Tree| {
            out.push(word(27, (!body.is_scalar()).into()));
            let root = out.len();
            body.write(out);
            root
        };
        self.bodies.iter().map(body).collect()
    }
}

impl Item {
    fn words(&self) -> [u32; 3] {
        [word(31, self.name), word(32, self.boolean.into()), word(33, self.entity)]
    }
}

impl Block {
    fn head(&self) -> [u32; 2] {
        [word(29, self.origin), word(30, self.items.as_ref().map_or(NONE, |items| items.len() as u32))]
    }

    fn item_words(&self) -> Vec<[u32; 3]> {
        self.items.iter().flatten().map(Item::words).collect()
    }
}

impl Pack {
    /// The words of the records, in order, and where the records stand in them.
    pub fn written(&self) -> (Vec<u32>, Places) {
        let mut out = vec![0, word(2, self.n), word(3, self.defaulted.len() as u32)];
        out.extend(self.defaulted.iter().map(|&name| word(4, name)));
        out.push(word(5, self.relations.len() as u32));
        let relations = self.relations.iter().map(|r| r.write(&mut out)).collect();
        out.push(word(22, self.rules.len() as u32));
        let bodies = self.rules.iter().map(|r| r.write(&mut out)).collect();
        out.push(word(28, self.blocks.len() as u32));
        for block in &self.blocks {
            out.extend(block.head());
            out.extend(block.item_words().concat());
        }
        out[0] = word(1, out.len() as u32);
        (out, Places { relations, bodies })
    }

    pub fn words(&self) -> Vec<u32> {
        self.written().0
    }

    /// The names of relations, of their sources and of the steps of their paths, rising.
    pub fn met(&self) -> Vec<u32> {
        let derived = || self.relations.iter().filter_map(|relation| relation.derived.as_ref());
        let sources = derived().map(|d| d.source).filter(|&source| source != NONE);
        let steps = derived().flat_map(|d| d.path.iter().flatten()).map(|step| step[0]);
        let names: BTreeSet<u32> = self.relations.iter().map(|r| r.name).chain(sources).chain(steps).collect();
        names.into_iter().collect()
    }

    /// The node that stands at a place.
    pub fn node_at(&mut self, place: usize) -> Option<&mut Tree> {
        let (_, places) = self.written();
        let predicates = self.relations.iter_mut().filter_map(|r| r.derived.as_mut()).map(|d| &mut d.predicate);
        let roots = places.relations.iter().map(|placed| placed.predicate).filter(|&root| root != 0);
        let bodies = self.rules.iter_mut().flat_map(|r| &mut r.bodies).zip(places.bodies.iter().flatten().copied());
        predicates.zip(roots).chain(bodies).find_map(|(tree, root)| tree.node_at(root, place).ok())
    }

    /// The records by their words, sorted: each as often as it stands there, a block with its items sorted.
    pub fn sorted(&self) -> Vec<Vec<u32>> {
        let mut all = vec![];
        for relation in &self.relations {
            let mut words = vec![];
            relation.write(&mut words);
            all.push(words);
        }
        for rule in &self.rules {
            let mut words = vec![];
            rule.write(&mut words);
            all.push(words);
        }
        for block in &self.blocks {
            let mut items = block.item_words();
            items.sort();
            all.push([&block.head()[..], &items.concat()].concat());
        }
        all.sort();
        all
    }
}
