//! The records of a pack. Every record and every node has the place of its first word.

pub const NONE: u32 = cogunwa::NONE;

#[derive(Clone)]
pub struct Pack {
    pub names: u32,
    pub defaulted: Vec<u32>,
    pub relations: Vec<Relation>,
    pub rules: Vec<Rule>,
    pub blocks: Vec<Block>,
}

#[derive(Clone)]
pub struct Relation {
    pub place: usize,
    pub name: u32,
    pub origin: Option<u32>,
    pub arity: u32,
    /// List 9.
    pub kinds: List,
    pub derivation: Option<Derivation>,
}

#[derive(Clone)]
pub struct List {
    /// Of the count word.
    pub place: usize,
    pub names: Vec<u32>,
}

#[derive(Clone)]
pub struct Derivation {
    /// Of the flag.
    pub place: usize,
    pub source: Option<u32>,
    /// An empty path is not the same as none.
    pub path: Option<Vec<Step>>,
    pub slots: Slots,
    pub entity: Option<u32>,
    pub member: Option<u32>,
    /// List 21.
    pub kinds: List,
    pub predicate: Tree,
}

#[derive(Clone)]
pub struct Step {
    pub relation: u32,
    pub slots: Slots,
}

#[derive(Clone, Copy, Debug, PartialEq, Eq)]
pub struct Slots {
    pub current: u32,
    pub related: u32,
}

#[derive(Clone)]
pub struct Rule {
    pub place: usize,
    pub name: u32,
    pub origin: Option<u32>,
    pub entity: u32,
    pub bodies: Vec<Body>,
}

#[derive(Clone)]
pub struct Body {
    /// Of the word that says which sort the tree is.
    pub place: usize,
    pub judgment: bool,
    pub tree: Tree,
}

#[derive(Clone)]
pub struct Tree {
    pub place: usize,
    pub kind: u8,
    pub value: u32,
    pub slots: Option<Slots>,
    /// What an aggregate (86), an atom or an Exists (85) has beside its relation.
    pub opaque: u32,
    /// What an OnlyRelated node asks for.
    pub asks: Option<Asked>,
    pub children: Vec<Tree>,
}

#[derive(Clone, Copy)]
pub struct Asked {
    pub derived: bool,
    pub name: u32,
}

#[derive(Clone)]
pub struct Block {
    pub place: usize,
    pub origin: Option<u32>,
    /// None where the block is no sequence.
    pub items: Option<Vec<Item>>,
}

#[derive(Clone)]
pub struct Item {
    pub place: usize,
    pub name: Option<u32>,
    pub boolean: bool,
    pub entity: Option<u32>,
}

impl Pack {
    pub fn find(&self, name: u32) -> Option<&Relation> {
        self.relations.iter().find(|r| r.name == name)
    }

    /// All trees: the bodies of rules, then the predicates of relations.
    pub fn trees(&self) -> impl Iterator<Item = &Tree> {
        let bodies = self.rules.iter().flat_map(|rule| &rule.bodies).map(|body| &body.tree);
        bodies.chain(self.relations.iter().filter_map(|r| r.derivation.as_ref()).map(|d| &d.predicate))
    }
}

impl Derivation {
    pub fn path_place(&self) -> usize {
        self.place + 2
    }

    pub fn slots_place(&self) -> usize {
        self.path_place() + 1 + 3 * self.path.as_ref().map_or(0, Vec::len)
    }
}

impl Tree {
    /// The place of the opaque word beside the relation.
    pub fn opaque_place(&self) -> usize {
        self.place + if self.slots.is_some() { 3 } else { 1 }
    }

    pub fn any(&self, is: &impl Fn(&Tree) -> bool) -> bool {
        is(self) || self.children.iter().any(|child| child.any(is))
    }

    /// The node and all nodes below it, in order.
    pub fn visit<'a>(&'a self, see: &mut impl FnMut(&'a Tree)) {
        see(self);
        for child in &self.children {
            child.visit(see);
        }
    }
}

impl Pack {
    /// The names that words of the pack hold.
    pub fn used(&self) -> std::collections::BTreeSet<u32> {
        let mut used = std::collections::BTreeSet::new();
        used.extend(&self.defaulted);
        for relation in &self.relations {
            used.insert(relation.name);
            used.extend(relation.origin.iter().chain(&relation.kinds.names));
            if let Some(d) = &relation.derivation {
                used.extend(d.source.iter().chain(&d.entity).chain(&d.member).chain(&d.kinds.names));
                used.extend(d.path.iter().flatten().map(|step| step.relation));
            }
        }
        for rule in &self.rules {
            used.extend([rule.name, rule.entity]);
            used.extend(rule.origin);
        }
        for block in &self.blocks {
            used.extend(block.origin);
            used.extend(block.items.iter().flatten().flat_map(|item| item.name.into_iter().chain(item.entity)));
        }
        for tree in self.trees() {
            tree.visit(&mut |node| {
                used.extend(node.asks.map(|asked| asked.name));
                if crate::nodes::names(node.kind) {
                    used.insert(node.value);
                }
            });
        }
        used
    }
}
