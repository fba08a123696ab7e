//! Packs built by hand: by their words, by their records, and some that are small, deep or large.

use crate::records::{Derivation, NONE, Pack, Relation, Rule, Tree, word};

/// Words one after the other.
pub struct Words(pub Vec<u32>);

impl Words {
    /// The start of a pack of so many names.
    pub fn start(names: u32) -> Words {
        let mut words = Words(vec![]);
        words.put(1, 0).put(2, names);
        words
    }

    pub fn put(&mut self, kind: u8, value: u32) -> &mut Words {
        self.0.push(word(kind, value));
        self
    }

    pub fn all(&mut self, words: &[(u8, u32)]) -> &mut Words {
        for &(kind, value) in words {
            self.put(kind, value);
        }
        self
    }

    /// The pack, its total set.
    pub fn done(self) -> Vec<u32> {
        with_total(self.0)
    }
}

/// The words with their number in the first.
pub fn with_total(mut words: Vec<u32>) -> Vec<u32> {
    words[0] = word(1, words.len() as u32);
    words
}

// ---- records

pub fn typed(name: u32, kinds: &[u32]) -> Relation {
    Relation { name, origin: NONE, arity: kinds.len() as u32, kinds: kinds.to_vec(), derived: None }
}

/// A RoleDerived: a predicate that keeps no relation from being stamped.
pub fn holds() -> Tree {
    Tree::leaf(106, 0)
}

pub fn derivation(source: u32) -> Derivation {
    Derivation {
        source,
        path: None,
        current_slot: 0,
        related_slot: 1,
        entity: NONE,
        member: NONE,
        kinds: vec![],
        predicate: holds(),
    }
}

pub fn derived(name: u32, d: Derivation) -> Relation {
    Relation { name, origin: NONE, arity: 2, kinds: vec![], derived: Some(d) }
}

pub fn rule(name: u32, entity: u32, bodies: Vec<Tree>) -> Rule {
    Rule { name, origin: NONE, entity, bodies }
}

pub fn leaf() -> Tree {
    Tree::leaf(64, 3)
}

/// A comparison.
pub fn same(a: Tree, b: Tree) -> Tree {
    Tree::new(96, 0, &[], vec![a, b])
}

/// A Count, perhaps with a where tree.
pub fn count(relation: u32, slots: (u32, u32), inner: Option<Tree>) -> Tree {
    let fields = [(80, slots.0), (81, slots.1), (86, 0), (83, inner.is_some().into())];
    Tree::new(74, relation, &fields, inner.into_iter().collect())
}

pub fn member(relation: u32, slots: (u32, u32)) -> Tree {
    Tree::new(101, relation, &[(80, slots.0), (81, slots.1)], vec![])
}

// ---- graphs of sources

/// A relation for a graph of sources: at first without lists and without a derivation. Derived, its predicate is one that
/// keeps it from being stamped.
pub fn named(name: u32) -> Relation {
    Relation { arity: 2, ..typed(name, &[]) }
}

impl Relation {
    /// List 9.
    pub fn kinds(mut self, kinds: &[u32]) -> Relation {
        self.kinds = kinds.to_vec();
        self
    }

    fn derive(mut self, change: impl FnOnce(&mut Derivation)) -> Relation {
        change(self.derived.get_or_insert_with(|| Derivation { predicate: Tree::leaf(104, 0), ..derivation(NONE) }));
        self
    }

    pub fn derived(self) -> Relation {
        self.derive(|_| ())
    }

    pub fn source(self, source: u32) -> Relation {
        self.derive(|d| d.source = source)
    }

    /// A path of so many steps; without this there is none.
    pub fn path(self, steps: u32) -> Relation {
        let name = self.name;
        self.path_over(name, steps)
    }

    /// A path of so many steps, each over a relation.
    pub fn path_over(self, relation: u32, steps: u32) -> Relation {
        self.steps(&vec![relation; steps as usize])
    }

    /// A path of steps over these relations.
    pub fn steps(self, relations: &[u32]) -> Relation {
        self.derive(|d| d.path = Some(relations.iter().map(|&relation| [relation, 0, 1]).collect()))
    }

    /// List 21.
    pub fn entities(self, kinds: &[u32]) -> Relation {
        self.derive(|d| d.kinds = kinds.to_vec())
    }

    pub fn current_slot(self, slot: u32) -> Relation {
        self.derive(|d| d.current_slot = slot)
    }

    pub fn slots(self, current: u32, related: u32) -> Relation {
        self.derive(|d| (d.current_slot, d.related_slot) = (current, related))
    }

    pub fn predicate(self, predicate: Tree) -> Relation {
        self.derive(|d| d.predicate = predicate)
    }

    pub fn origin(mut self, origin: u32) -> Relation {
        self.origin = origin;
        self
    }

    pub fn entity(self, entity: u32) -> Relation {
        self.derive(|d| d.entity = entity)
    }

    pub fn member(self, member: u32) -> Relation {
        self.derive(|d| d.member = member)
    }
}

/// A pack of these relations and nothing else. The first of them starts at word 4.
pub fn graph(n: u32, relations: &[Relation]) -> Vec<u32> {
    Pack { n, relations: relations.to_vec(), ..Pack::default() }.words()
}

/// Relations from 0 on in layers of so many, each with so many steps over the names that follow its layer: with twice as many
/// steps as a layer has relations, over all of the next two layers. The ways from the first name to the last are as many as
/// a power of the layers; the last steps are over names that no relation has.
pub fn layered(count: u32, layer: u32, steps: u32) -> Vec<Relation> {
    let next = |name: u32| (name / layer + 1) * layer;
    (0..count).map(|name| named(name).steps(&(next(name)..next(name) + steps).collect::<Vec<_>>())).collect()
}

/// Relations from 0 on, each with the next name for a source and a step over the one after that; the last two have no path, so
/// that 512 of them fit.
pub fn forked(count: u32) -> Vec<Relation> {
    let forks = |name: u32| if name + 2 < count { named(name).path_over(name + 2, 1) } else { named(name) };
    (0..count).map(|name| forks(name).source(name + 1)).collect()
}

// ---- packs of few words, and of many

/// No records.
pub fn smallest() -> Vec<u32> {
    Pack { n: 1, ..Pack::default() }.words()
}

/// The sample pack.
pub fn household() -> Vec<u32> {
    crate::replay::words_of_hex(include_str!("../../../examples/household.hex")).unwrap()
}

/// One scalar rule over the words of a body, and nothing else.
pub fn one_rule(names: u32, body: &[(u8, u32)]) -> Vec<u32> {
    let mut w = Words::start(names);
    w.all(&[(3, 0), (5, 0), (22, 1), (23, 0), (24, NONE), (25, 0), (26, 1), (27, 0)]).all(body).put(28, 0);
    w.done()
}

/// A pack of just so many words, 12 or more: one rule that adds leaves.
pub fn of_length(words: usize) -> Vec<u32> {
    let leaves = words - 12;
    let mut body = vec![(68, leaves as u32)];
    body.resize(1 + leaves, (64, 5));
    one_rule(1, &body)
}

/// A scalar body of this depth, at least 1.
pub fn nested(depth: usize) -> Vec<(u8, u32)> {
    let mut body = vec![(66, 0); depth - 1];
    body.push((64, 0));
    body
}

/// Per group five relations with two slot kinds each and eight rules with a leaf for a body: 83 words. At most 102
/// groups.
pub fn flat(groups: u32) -> Vec<u32> {
    let relations = (0..5 * groups).map(|name| typed(name, &[1, 2])).collect();
    let rules = (0..8 * groups).map(|name| rule(name, 1, vec![Tree::leaf(64, name)])).collect();
    Pack { n: 4096, relations, rules, ..Pack::default() }.words()
}

/// Rules whose bodies are nested to depth 32, three shapes in turn: where trees of sums (111 words), conditions (94) and
/// sums of two (63); five more a rule.
pub fn deep(rules: u32) -> Vec<u32> {
    let body = |name: u32| match name % 3 {
        0 => wheres(),
        1 => {
            let condition = |inner, _| Tree::new(71, 0, &[], vec![Tree::leaf(104, 0), inner, Tree::leaf(64, 2)]);
            (0..31).fold(Tree::leaf(64, 1), condition)
        }
        _ => (0..31).fold(Tree::leaf(64, 1), |inner, _| Tree::new(68, 2, &[], vec![inner, Tree::leaf(64, 1)])),
    };
    let rules = (0..rules).map(|name| rule(name, 1, vec![body(name)])).collect();
    Pack { n: 4096, relations: vec![typed(9, &[1, 2])], rules, ..Pack::default() }.words()
}

/// Sums at odd depths, each with a comparison in its where tree; at depth 32 a judgment leaf.
fn wheres() -> Tree {
    let sum = |inner| Tree::new(75, 9, &[(80, 1), (81, 0), (86, 3), (83, 1)], vec![inner]);
    (0..15).fold(sum(Tree::leaf(104, 0)), |inner, _| sum(Tree::new(96, 2, &[], vec![inner, Tree::leaf(64, 1)])))
}
